//! Fields of the calls format: a number is 8 bytes, little-endian; a byte string is its length and its bytes.

/// The input is malformed from here on.
#[derive(Debug)]
pub struct Bad;

#[derive(Clone, Copy)]
pub struct Fields<'a>(pub &'a [u8]);

impl<'a> Fields<'a> {
    pub fn take(&mut self, len: usize) -> Result<&'a [u8], Bad> {
        if len > self.0.len() {
            return Err(Bad);
        }
        let (taken, rest) = self.0.split_at(len);
        self.0 = rest;
        Ok(taken)
    }

    pub fn n(&mut self) -> Result<u64, Bad> {
        let bytes = self.take(8)?;
        Ok(u64::from_le_bytes(bytes.try_into().expect("8 bytes")))
    }

    /// A number that the tables bound.
    pub fn most(&mut self, bound: u64) -> Result<u64, Bad> {
        let n = self.n()?;
        if n <= bound {
            Ok(n)
        } else {
            Err(Bad)
        }
    }

    pub fn flag(&mut self) -> Result<bool, Bad> {
        Ok(self.most(1)? == 1)
    }

    pub fn word(&mut self) -> Result<u32, Bad> {
        Ok(self.most(u32::MAX.into())? as u32)
    }

    pub fn b(&mut self) -> Result<Vec<u8>, Bad> {
        let len = self.n()?;
        let len = usize::try_from(len).map_err(|_| Bad)?;
        Ok(self.take(len)?.to_vec())
    }
}

pub fn put_n(out: &mut Vec<u8>, n: u64) {
    out.extend(n.to_le_bytes());
}

pub fn put_b(out: &mut Vec<u8>, bytes: &[u8]) {
    put_n(out, bytes.len() as u64);
    out.extend(bytes);
}

/// Lowercase, `-` for no bytes.
pub fn hex(bytes: &[u8]) -> String {
    if bytes.is_empty() {
        return "-".into();
    }
    bytes.iter().map(|byte| format!("{byte:02x}")).collect()
}
