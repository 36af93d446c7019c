//! Stand-in for the crate's byte string: bytes that compare as byte strings do. A stated length is not set aside before
//! its bytes are there, so that a damaged length costs no memory; the original's sets it aside first.

use std::cmp::Ordering;
use std::io::{Error, ErrorKind, Read};
use std::ops::{Deref, DerefMut, RangeFrom};

#[derive(Clone, Debug, PartialEq, Eq, PartialOrd, Ord, Hash)]
pub struct Slice(Vec<u8>);

impl Slice {
    pub fn from_reader<R: Read>(reader: &mut R, len: usize) -> std::io::Result<Self> {
        let mut bytes = Vec::new();
        reader.take(len as u64).read_to_end(&mut bytes)?;
        if bytes.len() == len {
            Ok(Self(bytes))
        } else {
            Err(Error::from(ErrorKind::UnexpectedEof))
        }
    }

    /// The original's bytes are uninitialised; these are zero, by pages that the system hands out when touched.
    ///
    /// # Safety
    ///
    /// None is asked: the name and the word `unsafe` are the original's.
    pub unsafe fn builder_unzeroed(len: usize) -> Builder {
        Builder(vec![0; len])
    }

    pub fn slice(&self, range: RangeFrom<usize>) -> Self {
        Self(self.0[range].to_vec())
    }
}

impl Deref for Slice {
    type Target = [u8];

    fn deref(&self) -> &[u8] {
        &self.0
    }
}

impl AsRef<[u8]> for Slice {
    fn as_ref(&self) -> &[u8] {
        &self.0
    }
}

impl From<&[u8]> for Slice {
    fn from(bytes: &[u8]) -> Self {
        Self(bytes.to_vec())
    }
}

impl From<&str> for Slice {
    fn from(text: &str) -> Self {
        Self(text.as_bytes().to_vec())
    }
}

impl From<Vec<u8>> for Slice {
    fn from(bytes: Vec<u8>) -> Self {
        Self(bytes)
    }
}

impl PartialEq<&[u8]> for Slice {
    fn eq(&self, other: &&[u8]) -> bool {
        self.0 == *other
    }
}

impl PartialOrd<&[u8]> for Slice {
    fn partial_cmp(&self, other: &&[u8]) -> Option<Ordering> {
        self.0[..].partial_cmp(other)
    }
}

pub struct Builder(Vec<u8>);

impl Builder {
    pub fn freeze(self) -> Vec<u8> {
        self.0
    }
}

impl Deref for Builder {
    type Target = [u8];

    fn deref(&self) -> &[u8] {
        &self.0
    }
}

impl DerefMut for Builder {
    fn deref_mut(&mut self) -> &mut [u8] {
        &mut self.0
    }
}
