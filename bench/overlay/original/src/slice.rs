//! The crate's byte string as its speed needs it: up to 20 bytes lie in the value itself, more are shared; a part of a
//! shared one is shared too. Bytes that are read are set aside once, and not zeroed first.

use std::cmp::Ordering;
use std::hash::{Hash, Hasher};
use std::io::Read;
use std::mem::MaybeUninit;
use std::ops::{Deref, DerefMut, RangeFrom};
use std::sync::Arc;

const SHORT: usize = 20;

#[derive(Clone)]
pub enum Slice {
    Short(u8, [u8; SHORT]),
    Long(Arc<[u8]>, usize),
}

impl Slice {
    pub fn from_reader<R: Read>(reader: &mut R, len: usize) -> std::io::Result<Self> {
        if len <= SHORT {
            let mut bytes = [0; SHORT];
            reader.read_exact(&mut bytes[..len])?;
            return Ok(Self::Short(len as u8, bytes));
        }
        let mut builder = unsafe { Self::builder_unzeroed(len) };
        reader.read_exact(&mut builder)?;
        Ok(builder.freeze())
    }

    /// As in the crate, the originals borrow these bytes as `&mut [u8]` and read into them: by the letter of the language undefined
    /// while they are unwritten. Zeroing them first would cost the peer time that the crate does not spend.
    ///
    /// # Safety
    ///
    /// All bytes must be written before they are read.
    pub unsafe fn builder_unzeroed(len: usize) -> Builder {
        let room: Arc<[MaybeUninit<u8>]> = Arc::new_uninit_slice(len);
        Builder(unsafe { room.assume_init() })
    }

    pub fn slice(&self, range: RangeFrom<usize>) -> Self {
        match self {
            Self::Long(all, from) if self.len() - range.start > SHORT => Self::Long(all.clone(), from + range.start),
            _ => Self::from(&self[range]),
        }
    }
}

impl Deref for Slice {
    type Target = [u8];

    fn deref(&self) -> &[u8] {
        match self {
            Self::Short(len, bytes) => &bytes[..*len as usize],
            Self::Long(all, from) => &all[*from..],
        }
    }
}

impl AsRef<[u8]> for Slice {
    fn as_ref(&self) -> &[u8] {
        self
    }
}

impl From<&[u8]> for Slice {
    fn from(bytes: &[u8]) -> Self {
        if bytes.len() <= SHORT {
            let mut short = [0; SHORT];
            short[..bytes.len()].copy_from_slice(bytes);
            Self::Short(bytes.len() as u8, short)
        } else {
            Self::Long(bytes.into(), 0)
        }
    }
}

impl From<&str> for Slice {
    fn from(text: &str) -> Self {
        text.as_bytes().into()
    }
}

impl From<Vec<u8>> for Slice {
    fn from(bytes: Vec<u8>) -> Self {
        bytes[..].into()
    }
}

impl std::fmt::Debug for Slice {
    fn fmt(&self, f: &mut std::fmt::Formatter<'_>) -> std::fmt::Result {
        self[..].fmt(f)
    }
}

impl PartialEq for Slice {
    fn eq(&self, other: &Self) -> bool {
        self[..] == other[..]
    }
}

impl Eq for Slice {}

impl PartialOrd for Slice {
    fn partial_cmp(&self, other: &Self) -> Option<Ordering> {
        Some(self.cmp(other))
    }
}

impl Ord for Slice {
    fn cmp(&self, other: &Self) -> Ordering {
        self[..].cmp(&other[..])
    }
}

impl Hash for Slice {
    fn hash<H: Hasher>(&self, state: &mut H) {
        self[..].hash(state);
    }
}

impl PartialEq<&[u8]> for Slice {
    fn eq(&self, other: &&[u8]) -> bool {
        self[..] == **other
    }
}

impl PartialOrd<&[u8]> for Slice {
    fn partial_cmp(&self, other: &&[u8]) -> Option<Ordering> {
        self[..].partial_cmp(*other)
    }
}

pub struct Builder(Arc<[u8]>);

impl Builder {
    pub fn freeze(self) -> Slice {
        Slice::Long(self.0, 0)
    }
}

impl Deref for Builder {
    type Target = [u8];

    fn deref(&self) -> &[u8] {
        &self.0
    }
}

impl DerefMut for Builder {
    fn deref_mut(&mut self) -> &mut [u8] {
        Arc::get_mut(&mut self.0).expect("not shared yet")
    }
}
