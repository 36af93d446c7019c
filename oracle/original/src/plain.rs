//! Stand-ins for the crate's small types: names, numbers and pairs without behaviour of their own.

use crate::coding::{Decode, Encode};
use crate::{Checksum, UserKey, UserValue};
use std::io::{Read, Write};
use std::sync::atomic::{AtomicU64, Ordering};
use std::sync::Arc;

pub type SeqNo = u64;
pub type TreeId = u64;
pub type TableId = u64;
pub type Result<T> = std::result::Result<T, Error>;

#[derive(Debug)]
pub enum Error {
    Io(std::io::Error),
    InvalidHeader(&'static str),
    ChecksumMismatch { got: Checksum, expected: Checksum },
    Unrecoverable,
}

impl From<std::io::Error> for Error {
    fn from(e: std::io::Error) -> Self {
        Self::Io(e)
    }
}

#[derive(Copy, Clone, Debug, PartialEq, Eq)]
pub enum CompressionType {
    None,
}

impl Encode for CompressionType {
    fn encode_into<W: Write>(&self, writer: &mut W) -> Result<()> {
        Ok(writer.write_all(&[0])?)
    }
}

impl Decode for CompressionType {
    fn decode_from<R: Read>(_reader: &mut R) -> Result<Self> {
        Ok(Self::None)
    }
}

#[derive(Clone, Debug, PartialEq, Eq)]
pub struct KeyRange((UserKey, UserKey));

impl KeyRange {
    pub fn new(range: (UserKey, UserKey)) -> Self {
        Self(range)
    }

    pub fn min(&self) -> &UserKey {
        &self.0 .0
    }

    pub fn max(&self) -> &UserKey {
        &self.0 .1
    }
}

#[derive(Copy, Clone, Debug, PartialEq, Eq, Hash)]
pub struct GlobalTableId(TreeId, TableId);

impl From<(TreeId, TableId)> for GlobalTableId {
    fn from((tree, table): (TreeId, TableId)) -> Self {
        Self(tree, table)
    }
}

/// A shared counter: each call of `next` hands out the number and steps on, from the last one to 0.
#[derive(Clone, Debug, Default)]
pub struct SequenceNumberCounter(Arc<AtomicU64>);

impl SequenceNumberCounter {
    pub fn new(first: u64) -> Self {
        Self(Arc::new(AtomicU64::new(first)))
    }

    pub fn next(&self) -> u64 {
        self.0.fetch_add(1, Ordering::AcqRel)
    }

    pub fn get(&self) -> u64 {
        self.0.load(Ordering::Acquire)
    }
}

#[derive(Copy, Clone, Debug, PartialEq, Eq)]
pub enum ValueType {
    Value,
    Indirection,
}

impl ValueType {
    pub fn is_indirection(self) -> bool {
        self == Self::Indirection
    }
}

#[derive(Clone, Debug)]
pub struct InternalKey {
    pub user_key: UserKey,
    pub seqno: SeqNo,
    pub value_type: ValueType,
}

#[derive(Clone, Debug)]
pub struct InternalValue {
    pub key: InternalKey,
    pub value: UserValue,
}

impl InternalValue {
    pub fn from_components(
        key: impl Into<UserKey>,
        value: impl Into<UserValue>,
        seqno: SeqNo,
        value_type: ValueType,
    ) -> Self {
        Self { key: InternalKey { user_key: key.into(), seqno, value_type }, value: value.into() }
    }
}
