//! The originals with nothing around them: what the measurements call.

use super::point::{blob_file, Report};
use crate::blob_tree::{FragmentationEntry, FragmentationMap};
use crate::coding::{Decode, Encode};
use crate::compaction::stream::DroppedKvCallback;
use crate::vlog::blob_file::reader::Reader;
use crate::vlog::blob_file::writer::Writer;
use crate::vlog::ValueHandle;
use crate::{BlobFile, InternalValue, UserValue, ValueType};
use std::fs::File;

pub struct Point {
    blob: BlobFile,
    file: File,
}

impl Point {
    pub fn new(file: File) -> Self {
        Self { blob: blob_file(0, Report::default()), file }
    }

    pub fn get(&self, key: &[u8], offset: u64, size: u32) -> UserValue {
        let handle = ValueHandle { blob_file_id: 0, offset, on_disk_size: size };
        Reader::new(&self.blob, &self.file).get(key, &handle).expect("a value")
    }
}

/// Offset, items, on-disk and stated bytes; and the first and the last key.
pub fn told(writer: &Writer) -> ([u64; 4], [Vec<u8>; 2]) {
    let key = |key: &Option<crate::UserKey>| key.as_ref().map_or(Vec::new(), |k| k.to_vec());
    let numbers = [writer.offset(), writer.item_count, writer.written_blob_bytes, writer.uncompressed_bytes];
    (numbers, [key(&writer.first_key), key(&writer.last_key)])
}

#[derive(Default)]
pub struct Map(pub FragmentationMap);

pub fn record(bytes: &[u8]) -> InternalValue {
    InternalValue::from_components("", bytes, 0, ValueType::Indirection)
}

impl Map {
    pub fn drop(&mut self, item: &InternalValue) {
        self.0.on_dropped(item);
    }

    /// Of each id, its two totals as one.
    pub fn totals(&self) -> impl Iterator<Item = (u64, u64)> + '_ {
        self.0.iter().map(|(id, e)| (*id, e.bytes + e.on_disk_bytes))
    }

    /// Id, frames, stated and on-disk bytes, by id.
    pub fn entries(&self) -> Vec<[u64; 4]> {
        let one = |(id, e): (&u64, &FragmentationEntry)| [*id, e.len as u64, e.bytes, e.on_disk_bytes];
        let mut all: Vec<_> = self.0.iter().map(one).collect();
        all.sort();
        all
    }

    pub fn store(&self, to: &mut Vec<u8>) {
        self.0.encode_into(to).expect("a list takes everything");
    }

    /// What follows is left.
    pub fn load(bytes: &mut &[u8]) -> Self {
        Self(FragmentationMap::decode_from(bytes).expect("a stored map"))
    }
}
