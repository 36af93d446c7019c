//! The fragmentation map of gc.rs, and the verdicts of blob_file/mod.rs.

use super::point::{blob_file, Report};
use super::{unless_it_panics, Refusal};
use crate::blob_tree::{FragmentationEntry, FragmentationMap};
use crate::coding::{Decode, Encode};
use crate::compaction::stream::DroppedKvCallback;
use crate::version::BlobFileList;
use crate::{InternalValue, ValueType};

#[derive(Clone, Copy, Debug, PartialEq, Eq)]
pub struct Entry {
    pub frames: u64,
    pub stated: u64,
    pub disk: u64,
}

#[derive(Clone, Debug, Default)]
pub struct Map(FragmentationMap);

impl Map {
    pub fn with(entries: impl IntoIterator<Item = (u64, Entry)>) -> Self {
        let mut map = Self::default();
        for (id, e) in entries {
            let entry = FragmentationEntry::new(e.frames as usize, e.stated, e.disk);
            map.0.insert(id, entry);
        }
        map
    }

    pub fn get(&self, id: u64) -> Option<Entry> {
        self.0.get(&id).map(|e| Entry { frames: e.len as u64, stated: e.bytes, disk: e.on_disk_bytes })
    }

    pub fn ids(&self) -> Vec<u64> {
        self.0.keys().copied().collect()
    }

    /// False where the record does not decode: the original ends there.
    pub fn drop(&mut self, marked: bool, record: &[u8]) -> bool {
        let kind = if marked { ValueType::Indirection } else { ValueType::Value };
        let item = InternalValue::from_components("", record, 0, kind);
        unless_it_panics(|| self.0.on_dropped(&item)).is_some()
    }

    pub fn merge_into(self, other: &mut Self) {
        self.0.merge_into(&mut other.0);
    }

    /// The stored form, its entries in the map's own order.
    pub fn store(&self) -> Vec<u8> {
        self.0.encode_into_vec()
    }

    pub fn load(bytes: &[u8]) -> Result<(Self, usize), Refusal> {
        let mut rest = bytes;
        let map = FragmentationMap::decode_from(&mut rest)?;
        Ok((Self(map), bytes.len() - rest.len()))
    }

    pub fn prune(&mut self, kept: &[u64]) {
        let file = |&id| (id, blob_file(id, Report::default()));
        self.0.prune(&BlobFileList::new(kept.iter().map(file).collect()));
    }

    pub fn stale_bytes(&self) -> u64 {
        self.0.stale_bytes()
    }

    pub fn is_dead(&self, id: u64, report: Report) -> bool {
        blob_file(id, report).is_dead(&self.0)
    }

    pub fn is_stale(&self, id: u64, report: Report, threshold: f32) -> bool {
        blob_file(id, report).is_stale(&self.0, threshold)
    }
}
