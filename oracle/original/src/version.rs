//! Stand-ins for the versions of a tree: the list of blob files by id, and a version that nothing is merged into.

use crate::blob_tree::FragmentationMap;
use crate::vlog::BlobFileId;
use crate::{BlobFile, HashSet, Result, SequenceNumberCounter, Table, TableId};
use std::collections::BTreeMap;
use std::path::Path;

#[derive(Clone, Default)]
pub struct BlobFileList(BTreeMap<BlobFileId, BlobFile>);

impl BlobFileList {
    pub fn new(files: BTreeMap<BlobFileId, BlobFile>) -> Self {
        Self(files)
    }

    pub fn contains_key(&self, id: BlobFileId) -> bool {
        self.0.contains_key(&id)
    }

    pub fn iter(&self) -> impl Iterator<Item = &BlobFile> {
        self.0.values()
    }
}

#[derive(Clone, Default)]
pub struct Version {
    pub blob_files: BlobFileList,
    gc_stats: FragmentationMap,
}

impl Version {
    pub fn level_count(&self) -> usize {
        7
    }

    pub fn gc_stats(&self) -> &FragmentationMap {
        &self.gc_stats
    }

    pub fn with_merge(
        &self,
        _old_tables: &[TableId],
        _new_tables: &[Table],
        _level: usize,
        _diff: Option<FragmentationMap>,
        _new_files: Vec<BlobFile>,
        _dropped_files: &HashSet<BlobFileId>,
    ) -> Self {
        self.clone()
    }
}

#[derive(Clone, Default)]
pub struct SuperVersion {
    pub version: Version,
}

pub struct SuperVersions(SuperVersion);

impl SuperVersions {
    pub fn latest_version(&self) -> SuperVersion {
        self.0.clone()
    }

    pub fn upgrade_version(
        &mut self,
        _path: &Path,
        change: impl FnOnce(&SuperVersion) -> Result<SuperVersion>,
        _seqno: &SequenceNumberCounter,
        _visible: &SequenceNumberCounter,
    ) -> Result<()> {
        self.0 = change(&self.0)?;
        Ok(())
    }
}
