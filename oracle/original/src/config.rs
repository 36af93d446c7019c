//! Stand-in for the configuration: one setting for all levels. The table compaction that reads it is not judged.

use crate::table::filter::BloomConstructionPolicy;
use crate::{CompressionType, DescriptorTable};
use std::path::PathBuf;
use std::sync::Arc;

pub struct Policy<T>(pub T);

impl<T: Copy> Policy<T> {
    pub fn get(&self, _level: usize) -> T {
        self.0
    }
}

#[derive(Clone, Copy)]
pub enum FilterPolicyEntry {
    Bloom(BloomConstructionPolicy),
    None,
}

pub struct Cache;

pub struct Config {
    pub path: PathBuf,
    pub cache: Arc<Cache>,
    pub descriptor_table: Option<Arc<DescriptorTable>>,
    pub expect_point_read_hits: bool,
    pub data_block_size_policy: Policy<u32>,
    pub data_block_restart_interval_policy: Policy<u8>,
    pub index_block_restart_interval_policy: Policy<u8>,
    pub data_block_compression_policy: Policy<CompressionType>,
    pub index_block_compression_policy: Policy<CompressionType>,
    pub data_block_hash_ratio_policy: Policy<f32>,
    pub index_block_partitioning_policy: Policy<bool>,
    pub filter_block_partitioning_policy: Policy<bool>,
    pub filter_block_pinning_policy: Policy<bool>,
    pub index_block_pinning_policy: Policy<bool>,
    pub filter_policy: Policy<FilterPolicyEntry>,
}
