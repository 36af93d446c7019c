//! Stand-ins for the tables and their blocks. The metadata block behind META is empty, and a table writer only
//! remembers what it was given.

use crate::config::Cache;
use crate::{Checksum, CompressionType, DescriptorTable, InternalValue, Result, SeqNo, TableId, TreeId};
use std::io::{Read, Write};
use std::path::PathBuf;
use std::sync::Arc;

pub mod block {
    pub enum BlockType {
        Meta,
    }
}

pub mod filter {
    #[derive(Clone, Copy)]
    pub enum BloomConstructionPolicy {
        BitsPerKey(f32),
    }
}

pub struct Block;

impl Block {
    pub fn write_into<W: Write>(
        writer: &mut W,
        data: &[u8],
        _block_type: block::BlockType,
        _compression: CompressionType,
    ) -> Result<()> {
        Ok(writer.write_all(data)?)
    }

    pub fn from_reader<R: Read>(_reader: &mut R, _compression: CompressionType) -> Result<Self> {
        Err(crate::Error::Unrecoverable)
    }
}

pub struct DataBlock;

impl DataBlock {
    pub fn new(_block: Block) -> Self {
        Self
    }

    pub fn encode_into_vec(_items: &[InternalValue], _interval: u8, _ratio: f32) -> Result<Vec<u8>> {
        Ok(Vec::new())
    }

    pub fn point_read(&self, _key: &[u8], _seqno: SeqNo) -> Option<InternalValue> {
        None
    }
}

#[derive(Clone)]
pub struct Table;

impl Table {
    #[allow(clippy::too_many_arguments)]
    pub fn recover(
        _path: PathBuf,
        _checksum: Checksum,
        _seqno: SeqNo,
        _tree: TreeId,
        _cache: Arc<Cache>,
        _descriptors: Option<Arc<DescriptorTable>>,
        _pin_filter: bool,
        _pin_index: bool,
    ) -> Result<Self> {
        Ok(Self)
    }

    pub fn mark_as_deleted(&self) {}
}

pub mod multi_writer {
    use super::filter::BloomConstructionPolicy;
    use super::*;
    use crate::{BlobIndirection, SequenceNumberCounter};

    pub struct MultiWriter {
        pub base_path: PathBuf,
        pub written: Vec<InternalValue>,
        pub registered: Vec<BlobIndirection>,
    }

    macro_rules! settings {
        ($($name:ident: $type:ty),*) => {
            $(pub fn $name(self, _setting: $type) -> Self {
                self
            })*
        };
    }

    impl MultiWriter {
        pub fn new(
            base_path: PathBuf,
            _ids: SequenceNumberCounter,
            _target: u64,
            _level: u8,
        ) -> Result<Self> {
            Ok(Self { base_path, written: Vec::new(), registered: Vec::new() })
        }

        pub fn use_partitioned_index(self) -> Self {
            self
        }

        pub fn use_partitioned_filter(self) -> Self {
            self
        }

        settings! {
            use_data_block_restart_interval: u8,
            use_index_block_restart_interval: u8,
            use_data_block_compression: CompressionType,
            use_index_block_compression: CompressionType,
            use_data_block_size: u32,
            use_data_block_hash_ratio: f32,
            use_bloom_policy: BloomConstructionPolicy
        }

        pub fn write(&mut self, item: InternalValue) -> Result<()> {
            self.written.push(item);
            Ok(())
        }

        pub fn register_blob(&mut self, indirection: BlobIndirection) {
            self.registered.push(indirection);
        }

        pub fn finish(self) -> Result<Vec<(TableId, Checksum)>> {
            Ok(Vec::new())
        }
    }
}
