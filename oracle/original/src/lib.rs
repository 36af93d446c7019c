//! Files of lsm-tree 3.1.10, unmodified, under a root of our own: the originals come in by `include!` from the copies
//! that build.rs has checked, and everything else in this package is a stand-in or the judge's `door`.

#![allow(dead_code, unused_imports, unexpected_cfgs, clippy::all)]

#[cfg(debug_assertions)]
compile_error!("document 01's oracle is a release build: use --release");

pub type HashMap<Id, It> = std::collections::HashMap<Id, It, rustc_hash::FxBuildHasher>;
pub(crate) type HashSet<It> = std::collections::HashSet<It, rustc_hash::FxBuildHasher>;

/// In an iterator's step: goes on with the good result, or hands out the other.
macro_rules! fail_iter {
    ($result:expr) => {
        match $result {
            Err(refusal) => return Some(Err(refusal.into())),
            Ok(it) => it,
        }
    };
}

/// The checked copy of an original file.
macro_rules! original {
    ($path:literal) => {
        include!(concat!(env!("OUT_DIR"), "/src/", $path));
    };
}

pub mod checksum {
    original!("checksum.rs");
}
pub mod coding {
    original!("coding.rs");
}
pub mod file {
    original!("file.rs");
}
pub mod hash {
    original!("hash.rs");
}
pub mod time {
    original!("time.rs");
}
pub mod vlog {
    original!("vlog/mod.rs");
}
pub mod blob_tree {
    pub mod gc {
        original!("blob_tree/gc.rs");
    }
    pub mod handle {
        original!("blob_tree/handle.rs");
    }
    pub use gc::{FragmentationEntry, FragmentationMap};
}

pub mod compaction;
pub mod config;
pub mod door;
pub mod file_accessor;
mod plain;
pub mod slice;
pub mod table;
pub mod version;

pub use blob_tree::handle::BlobIndirection;
pub use checksum::Checksum;
pub use file_accessor::DescriptorTable;
pub use plain::{
    CompressionType, Error, GlobalTableId, InternalValue, KeyRange, Result, SeqNo, SequenceNumberCounter,
    TableId, TreeId, ValueType,
};
pub use slice::Slice;
pub use table::Table;
pub use vlog::BlobFile;

pub type UserKey = Slice;
pub type UserValue = Slice;
