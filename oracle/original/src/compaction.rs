//! The original flavour.rs, and stand-ins for what it leans on.

use crate::{HashSet, TableId};

pub mod flavour {
    original!("compaction/flavour.rs");

    /// The drain is private to its file; this hands it to the judge.
    pub fn drain<Entries>(
        from: &mut Peekable<Entries>,
        sought: &[u8],
        at: &BlobIndirection,
    ) -> crate::Result<()>
    where
        Entries: Iterator<Item = crate::Result<(ScanEntry, BlobFileId)>>,
    {
        drain_blobs(from, sought, at)
    }
}

pub mod stream {
    pub trait DroppedKvCallback {
        fn on_dropped(&mut self, kv: &crate::InternalValue);
    }
}

pub mod worker {
    use crate::{config::Config, SequenceNumberCounter, TreeId};
    use std::sync::Arc;

    pub struct Options {
        pub tree_id: TreeId,
        pub global_seqno: SequenceNumberCounter,
        pub visible_seqno: SequenceNumberCounter,
        pub table_id_generator: SequenceNumberCounter,
        pub config: Arc<Config>,
        pub mvcc_gc_watermark: u64,
    }
}

pub struct Input {
    pub table_ids: HashSet<TableId>,
    pub dest_level: u8,
    pub canonical_level: u8,
    pub target_size: u64,
}
