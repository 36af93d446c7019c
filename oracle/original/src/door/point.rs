//! A point read by reader.rs, and the blob file that it and the verdicts are asked about.

use super::Refusal;
use crate::file_accessor::FileAccessor;
use crate::vlog::blob_file::reader::Reader;
use crate::vlog::blob_file::{Inner, Metadata};
use crate::vlog::ValueHandle;
use crate::{BlobFile, Checksum, CompressionType, KeyRange};
use std::fs::File;
use std::sync::{atomic::AtomicBool, Arc};

/// A file's report, as its metadata has it.
#[derive(Clone, Copy, Default)]
pub struct Report {
    pub items: u64,
    pub disk: u64,
    pub stated: u64,
}

pub(super) fn blob_file(id: u64, report: Report) -> BlobFile {
    let empty = || crate::UserKey::from(&[][..]);
    BlobFile(Arc::new(Inner {
        id,
        tree_id: 0,
        path: "/dev/null".into(),
        is_deleted: AtomicBool::new(false),
        checksum: Checksum::from_raw(0),
        file_accessor: FileAccessor::File(Arc::new(File::open("/dev/null").expect("/dev/null"))),
        meta: Metadata {
            id,
            created_at: 0,
            item_count: report.items,
            total_compressed_bytes: report.disk,
            total_uncompressed_bytes: report.stated,
            key_range: KeyRange::new((empty(), empty())),
            compression: CompressionType::None,
        },
    }))
}

pub fn read(file: &File, key: &[u8], id: u64, offset: u64, size: u32) -> Result<Vec<u8>, Refusal> {
    let handle = ValueHandle { blob_file_id: id, offset, on_disk_size: size };
    let value = Reader::new(&blob_file(id, Report::default()), file).get(key, &handle)?;
    Ok(value.to_vec())
}
