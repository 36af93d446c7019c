//! Files written by multi_writer.rs, with rotation, and beside it by writer.rs alone, whose counts can be seen.

use super::unless_it_panics;
use crate::vlog::blob_file::multi_writer::MultiWriter;
use crate::vlog::blob_file::writer::Writer;
use crate::SequenceNumberCounter;
use std::fs;
use std::path::{Path, PathBuf};

#[derive(Clone, Copy, Debug, PartialEq, Eq)]
pub struct Handle {
    pub id: u64,
    pub offset: u64,
    pub size: u32,
}

/// Where a key lies in its file.
#[derive(Clone, Copy, Debug, Default, PartialEq, Eq)]
pub struct Place {
    pub at: u64,
    pub len: u64,
}

#[derive(Clone, Copy, Debug, PartialEq, Eq)]
pub struct Report {
    pub items: u64,
    pub disk: u64,
    pub stated: u64,
    pub first: Place,
    pub last: Place,
}

pub struct Files {
    folder: PathBuf,
    ids: SequenceNumberCounter,
    target: u64,
    /// Gone once the file is finished by a call.
    rotating: Option<MultiWriter>,
    /// Gone once the file is finished by either way.
    plain: Option<Writer>,
    id: u64,
    last_at: u64,
}

fn plain_path(folder: &Path, id: u64) -> PathBuf {
    folder.join("plain").join(id.to_string())
}

impl Files {
    /// `folder` is empty, and stays the caller's to remove.
    pub fn new(folder: &Path, id: u64, target: u64) -> Self {
        for name in ["rotating", "plain"] {
            fs::create_dir(folder.join(name)).expect("a folder for files");
        }
        let mut files = Self {
            folder: folder.into(),
            ids: SequenceNumberCounter::new(id),
            target,
            rotating: None,
            plain: None,
            id,
            last_at: 0,
        };
        files.open();
        files
    }

    fn open(&mut self) {
        let rotating = self.rotating.take().unwrap_or_else(|| {
            MultiWriter::new(self.ids.clone(), self.folder.join("rotating"), 0, None).expect("a new file")
        });
        self.rotating = Some(rotating.use_target_size(self.target));
        self.id = self.ids.get().wrapping_sub(1);
        self.last_at = 0;
        let plain = Writer::new(plain_path(&self.folder, self.id), self.id, 0);
        self.plain = Some(plain.expect("a new file"));
    }

    pub fn id(&self) -> u64 {
        self.id
    }

    pub fn is_finished(&self) -> bool {
        self.plain.is_none()
    }

    pub fn offset(&self) -> u64 {
        self.plain.as_ref().map_or(0, Writer::offset)
    }

    /// The counts of the unfinished file.
    pub fn counts(&self) -> Option<Report> {
        let writer = self.plain.as_ref()?;
        let place = |at, key: &Option<crate::UserKey>| {
            key.as_ref().map_or(Place::default(), |key| Place { at, len: key.len() as u64 })
        };
        Some(Report {
            items: writer.item_count,
            disk: writer.written_blob_bytes,
            stated: writer.uncompressed_bytes,
            first: place(38, &writer.first_key),
            last: place(self.last_at + 38, &writer.last_key),
        })
    }

    pub fn set_target(&mut self, target: u64) {
        self.target = target;
        self.rotating = self.rotating.take().map(|w| w.use_target_size(target));
    }

    /// The handle, and the report where this append finished the file; nothing where an assertion refuses the key.
    pub fn append(
        &mut self,
        key: &[u8],
        seqno: u64,
        value: &[u8],
        stated: Option<u32>,
    ) -> Option<(Handle, Option<Report>)> {
        let rotating = self.rotating.as_mut().expect("an unfinished file");
        let plain = self.plain.as_mut().expect("an unfinished file");
        let before = self.ids.get();
        let at = plain.offset();
        let handle = unless_it_panics(|| match stated {
            None => rotating.write(key, seqno, value),
            Some(stated) => rotating.write_raw(key, seqno, value, stated),
        });
        let size = unless_it_panics(|| match stated {
            None => plain.write(key, seqno, value),
            Some(stated) => plain.write_raw(key, seqno, value, stated),
        });
        assert_eq!(handle.is_some(), size.is_some(), "the two writers part");
        let (handle, size) = (handle?.expect("a write"), size?.expect("a write"));
        assert_eq!((handle.offset, handle.on_disk_size), (at, size), "the two writers part");
        self.last_at = at;
        let report = (self.ids.get() != before).then(|| self.report());
        let handle = Handle { id: handle.blob_file_id, offset: handle.offset, size: handle.on_disk_size };
        Some((handle, report))
    }

    /// Finishes the unfinished file; nothing where the original expects a frame and there is none.
    pub fn finish(&mut self) -> Option<Report> {
        if self.plain.as_ref().expect("an unfinished file").item_count == 0 {
            let path = self.folder.join("none");
            let empty = Writer::new(path, self.id, 0).expect("a new file");
            let answer = unless_it_panics(|| empty.finish());
            assert!(answer.is_none(), "an empty file was finished");
            return None;
        }
        let rotating = self.rotating.take().expect("an unfinished file");
        let files = rotating.finish().expect("a finished file");
        let file = files.last().expect("a finished file");
        let meta = &file.0.meta;
        let told = (meta.item_count, meta.total_compressed_bytes, meta.total_uncompressed_bytes);
        let report = self.report();
        assert_eq!((report.items, report.disk, report.stated), told, "the two writers part");
        Some(report)
    }

    /// Ends the plain file and reads its report off its metadata.
    fn report(&mut self) -> Report {
        let plain = self.plain.take().expect("an unfinished file");
        let (meta, _) = plain.finish().expect("a finished file");
        let bytes = fs::read(plain_path(&self.folder, self.id)).expect("the written file");
        let place = |at: u64, key: &[u8]| {
            assert!(bytes[at as usize..].starts_with(key), "a key lies elsewhere");
            Place { at, len: key.len() as u64 }
        };
        Report {
            items: meta.item_count,
            disk: meta.total_compressed_bytes,
            stated: meta.total_uncompressed_bytes,
            first: place(38, meta.key_range.min()),
            last: place(self.last_at + 38, meta.key_range.max()),
        }
    }

    /// The finished file's bytes through META.
    pub fn bytes(&self) -> Vec<u8> {
        let rotating = fs::read(self.folder.join("rotating").join(self.id.to_string()));
        let plain = fs::read(plain_path(&self.folder, self.id)).expect("the written file");
        assert_eq!(rotating.expect("the written file"), plain, "the two writers part");
        plain
    }

    /// Goes on with the file after a finished one.
    pub fn next(&mut self) {
        self.open();
    }

    /// Lets go of an unfinished file, so that all its bytes are written out.
    pub fn close(&mut self) {
        self.rotating = None;
        self.plain = None;
    }
}

/// The counter that hands out file ids, as several writers may share it.
pub struct Ids(SequenceNumberCounter);

impl Ids {
    pub fn new(first: u64) -> Self {
        Self(SequenceNumberCounter::new(first))
    }

    /// The id that the next file would get.
    pub fn next(&self) -> u64 {
        self.0.get()
    }

    /// Takes that id, as another writer does.
    pub fn take(&self) -> u64 {
        self.0.next()
    }
}

/// multi_writer.rs alone.
pub struct Rotation(MultiWriter);

impl Rotation {
    pub fn new(ids: &Ids, folder: &Path, target: u64) -> Self {
        let writer = MultiWriter::new(ids.0.clone(), folder, 0, None).expect("a new file");
        Self(writer.use_target_size(target))
    }

    /// File, offset and size.
    pub fn append(&mut self, key: &[u8], seqno: u64, value: &[u8]) -> (u64, u64, u32) {
        let handle = self.0.write(key, seqno, value).expect("a write");
        (handle.blob_file_id, handle.offset, handle.on_disk_size)
    }

    /// Id and items of each file that it hands over; nothing where it panics.
    pub fn finish(self) -> Option<Vec<(u64, u64)>> {
        let files = unless_it_panics(|| self.0.finish())?.expect("finished files");
        Some(files.iter().map(|file| (file.0.id, file.0.meta.item_count)).collect())
    }
}
