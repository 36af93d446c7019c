//! A merge by merge.rs, and the drain of flavour.rs over it, with a list of what was pulled out of the merge.

use super::scan::Entry;
use super::{unless_it_panics, Refusal};
use crate::compaction::flavour;
use crate::vlog::blob_file::merge::MergeScanner;
use crate::vlog::blob_file::scanner::{ScanEntry, Scanner};
use crate::vlog::ValueHandle;
use crate::BlobIndirection;
use std::cell::RefCell;
use std::fs::File;
use std::io::{BufReader, Seek, SeekFrom};
use std::iter::Peekable;
use std::path::PathBuf;
use std::rc::Rc;

/// A file of its own for each part, read from the given position on.
pub struct Part {
    pub path: PathBuf,
    pub id: u64,
    pub position: u64,
}

/// Which frame it was: key, seqno, and where the next one begins.
pub type Pulled = (Vec<u8>, u64, u64);

struct Recorder {
    inner: MergeScanner,
    pulled: Rc<RefCell<Vec<Pulled>>>,
}

impl Iterator for Recorder {
    type Item = crate::Result<(ScanEntry, u64)>;

    fn next(&mut self) -> Option<Self::Item> {
        let item = self.inner.next()?;
        if let Ok((entry, _)) = &item {
            let after = entry.offset + 38 + (entry.key.len() + entry.value.len()) as u64;
            let frame = (entry.key.to_vec(), entry.seqno, after);
            self.pulled.borrow_mut().push(frame);
        }
        Some(item)
    }
}

pub enum Drained {
    /// The sought key and file stand next, at this offset.
    Stands(u64),
    End,
    NotMatched,
    Refused(Refusal),
}

pub struct Merge {
    scanner: Peekable<Recorder>,
    pulled: Rc<RefCell<Vec<Pulled>>>,
}

fn open(part: &Part) -> Scanner {
    let mut file = File::open(&part.path).expect("a part's file");
    file.seek(SeekFrom::Start(part.position)).expect("its position");
    Scanner::with_reader(part.id, BufReader::with_capacity(32_000, file))
}

impl Merge {
    pub fn new(parts: &[Part]) -> Self {
        let pulled = Rc::new(RefCell::new(Vec::new()));
        let recorder =
            Recorder { inner: MergeScanner::new(parts.iter().map(open).collect()), pulled: pulled.clone() };
        Self { scanner: recorder.peekable(), pulled }
    }

    /// The next entry with its file's id; `None` is the end.
    pub fn next(&mut self) -> Option<Result<(Entry, u64), Refusal>> {
        Some(match self.scanner.next()? {
            Ok((entry, id)) => Ok((entry.into(), id)),
            Err(e) => Err(e.into()),
        })
    }

    pub fn drain(&mut self, key: &[u8], id: u64, offset: u64) -> Drained {
        let pointer =
            BlobIndirection { vhandle: ValueHandle { blob_file_id: id, offset, on_disk_size: 0 }, size: 0 };
        match unless_it_panics(|| flavour::drain(&mut self.scanner, key, &pointer)) {
            None => Drained::NotMatched,
            Some(Err(e)) => Drained::Refused(e.into()),
            Some(Ok(())) => match self.scanner.peek() {
                None => Drained::End,
                Some(Ok((entry, _))) => Drained::Stands(entry.offset),
                Some(Err(e)) => Drained::Refused(Refusal::Other(format!("{e:?}"))),
            },
        }
    }

    /// All that was pulled out of the merge so far, an entry that was only looked at included.
    pub fn pulled(&self) -> Vec<Pulled> {
        self.pulled.borrow().clone()
    }
}
