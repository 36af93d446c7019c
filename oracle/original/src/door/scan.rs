//! A scan by scanner.rs. It runs twice: with the original's buffer, and with none, where the file's own position tells
//! where each step began. The two must agree.

use super::Refusal;
use crate::vlog::blob_file::scanner::{ScanEntry, Scanner};
use std::fs::File;
use std::io::{BufReader, Seek};
use std::path::Path;

#[derive(Clone, Debug, PartialEq, Eq)]
pub struct Entry {
    pub offset: u64,
    pub key: Vec<u8>,
    pub seqno: u64,
    pub stated: u32,
    pub value: Vec<u8>,
}

impl Entry {
    /// Where the frame after this one begins.
    pub fn after(&self) -> u64 {
        self.offset + 38 + self.key.len() as u64 + self.value.len() as u64
    }
}

impl From<ScanEntry> for Entry {
    fn from(entry: ScanEntry) -> Self {
        Self {
            offset: entry.offset,
            key: entry.key.to_vec(),
            seqno: entry.seqno,
            stated: entry.uncompressed_len,
            value: entry.value.to_vec(),
        }
    }
}

/// One step's answer; `None` is the end.
pub type Step = Option<Result<Entry, Refusal>>;

pub struct Scan {
    buffered: Scanner,
    plain: Scanner,
    place: File,
}

fn step(scanner: &mut Scanner) -> Step {
    Some(match scanner.next()? {
        Ok(entry) => Ok(entry.into()),
        Err(e) => Err(e.into()),
    })
}

impl Scan {
    pub fn new(path: &Path) -> Self {
        let file = File::open(path).expect("the scanned file");
        Self {
            buffered: Scanner::new(path, 0).expect("the scanned file"),
            place: file.try_clone().expect("a second handle"),
            plain: Scanner::with_reader(0, BufReader::with_capacity(0, file)),
        }
    }

    /// Where the step began, and its answer.
    pub fn step(&mut self) -> (u64, Step) {
        let at = self.place.stream_position().expect("a position");
        let answer = step(&mut self.plain);
        assert_eq!(answer, step(&mut self.buffered), "a scan depends on its buffer");
        (at, answer)
    }
}
