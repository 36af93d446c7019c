//! Append, scan and point read, per frame, with keys of 20 bytes.

use crate::{boundary, fold, folder, given, maker, noise, Case, Given, Plan};
use original::door::fast::{told, Point};
use original::vlog::blob_file::scanner::{ScanEntry, Scanner};
use original::vlog::blob_file::writer::Writer;
use std::fs::File;
use std::path::{Path, PathBuf};
use std::rc::Rc;

const SIZES: [usize; 4] = [16, 256, 4096, 65536];
const KEY: usize = 20;

pub struct Frame {
    pub key: Vec<u8>,
    pub value: Rc<[u8]>,
}

fn count(v: usize) -> usize {
    ((1 << 20) / (v + 1024)).max(16)
}

/// Frames whose values differ.
fn frames(v: usize) -> Vec<Frame> {
    let frame = |i| Frame { key: noise(KEY, i), value: noise(v, 1_000_000 + i).into() };
    (0..count(v) as u64).map(frame).collect()
}

/// Frames of one value, at one place.
fn alike(v: usize) -> Vec<Frame> {
    let value: Rc<[u8]> = noise(v, 2).into();
    (0..count(v) as u64).map(|i| Frame { key: noise(KEY, i), value: value.clone() }).collect()
}

fn length(frames: &[Frame]) -> usize {
    frames.iter().map(|f| 38 + f.key.len() + f.value.len()).sum()
}

/// The writer after the frames.
fn append_all(frames: &[Frame], buf: &mut [u8]) -> [u64; 11] {
    let mut row = boundary::NEW_WRITER;
    for (i, f) in frames.iter().enumerate() {
        boundary::append(&mut row, buf, &f.key, i as u64, &f.value);
    }
    row
}

/// The frames of a file, and META.
pub fn written(frames: &[Frame]) -> Vec<u8> {
    let mut buf = vec![0; length(frames) + 4];
    let row = append_all(frames, &mut buf);
    assert_eq!(row[1] as usize, length(frames), "all frames are written");
    buf[length(frames)..].copy_from_slice(b"META");
    buf
}

fn kept(name: String, bytes: &[u8]) -> PathBuf {
    let path = folder().join(name);
    std::fs::write(&path, bytes).expect("a file in memory");
    path
}

/// The writer after the frames, and how many bytes they take by what its calls say.
fn original_append(to: &Path, frames: &[Frame]) -> (Writer, u64) {
    let mut writer = Writer::new(to, 0, 0).expect("a file");
    let mut at = 0;
    for (i, f) in frames.iter().enumerate() {
        let size = writer.write(&f.key, i as u64, &f.value).expect("a write");
        at += 38 + f.key.len() as u64 + u64::from(size);
    }
    (writer, at)
}

/// Timed with one value, so that no time goes to memory that is read for the first time; compared with values that differ.
fn append(v: usize) -> Case {
    let (timed, compared) = (Rc::new(alike(v)), Rc::new(frames(v)));
    let (n, room) = (timed.len(), length(&timed) + 4);
    let mut buf = vec![0; room];
    let (timed2, compared2) = (timed.clone(), compared.clone());
    let ours = move || append_all(&timed, &mut buf)[1];
    let ours_whole = move || {
        let mut buf = vec![0; room];
        let row = append_all(&compared, &mut buf);
        let key = |at: u64, n: u64| &buf[at as usize..][..n as usize];
        vec![given(&row[1..5], &[&buf[..row[1] as usize], key(row[7], row[8]), key(row[9], row[10])])]
    };
    // The writes are made, and cost the file system nothing.
    let rust = move || original_append(Path::new("/dev/null"), &timed2).1;
    let rust_whole = move || {
        let path = folder().join(format!("append-{v}"));
        let (writer, _) = original_append(&path, &compared2);
        let (numbers, [first, last]) = told(&writer);
        drop(writer);
        vec![given(&numbers, &[&std::fs::read(&path).expect("the written file"), &first, &last])]
    };
    Case {
        kind: "append",
        size: v.to_string(),
        entries: n,
        results: 1,
        makers: vec![maker("pitchdowel", ours, ours_whole), maker("original", rust, rust_whole)],
    }
}

/// Each entry's row; and the answer that ended the scan.
fn scan_all(file: &[u8], mut each: impl FnMut(&[u64; 8])) -> u64 {
    let (mut at, mut e) = (0, [0; 8]);
    loop {
        let said = boundary::step(file, at, &mut e);
        if said != 0 {
            return said;
        }
        at = e[7] as usize;
        each(&e);
    }
}

fn original_scan(path: &Path, mut each: impl FnMut(&ScanEntry)) {
    for e in Scanner::new(path, 0).expect("a file") {
        each(&e.expect("a frame"));
    }
}

fn scan(v: usize) -> Case {
    let frames = frames(v);
    let n = frames.len();
    let file = Rc::new(written(&frames));
    let path = kept(format!("scan-{v}"), &file);
    let (file2, path2) = (file.clone(), path.clone());
    let ours = move || {
        let mut sum = 0;
        scan_all(&file, |e| {
            sum = fold(fold(fold(sum, e[0]), e[3]), e[2] + e[4] + e[6] + u64::from(file[e[5] as usize]));
        });
        sum
    };
    let ours_whole = move || {
        let mut all: Vec<Given> = Vec::new();
        let part = |at: u64, n: u64| &file2[at as usize..][..n as usize];
        let ended = scan_all(&file2, |e| {
            all.push(given(&[e[0], e[3], e[4]], &[part(e[1], e[2]), part(e[5], e[6])]));
        });
        all.push(given(&[ended], &[]));
        all
    };
    let rust = move || {
        let mut sum = 0;
        original_scan(&path, |e| {
            let rest = (e.key.len() + e.value.len()) as u64 + u64::from(e.uncompressed_len) + u64::from(e.value[0]);
            sum = fold(fold(fold(sum, e.offset), e.seqno), rest);
        });
        sum
    };
    let rust_whole = move || {
        let mut all: Vec<Given> = Vec::new();
        original_scan(&path2, |e| {
            all.push(given(&[e.offset, e.seqno, e.uncompressed_len.into()], &[&e.key, &e.value]));
        });
        all.push(given(&[boundary::END], &[]));
        all
    };
    Case {
        kind: "scan",
        size: v.to_string(),
        entries: n,
        results: n + 1,
        makers: vec![maker("pitchdowel", ours, ours_whole), maker("original", rust, rust_whole)],
    }
}

fn read(v: usize) -> Case {
    let frames = Rc::new(frames(v));
    let n = frames.len();
    let file = Rc::new(written(&frames));
    let point = Rc::new(Point::new(File::open(kept(format!("read-{v}"), &file)).expect("a file")));
    let place = move |i: usize| (i * 7919 % n, (i * 7919 % n * (38 + KEY + v)) as u64);
    let (fs, fs2, fs3, fs4) = (frames.clone(), frames.clone(), frames.clone(), frames);
    let (file2, point2) = (file.clone(), point.clone());
    let summed = move |sum: u64, value: &[u8]| fold(sum, value.len() as u64 + u64::from(value[v - 1]));
    let ours = move || {
        (0..n).fold(0, |sum, i| {
            let (k, at) = place(i);
            summed(sum, boundary::read(&file, &fs[k].key, at, v as u32))
        })
    };
    let ours_whole = move || {
        let one = |(k, at): (usize, u64)| given(&[], &[boundary::read(&file2, &fs2[k].key, at, v as u32)]);
        (0..n).map(place).map(one).collect()
    };
    let rust = move || {
        (0..n).fold(0, |sum, i| {
            let (k, at) = place(i);
            summed(sum, &point.get(&fs3[k].key, at, v as u32))
        })
    };
    let rust_whole = move || {
        let one = |(k, at): (usize, u64)| given(&[], &[&point2.get(&fs4[k].key, at, v as u32)]);
        (0..n).map(place).map(one).collect()
    };
    Case {
        kind: "read",
        size: v.to_string(),
        entries: n,
        results: n,
        makers: vec![maker("pitchdowel", ours, ours_whole), maker("original", rust, rust_whole)],
    }
}

pub fn plans() -> Vec<Plan> {
    let mut all = Vec::new();
    for (kind, make) in [("append", append as fn(usize) -> Case), ("scan", scan), ("read", read)] {
        for v in SIZES {
            all.push(Plan { kind, size: v.to_string(), make: Box::new(move || make(v)) });
        }
    }
    all
}
