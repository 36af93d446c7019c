//! The merge, per entry. A size is PARTSxKEYxVALUE; keys of 200 bytes share 190, and values differ.

use crate::frames::{written, Frame};
use crate::{boundary, fold, folder, given, maker, noise, Case, Given, Plan};
use original::vlog::blob_file::merge::MergeScanner;
use original::vlog::blob_file::scanner::{ScanEntry, Scanner};
use std::path::PathBuf;
use std::rc::Rc;

const SIZES: [(usize, usize, usize); 12] = [
    (2, 20, 256),
    (8, 20, 256),
    (16, 20, 256),
    (2, 20, 65536),
    (8, 20, 65536),
    (16, 20, 65536),
    (2, 200, 256),
    (8, 200, 256),
    (16, 200, 256),
    (2, 200, 65536),
    (8, 200, 65536),
    (16, 200, 65536),
];

fn key(i: usize, k: usize) -> Vec<u8> {
    let shared = if k == 200 { 190 } else { 0 };
    let mut key = noise(shared, 3);
    key.extend(noise(k - shared, 100 + i as u64));
    key
}

/// The first part's file id.
const ID: u64 = 10;

/// Each entry's row.
fn merge_all(table: &boundary::Table, image: &[u8], mut each: impl FnMut(&[u64])) {
    let (mut ats, mut rows) = ([0; 16], [0u64; 9 * 256]);
    loop {
        let n = boundary::rows(table, &mut ats, image, &mut rows);
        if n == 0 {
            return;
        }
        rows.chunks_exact(9).take(n).for_each(&mut each);
    }
}

fn original_merge(paths: &[PathBuf], mut each: impl FnMut(&ScanEntry, u64)) {
    let open = |(i, path)| Scanner::new(path, i as u64 + ID).expect("a file");
    for entry in MergeScanner::new(paths.iter().enumerate().map(open).collect()) {
        let (e, id) = entry.expect("a frame");
        each(&e, id);
    }
}

fn case(parts: usize, k: usize, v: usize) -> Case {
    let n = if v < 1024 { 2048 } else { 64 };
    let mut sorted: Vec<Vec<u8>> = (0..n).map(|i| key(i, k)).collect();
    sorted.sort();
    let mut of: Vec<Vec<Frame>> = (0..parts).map(|_| Vec::new()).collect();
    let chance = noise(n, 9);
    for (i, key) in sorted.into_iter().enumerate() {
        // every part has one at least
        let part = if i < parts { i } else { chance[i] as usize % parts };
        of[part].push(Frame { key, value: noise(v, 1_000_000 + i as u64).into() });
    }
    let mut image = Vec::new();
    let mut table = boundary::Table { count: parts, starts: [0; 16], lengths: [0; 16], files: [0; 16] };
    let mut paths = Vec::new();
    for (i, frames) in of.iter().enumerate() {
        let file = written(frames);
        let path = folder().join(format!("merge-{parts}-{k}-{v}-{i}"));
        std::fs::write(&path, &file).expect("a file in memory");
        paths.push(path);
        table.starts[i] = image.len() as u64;
        table.lengths[i] = file.len() as u64;
        table.files[i] = i as u64 + ID;
        image.extend(file);
    }
    let ours = Rc::new((table, image));
    let (ours2, paths2) = (ours.clone(), paths.clone());
    let pass = move || {
        let (table, image) = &*ours;
        let mut sum = 0;
        merge_all(table, image, |r| {
            sum = fold(fold(sum, r[1]), r[2] + r[4] + r[5] + r[6] + u64::from(image[r[7] as usize]));
        });
        sum
    };
    let whole = move || {
        let (table, image) = &*ours2;
        let mut all: Vec<Given> = Vec::new();
        let part = |at: u64, n: u64| &image[at as usize..][..n as usize];
        merge_all(table, image, |r| {
            all.push(given(&[r[0] + ID, r[1], r[2], r[5], r[6]], &[part(r[3], r[4]), part(r[7], r[8])]));
        });
        all
    };
    let rust = move || {
        let mut sum = 0;
        original_merge(&paths, |e, id| {
            let rest = e.key.len() as u64 + e.seqno + u64::from(e.uncompressed_len) + u64::from(e.value[0]);
            sum = fold(fold(sum, id), e.offset + rest);
        });
        sum
    };
    let rust_whole = move || {
        let mut all: Vec<Given> = Vec::new();
        original_merge(&paths2, |e, id| {
            all.push(given(&[id, id, e.offset, e.seqno, e.uncompressed_len.into()], &[&e.key, &e.value]));
        });
        all
    };
    Case {
        kind: "merge",
        size: format!("{parts}x{k}x{v}"),
        entries: n,
        results: n,
        makers: vec![maker("pitchdowel", pass, whole), maker("original", rust, rust_whole)],
    }
}

pub fn plans() -> Vec<Plan> {
    let plan = |&(parts, k, v): &(usize, usize, usize)| Plan {
        kind: "merge",
        size: format!("{parts}x{k}x{v}"),
        make: Box::new(move || case(parts, k, v)),
    };
    SIZES.iter().map(plan).collect()
}
