//! Hashes at every border of XXH3's length classes, its stripes of 64 bytes and blocks of 1,024.

use crate::random::Random;
use crate::record::Record;

const BORDERS: [usize; 34] = [
    0, 1, 2, 3, 4, 5, 7, 8, 9, 12, 15, 16, 17, 31, 32, 33, 63, 64, 65, 95, 96, 97, 127, 128, 129, 159, 160,
    161, 239, 240, 241, 255, 256, 257,
];

const LONG: [usize; 15] =
    [319, 320, 321, 511, 512, 513, 1_023, 1_024, 1_025, 1_088, 2_047, 2_048, 2_049, 4_095, 4_097];

fn split(bytes: Vec<u8>, at: usize) -> Record {
    let (key, value) = bytes.split_at(at);
    Record::Joined { key: key.to_vec(), value: value.to_vec() }
}

/// Each border in turn: as one slice, then cut in two at every other border below it.
pub fn border(turn: u64, r: &mut Random) -> Record {
    let lengths: Vec<usize> = BORDERS.iter().chain(&LONG).copied().collect();
    let mut left = turn % lengths.iter().map(|len| 1 + cuts(*len).len() as u64).sum::<u64>();
    for len in lengths {
        let cuts = cuts(len);
        if left == 0 {
            return Record::Hash { bytes: r.bytes(len) };
        }
        if left <= cuts.len() as u64 {
            return split(r.bytes(len), cuts[left as usize - 1]);
        }
        left -= 1 + cuts.len() as u64;
    }
    unreachable!("one of the borders")
}

fn cuts(len: usize) -> Vec<usize> {
    let near = [len.saturating_sub(65), len.saturating_sub(64), len.saturating_sub(1)];
    let mut cuts: Vec<usize> = [0, 1, 2, 8, 16, 17, 63, 64, 65, 128, 240, 241, 1_023, 1_024, 1_025]
        .into_iter()
        .chain(near)
        .filter(|cut| *cut <= len)
        .collect();
    cuts.sort_unstable();
    cuts.dedup();
    cuts
}

pub fn any(r: &mut Random) -> Record {
    let len = match r.below(8) {
        0..=3 => r.below(300) as usize,
        4..=6 => r.below(1_200) as usize,
        _ => r.below(6_000) as usize,
    };
    let bytes = r.bytes(len);
    if r.chance(3) {
        Record::Hash { bytes }
    } else {
        let at = r.below(len as u64 + 1) as usize;
        split(bytes, at)
    }
}
