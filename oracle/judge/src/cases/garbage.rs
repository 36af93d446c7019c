//! Fragmentation maps: drops, batches, merges, stored forms, pruning, and verdicts at the borders of rounding.

use super::numbers::{pointer, spelled};
use crate::random::Random;
use crate::record::{File, MapEntry, MapStep, Pointer, Record};

/// Lengths at which rounding to binary32 turns, up and down and to even.
fn length(r: &mut Random) -> u64 {
    match r.below(6) {
        0 => r.below(4),
        1 => {
            // 24 bits are kept: k more are dropped, and the dropped part is near one half.
            let k = 1 + r.below(40);
            let kept = (1 << 23) + r.below(1 << 23);
            let half = 1_u64 << (k - 1);
            let dropped = r.pick(&[half - 1, half, half + 1, 0, (half << 1) - 1]);
            (kept << k).wrapping_add(dropped)
        }
        2 => u64::MAX - r.below(1 << 41),
        3 => 16_777_214 + r.below(8),
        _ => r.number(),
    }
}

fn file(id: u64, stated: u64, r: &mut Random) -> File {
    File { id, items: r.below(5), disk: r.below(100), stated }
}

fn thresholds(near: f32, r: &mut Random) -> u32 {
    let bits = near.to_bits();
    r.pick(&[
        bits,
        bits.wrapping_add(1),
        bits.wrapping_sub(1),
        0,
        0x8000_0000,
        1.0_f32.to_bits(),
        0.5_f32.to_bits(),
        f32::INFINITY.to_bits(),
        f32::NEG_INFINITY.to_bits(),
        f32::NAN.to_bits(),
        1,
    ])
}

fn verdicts(stated: u64, total: u64, r: &mut Random) -> Vec<MapStep> {
    let entry = MapEntry { id: 3, frames: 1, stated, disk: stated };
    let near = stated as f32 / total as f32;
    let file = file(3, total, r);
    let mut steps =
        vec![MapStep::Entries { map: 0, entries: vec![entry] }, MapStep::Dead { map: 0, file: file.clone() }];
    for _ in 0..3 {
        let threshold = thresholds(near, r);
        steps.push(MapStep::Stale { map: 0, file: file.clone(), threshold });
    }
    steps
}

/// Document 01's edges of the verdicts in turn, and lengths around each power of two.
pub fn border(turn: u64, r: &mut Random) -> Record {
    let edges = [
        (0, 0),
        (5, 0),
        (0, 5),
        (16_777_216, 16_777_217),
        (16_777_217, 16_777_216),
        (16_777_219, 16_777_220),
        (u64::MAX, u64::MAX),
        (1, u64::MAX),
        (u64::MAX, 1),
        (3, 3),
    ];
    if let Some(&(stated, total)) = edges.get((turn % 64) as usize) {
        return Record::Garbage { steps: verdicts(stated, total, r) };
    }
    let (stated, total) = (length(r), length(r));
    let total = if r.chance(3) { stated.wrapping_add(r.below(3)) } else { total };
    Record::Garbage { steps: verdicts(stated, total, r) }
}

fn stored(r: &mut Random) -> Vec<u8> {
    let count = if r.chance(12) { 60 + r.below(8) } else { r.below(6) };
    let mut bytes = (count as u32).to_le_bytes().to_vec();
    for _ in 0..count {
        bytes.extend(r.below(if count > 8 { 200 } else { 8 }).to_le_bytes());
        bytes.extend(r.word().to_le_bytes());
        bytes.extend(length(r).to_le_bytes());
        bytes.extend(r.below(1 << 50).to_le_bytes());
    }
    match r.below(6) {
        0 => bytes.truncate(r.below(bytes.len() as u64 + 1) as usize),
        1 => bytes.extend(r.bytes(9)),
        _ => {}
    }
    bytes
}

fn entries(r: &mut Random) -> Vec<MapEntry> {
    let count = if r.chance(10) { 58 + r.below(7) } else { r.below(6) };
    let mut id = r.below(4);
    let mut list = Vec::new();
    for _ in 0..count {
        let frames = if r.chance(6) { u32::MAX - r.below(3) as u32 } else { r.word() };
        list.push(MapEntry { id, frames, stated: length(r), disk: length(r) });
        id += 1 + r.below(3) * r.below(2);
    }
    if r.chance(12) {
        list.reverse();
    }
    list
}

fn few_ids(r: &mut Random) -> Pointer {
    Pointer { id: r.below(6), ..pointer(r) }
}

fn step(r: &mut Random) -> MapStep {
    let maps = if r.chance(10) { 8 } else { 3 };
    let map = r.below(maps);
    match r.below(20) {
        0..=6 => {
            let mut record = spelled(&few_ids(r));
            match r.below(12) {
                0 => record.truncate(r.below(record.len() as u64) as usize),
                1 => record.extend(r.bytes(3)),
                _ => {}
            }
            MapStep::Drop { map, marked: !r.chance(8), record }
        }
        7..=8 => {
            let drops = (0..r.below(8)).map(|_| few_ids(r)).collect();
            MapStep::Batch { map, drops }
        }
        9..=10 => MapStep::Merge { source: map, target: (map + 1 + r.below(7)) % 8 },
        11 => MapStep::Load { map, bytes: stored(r) },
        12 => {
            let kept = (0..r.below(8)).map(|_| r.below(10)).collect();
            MapStep::Prune { map, kept }
        }
        13 => MapStep::Sum { map },
        14..=15 => {
            let (id, stated) = (r.below(6), length(r));
            MapStep::Dead { map, file: file(id, stated, r) }
        }
        16..=17 => {
            let (id, stated) = (r.below(6), length(r));
            let threshold = if r.chance(4) { r.next() as u32 } else { thresholds(0.25, r) };
            MapStep::Stale { map, file: file(id, stated, r), threshold }
        }
        18 if r.chance(3) => MapStep::Entries { map, entries: entries(r) },
        _ => MapStep::Store { map, room: if r.chance(4) { r.below(200) } else { 200 + r.below(300) } },
    }
}

/// A file written, dropped frame by frame over two maps, merged, and judged.
fn night(r: &mut Random) -> Vec<MapStep> {
    let lengths: Vec<u32> = (0..1 + r.below(5)).map(|_| r.pick(&[0, 1, 3, 70_000])).collect();
    let total: u64 = lengths.iter().map(|&len| u64::from(len)).sum();
    let mut steps = Vec::new();
    for (k, &len) in lengths.iter().enumerate() {
        if r.chance(5) {
            continue;
        }
        let p = Pointer { id: 9, offset: 50 * k as u64, size: len, stated: len };
        steps.push(MapStep::Drop { map: r.below(2), marked: true, record: spelled(&p) });
    }
    steps.push(MapStep::Merge { source: 1, target: 0 });
    let file = File { id: 9, items: lengths.len() as u64, disk: total, stated: total };
    steps.push(MapStep::Dead { map: 0, file: file.clone() });
    steps.push(MapStep::Stale { map: 0, file, threshold: thresholds(1.0, r) });
    steps.push(MapStep::Store { map: 0, room: 32 });
    steps
}

pub fn any(r: &mut Random) -> Record {
    let steps = if r.chance(5) {
        night(r)
    } else {
        let mut steps: Vec<MapStep> = (0..1 + r.below(12)).map(|_| step(r)).collect();
        if r.chance(2) {
            steps.push(MapStep::Store { map: r.below(3), room: r.pick(&[300, 1_800, 1_796]) });
        }
        steps
    };
    Record::Garbage { steps }
}
