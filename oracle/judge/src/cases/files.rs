//! Files for scans and point reads: whole ones, every cut and every flipped bit of small ones, and frames that no writer
//! makes: empty keys, other marks, lengths that lie.

use crate::random::Random;
use crate::record::Record;
use xxhash_rust::xxh3::xxh3_128;

#[derive(Clone, Debug)]
pub struct Frame {
    pub key: Vec<u8>,
    pub seqno: u64,
    pub value: Vec<u8>,
    pub stated: u32,
}

impl Frame {
    pub fn new(key: &[u8], seqno: u64, value: &[u8]) -> Self {
        Self { key: key.to_vec(), seqno, value: value.to_vec(), stated: value.len() as u32 }
    }

    pub fn any(r: &mut Random) -> Self {
        let key = key(r);
        let value = value(r);
        let stated = if r.chance(3) { r.word() } else { value.len() as u32 };
        Self { key, seqno: r.number(), value, stated }
    }

    pub fn len(&self) -> usize {
        38 + self.key.len() + self.value.len()
    }

    pub fn bytes(&self) -> Vec<u8> {
        let covered = [&self.key[..], &self.value].concat();
        [
            &b"BLOB"[..],
            &xxh3_128(&covered).to_le_bytes(),
            &self.seqno.to_le_bytes(),
            &(self.key.len() as u16).to_le_bytes(),
            &self.stated.to_le_bytes(),
            &(self.value.len() as u32).to_le_bytes(),
            &covered,
        ]
        .concat()
    }
}

/// The frames, then META.
pub fn finished(frames: &[Frame]) -> Vec<u8> {
    let mut bytes: Vec<u8> = frames.iter().flat_map(Frame::bytes).collect();
    bytes.extend(b"META");
    bytes
}

fn key(r: &mut Random) -> Vec<u8> {
    let len = match r.below(40) {
        0..=2 => 0,
        3..=30 => 1 + r.below(8),
        31..=38 => r.below(300),
        _ => r.below(2_000),
    };
    r.bytes(len as usize)
}

fn value(r: &mut Random) -> Vec<u8> {
    let len = match r.below(40) {
        0..=5 => 0,
        6..=25 => r.below(20),
        26..=38 => r.below(400),
        _ => r.below(3_000),
    };
    r.bytes(len as usize)
}

pub fn frames(r: &mut Random) -> Vec<Frame> {
    (0..r.below(6)).map(|_| Frame::any(r)).collect()
}

/// Document 01's example, and small files with an empty key, an empty file, and the mark inside a value.
fn small() -> Vec<Vec<Frame>> {
    let (a, b) = (Frame::new(b"a", 7, b"xyz"), Frame::new(b"b", 9, b""));
    vec![
        vec![a.clone(), b],
        vec![Frame::new(b"", 256, b""), a],
        vec![],
        vec![Frame::new(b"META", u64::MAX, b"BLOB")],
    ]
}

/// Each small file scanned and read: whole, then cut at each length, then with each bit flipped.
pub fn cut_or_flip(turn: u64) -> Record {
    let files = small();
    let frames = &files[(turn % files.len() as u64) as usize];
    let mut file = finished(frames);
    let turn = turn / files.len() as u64;
    let reads = if frames.is_empty() { 1 } else { 2 };
    let (scanned, turn) = (turn % reads == 0, turn / reads);
    let len = file.len() as u64;
    match turn % (9 * len + 1) {
        cut if cut <= len => file.truncate(cut as usize),
        flip => {
            let bit = flip - len - 1;
            file[(bit / 8) as usize] ^= 1 << (bit % 8);
        }
    }
    if scanned {
        return Record::Scan { file };
    }
    let last = frames.len() - 1;
    let offset = frames[..last].iter().map(Frame::len).sum::<usize>() as u64;
    let (key, size) = (frames[last].key.clone(), frames[last].value.len() as u32);
    Record::Point { file, key, id: 1, offset, size }
}

/// Damage anywhere, or in a header's lengths, or a mark more or less.
fn damage(file: &mut Vec<u8>, frames: &[Frame], r: &mut Random) {
    let len = file.len() as u64;
    match r.below(8) {
        0 => file.truncate(r.below(len + 1) as usize),
        1 => file[r.below(len) as usize] ^= 1 << r.below(8),
        2 => file.extend(r.bytes(40)),
        3 => file.truncate(len as usize - 4),
        4 => {
            let at = r.below(len + 1) as usize;
            let put = r.pick(&[&b"BLOB"[..], b"META", b"BLOV", b"xxxx", b"\0"]);
            file.splice(at..at, put.iter().copied());
        }
        5 if !frames.is_empty() => {
            let skipped = r.below(frames.len() as u64) as usize;
            let start: usize = frames[..skipped].iter().map(Frame::len).sum();
            let field = start + r.pick(&[28, 29, 30, 34, 35, 36, 37]);
            file[field] = r.pick(&[0, 1, 2, 255]);
        }
        6 => {
            let from = r.below(len) as usize;
            let to = from + r.below(len - from as u64 + 1).min(8) as usize;
            file.drain(from..to);
        }
        _ => {}
    }
}

/// A long key, or frames across the borders of the original's buffer of 32,000 bytes.
fn long_scan(r: &mut Random) -> Record {
    let frames = if r.chance(2) {
        vec![Frame::new(&r.bytes(50_000), 1, &r.bytes(300))]
    } else {
        (0..4).map(|k| Frame::new(&r.bytes(7), k, &r.bytes(15_900))).collect()
    };
    Record::Scan { file: finished(&frames) }
}

pub fn scan(r: &mut Random) -> Record {
    if r.chance(400) {
        return long_scan(r);
    }
    let frames = frames(r);
    let mut file = finished(&frames);
    if !r.chance(3) {
        damage(&mut file, &frames, r);
    }
    Record::Scan { file }
}

pub fn point(r: &mut Random) -> Record {
    let frames: Vec<Frame> = (0..1 + r.below(4)).map(|_| Frame::any(r)).collect();
    let mut file = finished(&frames);
    if r.chance(3) {
        damage(&mut file, &frames, r);
    }
    let at = r.below(frames.len() as u64) as usize;
    let mut offset = frames[..at].iter().map(Frame::len).sum::<usize>() as u64;
    let mut key = frames[at].key.clone();
    let mut size = frames[at].value.len() as u32;
    match r.below(12) {
        0 => offset = offset.wrapping_add(r.pick(&[1, 4, u64::MAX, 38])),
        1 => offset = r.number(),
        2 => size = size.wrapping_add(r.pick(&[1, 2, u32::MAX, 38])),
        3 => size = r.below(1 << 20) as u32,
        4 => key.truncate(r.below(key.len() as u64 + 1) as usize),
        5 => key.extend(r.bytes(3)),
        6 => {
            // A shorter key and a longer value, or the other way, with the same bytes in all.
            let moved = r.below(key.len() as u64 + 1) as usize;
            key.truncate(key.len() - moved);
            size += moved as u32;
        }
        7 => key = r.bytes(key.len()),
        _ => {}
    }
    Record::Point { file, key, id: r.number(), offset, size }
}
