//! Merges and drains: parts sorted and unsorted, one inside a longer image, keys that are prefixes of each other, long keys
//! that share all but their last bytes, seqnos whose stored bytes sort another way than they do.

use super::files::{finished, Frame};
use crate::random::Random;
use crate::record::{Ask, Part, Record};
use std::cmp::Reverse;
use std::collections::BTreeSet;

struct Image {
    bytes: Vec<u8>,
    parts: Vec<Part>,
    frames: Vec<Vec<Frame>>,
    long: bool,
}

const KEYS: [&[u8]; 12] =
    [b"", b"a", b"aa", b"ab", b"b", b"10", b"9", b"a\0", b"\xff", b"\xff\xff", b"key-1", b"key-10"];
const SEQNOS: [u64; 10] = [0, 1, 9, 10, 255, 256, 257, 65_536, u64::MAX - 1, u64::MAX];

/// Around the eight bytes of a word and its double, and well past them.
const LENGTHS: [usize; 7] = [7, 8, 9, 15, 16, 17, 200];

/// Keys of one length share all bytes but one of the last two, or of the last seventeen. Where `longest` they may have 5,000.
fn long_key(longest: bool, r: &mut Random) -> Vec<u8> {
    let len = if longest && r.chance(20) { 5_000 } else { r.pick(&LENGTHS) };
    let mut key = vec![b'p'; len];
    let back = if r.chance(2) { 1 + r.below(2) } else { 1 + r.below(17) } as usize;
    let at = len.saturating_sub(back);
    key[at] = r.pick(b"\0opq\x7f\x80\xff");
    if r.chance(4) {
        key.truncate(len - r.below(2) as usize);
    }
    if r.chance(6) {
        key.push(r.pick(b"\0p\xff"));
    }
    key
}

fn key(long: bool, longest: bool, r: &mut Random) -> Vec<u8> {
    if long && !r.chance(8) {
        return long_key(longest, r);
    }
    if r.chance(5) {
        let len = r.below(6) as usize;
        r.bytes(len)
    } else {
        r.pick(&KEYS).to_vec()
    }
}

/// A frame whose key and seqno no part has yet, but for a few.
fn frame(long: bool, seen: &mut BTreeSet<(Vec<u8>, u64)>, r: &mut Random) -> Option<Frame> {
    // so few that a record still fits its batch
    let longest = seen.iter().filter(|(key, _)| key.len() > 1_000).count() < 3;
    let key = key(long, longest, r);
    let seqno = if r.chance(3) { r.number() } else { r.pick(&SEQNOS) };
    if !seen.insert((key.clone(), seqno)) && !r.chance(200) {
        return None;
    }
    let len = if r.chance(12) { r.below(300) } else { r.below(8) };
    let value = r.bytes(len as usize);
    let stated = if r.chance(3) { r.word() } else { value.len() as u32 };
    Some(Frame { key, seqno, value, stated })
}

fn image(r: &mut Random) -> Image {
    let count = match r.below(20) {
        0 => 0,
        1 => 16,
        2 if r.chance(6) => 17,
        _ => 1 + r.below(5),
    };
    let sorted = r.chance(2);
    let long = r.chance(2);
    let mut seen = BTreeSet::new();
    let mut image = Image { bytes: Vec::new(), parts: Vec::new(), frames: Vec::new(), long };
    for k in 0..count {
        let wanted = r.below(if count > 6 { 3 } else { 6 });
        let mut frames: Vec<Frame> = (0..wanted).filter_map(|_| frame(long, &mut seen, r)).collect();
        if sorted {
            frames.sort_by_key(|f| (f.key.clone(), Reverse(f.seqno)));
        }
        let gap = r.below(5) as usize;
        image.bytes.extend(r.bytes(gap));
        let mut bytes = finished(&frames);
        if r.chance(60) {
            let at = r.below(bytes.len() as u64) as usize;
            bytes[at] ^= 1 << r.below(8);
        }
        let id = if r.chance(8) { r.below(3) } else { k + 10 };
        // Some parts are taken up behind their first frames, as a merge under way does.
        let skipped = if r.chance(6) { r.below(frames.len() as u64 + 1) } else { 0 };
        let position = frames[..skipped as usize].iter().map(Frame::len).sum::<usize>() as u64;
        let (start, length) = (image.bytes.len() as u64, bytes.len() as u64);
        image.bytes.extend(bytes);
        image.parts.push(Part { start, length, id, position });
        image.frames.push(frames);
    }
    if r.chance(80) {
        if let Some(part) = image.parts.last_mut() {
            match r.below(3) {
                0 => part.length += r.pick(&[1, 2, u64::MAX / 2]),
                1 => part.start = r.number(),
                _ => part.position = r.number(),
            }
        }
    }
    image
}

pub fn merge(r: &mut Random) -> Record {
    let Image { bytes, parts, .. } = image(r);
    Record::Merge { image: bytes, parts }
}

fn ask(image: &Image, r: &mut Random) -> Ask {
    let full: Vec<usize> = (0..image.frames.len()).filter(|&k| !image.frames[k].is_empty()).collect();
    if full.is_empty() || r.chance(8) {
        return Ask {
            key: key(image.long, false, r),
            id: r.below(13),
            offset: r.below(300),
            take: r.chance(2),
        };
    }
    let k = r.pick(&full);
    let at = r.below(image.frames[k].len() as u64) as usize;
    let mut offset = image.frames[k][..at].iter().map(Frame::len).sum::<usize>() as u64;
    if r.chance(6) {
        offset = r.pick(&[0, offset.saturating_sub(1), offset + 1, u64::MAX]);
    }
    Ask { key: image.frames[k][at].key.clone(), id: image.parts[k].id, offset, take: r.chance(2) }
}

pub fn drain(r: &mut Random) -> Record {
    let image = image(r);
    let mut asks: Vec<Ask> = (0..r.below(6)).map(|_| ask(&image, r)).collect();
    if !r.chance(4) {
        asks.sort_by(|a, b| a.key.cmp(&b.key));
    }
    let Image { bytes, parts, .. } = image;
    Record::Drain { image: bytes, parts, asks }
}
