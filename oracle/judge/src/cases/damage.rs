//! Whole inputs damaged as bytes: most are malformed somewhere, and both sides must say so at the same place.

use super::{batches, case, label};
use crate::random::Random;

/// An input of a few small cases, and what chance does to its bytes.
pub fn damaged(seed: u64, index: u64) -> Vec<u8> {
    let r = &mut Random::of_case(seed ^ 0xda6a_9e00, index);
    if r.chance(20) {
        let len = r.below(200) as usize;
        return r.bytes(len);
    }
    let mut input = Vec::new();
    for _ in 0..1 + r.below(2) {
        let mut pieces = Vec::new();
        while pieces.len() < 6 {
            let record = case(r.next(), r.below(100_000));
            if record.bytes().len() < 600 {
                pieces.push(label(pieces.len() as u64).bytes());
                pieces.push(record.bytes());
            }
        }
        input.extend(batches(pieces));
    }
    for _ in 0..1 + r.below(3) {
        let len = input.len() as u64;
        let at = r.below(len) as usize;
        match r.below(6) {
            0 => input.truncate(at + 1),
            1 => input[at] = r.next() as u8,
            2 => {
                input.remove(at);
            }
            3 => input.insert(at, r.next() as u8),
            _ => input[at] ^= 1 << r.below(8),
        }
    }
    input
}
