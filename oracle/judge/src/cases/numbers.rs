//! Numbers and pointers at the borders of their groups of seven bits.

use crate::random::Random;
use crate::record::{Pointer, Record};
use original::door::numbers;

/// The powers of two at a border, and their neighbours, in turn: written, read, cut, padded.
pub fn border(turn: u64, r: &mut Random) -> Record {
    let shift = turn / 12 % 65;
    let power = if shift == 64 { 0 } else { 1_u64 << shift };
    let value = [power.wrapping_sub(1), power, power.wrapping_add(1)][(turn % 3) as usize];
    let wide = value > u32::MAX.into() || turn / 3 % 2 == 0;
    let mut bytes = numbers::write_u64(value);
    match turn / 6 % 2 {
        0 => put(wide, value, r),
        _ => {
            spoil(&mut bytes, r);
            Record::GetNumber { wide, bytes }
        }
    }
}

/// Written into a room that it mostly fits.
fn put(wide: bool, value: u64, r: &mut Random) -> Record {
    let exact = numbers::write_u64(value).len() as u64;
    let room = r.pick(&[exact, exact + 1, 16, 12, exact - 1]);
    Record::PutNumber { wide, value, room }
}

/// Leaves a spelling whole, cuts it, pads it, or puts something behind it.
fn spoil(bytes: &mut Vec<u8>, r: &mut Random) {
    match r.below(8) {
        0 => bytes.truncate(r.below(bytes.len() as u64 + 1) as usize),
        1 => {
            let last = bytes.len() - 1;
            bytes[last] |= 0x80;
            bytes.extend(vec![0x80; r.below(3) as usize]);
            bytes.push(0);
        }
        2..=4 => bytes.extend(r.bytes(4)),
        _ => {}
    }
}

pub fn pointer(r: &mut Random) -> Pointer {
    Pointer { id: r.number(), offset: r.number(), size: r.word(), stated: r.word() }
}

pub fn spelled(p: &Pointer) -> Vec<u8> {
    numbers::encode(numbers::Pointer { id: p.id, offset: p.offset, size: p.size, stated: p.stated })
}

pub fn any(r: &mut Random) -> Record {
    match r.below(4) {
        0 => {
            let wide = r.chance(2);
            let value = if wide { r.number() } else { r.word().into() };
            put(wide, value, r)
        }
        1 => {
            let mut bytes = numbers::write_u64(r.number());
            spoil(&mut bytes, r);
            Record::GetNumber { wide: r.chance(2), bytes }
        }
        2 => {
            let pointer = pointer(r);
            let exact = spelled(&pointer).len() as u64;
            let room = r.pick(&[exact, exact + 1, 64, 32, exact.saturating_sub(1)]);
            Record::PutPointer { pointer, room }
        }
        _ => {
            let mut bytes = spelled(&pointer(r));
            spoil(&mut bytes, r);
            Record::GetPointer { bytes }
        }
    }
}
