//! Records as their fields, and the fields as bytes.

use super::{File, MapStep, Part, Pointer, Record, WriteStep};
use crate::fields::{put_b, put_n};

/// A number, a byte string, or a count and so many items.
#[derive(Clone, Debug, PartialEq)]
pub enum Field {
    N(u64),
    B(Vec<u8>),
    List(Vec<Vec<Field>>),
}

use Field::{List, B, N};

pub fn put(out: &mut Vec<u8>, fields: &[Field]) {
    for field in fields {
        match field {
            N(n) => put_n(out, *n),
            B(bytes) => put_b(out, bytes),
            List(items) => {
                put_n(out, items.len() as u64);
                items.iter().for_each(|item| put(out, item));
            }
        }
    }
}

fn list<T>(items: &[T], fields: impl Fn(&T) -> Vec<Field>) -> Field {
    List(items.iter().map(fields).collect())
}

fn b(bytes: &[u8]) -> Field {
    B(bytes.to_vec())
}

fn parts(parts: &[Part]) -> Field {
    list(parts, |p| vec![N(p.start), N(p.length), N(p.id), N(p.position)])
}

fn pointer(p: &Pointer) -> Vec<Field> {
    vec![N(p.id), N(p.offset), N(p.size.into()), N(p.stated.into())]
}

fn file(f: &File) -> Vec<Field> {
    vec![N(f.id), N(f.items), N(f.disk), N(f.stated)]
}

fn write_step(step: &WriteStep) -> Vec<Field> {
    match step {
        WriteStep::Append { key, seqno, value } => vec![N(0), b(key), N(*seqno), b(value)],
        WriteStep::Raw { key, seqno, value, stated } => {
            vec![N(1), b(key), N(*seqno), b(value), N((*stated).into())]
        }
        WriteStep::Finish => vec![N(2)],
        WriteStep::Next => vec![N(3)],
        WriteStep::Target(target) => vec![N(4), N(*target)],
        WriteStep::State(state) => [5].iter().chain(state).map(|n| N(*n)).collect(),
        WriteStep::Show => vec![N(6)],
    }
}

fn map_step(step: &MapStep) -> Vec<Field> {
    match step {
        MapStep::Drop { map, marked, record } => {
            vec![N(0), N(*map), N((*marked).into()), b(record)]
        }
        MapStep::Batch { map, drops } => vec![N(1), N(*map), list(drops, pointer)],
        MapStep::Merge { source, target } => vec![N(2), N(*source), N(*target)],
        MapStep::Store { map, room } => vec![N(3), N(*map), N(*room)],
        MapStep::Load { map, bytes } => vec![N(4), N(*map), b(bytes)],
        MapStep::Prune { map, kept } => vec![N(5), N(*map), list(kept, |id| vec![N(*id)])],
        MapStep::Sum { map } => vec![N(6), N(*map)],
        MapStep::Dead { map, file: f } => [vec![N(7), N(*map)], file(f)].concat(),
        MapStep::Stale { map, file: f, threshold } => {
            [vec![N(8), N(*map)], file(f), vec![N((*threshold).into())]].concat()
        }
        MapStep::Entries { map, entries } => {
            let entry = |e: &super::MapEntry| vec![N(e.id), N(e.frames.into()), N(e.stated), N(e.disk)];
            vec![N(9), N(*map), list(entries, entry)]
        }
    }
}

fn width(wide: bool) -> Field {
    N(if wide { 64 } else { 32 })
}

impl Record {
    pub fn letter(&self) -> char {
        match self {
            Self::Joined { .. } => 'H',
            Self::Hash { .. } => 'h',
            Self::Write { .. } => 'W',
            Self::Scan { .. } => 'S',
            Self::Point { .. } => 'P',
            Self::Merge { .. } => 'M',
            Self::Drain { .. } => 'D',
            Self::PutNumber { .. } => 'V',
            Self::GetNumber { .. } => 'v',
            Self::PutPointer { .. } => 'I',
            Self::GetPointer { .. } => 'i',
            Self::Garbage { .. } => 'G',
        }
    }

    pub fn fields(&self) -> Vec<Field> {
        match self {
            Self::Joined { key, value } => vec![b(key), b(value)],
            Self::Hash { bytes } | Self::Scan { file: bytes } | Self::GetPointer { bytes } => {
                vec![b(bytes)]
            }
            Self::Write { room, id, target, steps } => {
                vec![N(*room), N(*id), N(*target), list(steps, write_step)]
            }
            Self::Point { file, key, id, offset, size } => {
                vec![b(file), b(key), N(*id), N(*offset), N((*size).into())]
            }
            Self::Merge { image, parts: table } => vec![b(image), parts(table)],
            Self::Drain { image, parts: table, asks } => {
                let ask = |ask: &super::Ask| vec![b(&ask.key), N(ask.id), N(ask.offset), N(ask.take.into())];
                vec![b(image), parts(table), list(asks, ask)]
            }
            Self::PutNumber { wide, value, room } => vec![width(*wide), N(*value), N(*room)],
            Self::GetNumber { wide, bytes } => vec![width(*wide), b(bytes)],
            Self::PutPointer { pointer: p, room } => [pointer(p), vec![N(*room)]].concat(),
            Self::Garbage { steps } => vec![list(steps, map_step)],
        }
    }

    pub fn bytes(&self) -> Vec<u8> {
        let mut out = vec![self.letter() as u8];
        put(&mut out, &self.fields());
        out
    }
}
