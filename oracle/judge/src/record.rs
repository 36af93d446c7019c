//! Records of the calls format, read and written.

use crate::fields::{Bad, Fields};

mod put;

pub use put::{put, Field};

#[derive(Clone, Debug, PartialEq)]
pub struct Part {
    pub start: u64,
    pub length: u64,
    pub id: u64,
    pub position: u64,
}

#[derive(Clone, Debug, PartialEq)]
pub struct Ask {
    pub key: Vec<u8>,
    pub id: u64,
    pub offset: u64,
    pub take: bool,
}

#[derive(Clone, Debug, PartialEq)]
pub struct Pointer {
    pub id: u64,
    pub offset: u64,
    pub size: u32,
    pub stated: u32,
}

#[derive(Clone, Debug, PartialEq)]
pub enum WriteStep {
    Append {
        key: Vec<u8>,
        seqno: u64,
        value: Vec<u8>,
    },
    Raw {
        key: Vec<u8>,
        seqno: u64,
        value: Vec<u8>,
        stated: u32,
    },
    Finish,
    Next,
    Target(u64),
    /// The eleven numbers; the seventh is 0 or 1.
    State([u64; 11]),
    Show,
}

#[derive(Clone, Debug, PartialEq)]
pub struct File {
    pub id: u64,
    pub items: u64,
    pub disk: u64,
    pub stated: u64,
}

#[derive(Clone, Debug, PartialEq)]
pub struct MapEntry {
    pub id: u64,
    pub frames: u32,
    pub stated: u64,
    pub disk: u64,
}

#[derive(Clone, Debug, PartialEq)]
pub enum MapStep {
    Drop { map: u64, marked: bool, record: Vec<u8> },
    Batch { map: u64, drops: Vec<Pointer> },
    Merge { source: u64, target: u64 },
    Store { map: u64, room: u64 },
    Load { map: u64, bytes: Vec<u8> },
    Prune { map: u64, kept: Vec<u64> },
    Sum { map: u64 },
    Dead { map: u64, file: File },
    Stale { map: u64, file: File, threshold: u32 },
    Entries { map: u64, entries: Vec<MapEntry> },
}

#[derive(Clone, Debug, PartialEq)]
pub enum Record {
    Joined { key: Vec<u8>, value: Vec<u8> },
    Hash { bytes: Vec<u8> },
    Write { room: u64, id: u64, target: u64, steps: Vec<WriteStep> },
    Scan { file: Vec<u8> },
    Point { file: Vec<u8>, key: Vec<u8>, id: u64, offset: u64, size: u32 },
    Merge { image: Vec<u8>, parts: Vec<Part> },
    Drain { image: Vec<u8>, parts: Vec<Part>, asks: Vec<Ask> },
    PutNumber { wide: bool, value: u64, room: u64 },
    GetNumber { wide: bool, bytes: Vec<u8> },
    PutPointer { pointer: Pointer, room: u64 },
    GetPointer { bytes: Vec<u8> },
    Garbage { steps: Vec<MapStep> },
}

/// A record as far as it could be read: its steps before a malformed one, or nothing of a record without steps.
pub struct Read {
    pub record: Option<Record>,
    pub whole: bool,
}

/// As many items as the count says, or those before the first malformed one.
fn items<T>(count: u64, fields: &mut Fields, item: impl Fn(&mut Fields) -> Result<T, Bad>) -> (Vec<T>, bool) {
    let mut list = Vec::new();
    for _ in 0..count {
        match item(fields) {
            Ok(it) => list.push(it),
            Err(Bad) => return (list, false),
        }
    }
    (list, true)
}

fn all<T>(
    count: u64,
    fields: &mut Fields,
    item: impl Fn(&mut Fields) -> Result<T, Bad>,
) -> Result<Vec<T>, Bad> {
    match items(count, fields, item) {
        (list, true) => Ok(list),
        _ => Err(Bad),
    }
}

fn part(f: &mut Fields) -> Result<Part, Bad> {
    Ok(Part { start: f.n()?, length: f.n()?, id: f.n()?, position: f.n()? })
}

fn parts(f: &mut Fields) -> Result<Vec<Part>, Bad> {
    let count = f.n()?;
    all(count, f, part)
}

fn ask(f: &mut Fields) -> Result<Ask, Bad> {
    Ok(Ask { key: f.b()?, id: f.n()?, offset: f.n()?, take: f.flag()? })
}

fn pointer(f: &mut Fields) -> Result<Pointer, Bad> {
    Ok(Pointer { id: f.n()?, offset: f.n()?, size: f.word()?, stated: f.word()? })
}

fn wide(f: &mut Fields) -> Result<bool, Bad> {
    match f.n()? {
        32 => Ok(false),
        64 => Ok(true),
        _ => Err(Bad),
    }
}

fn write_step(f: &mut Fields) -> Result<WriteStep, Bad> {
    Ok(match f.n()? {
        0 => WriteStep::Append { key: f.b()?, seqno: f.n()?, value: f.b()? },
        1 => WriteStep::Raw { key: f.b()?, seqno: f.n()?, value: f.b()?, stated: f.word()? },
        2 => WriteStep::Finish,
        3 => WriteStep::Next,
        4 => WriteStep::Target(f.n()?),
        5 => {
            let mut state = [0; 11];
            for (k, number) in state.iter_mut().enumerate() {
                *number = if k == 6 { f.most(1)? } else { f.n()? };
            }
            WriteStep::State(state)
        }
        6 => WriteStep::Show,
        _ => return Err(Bad),
    })
}

fn file(f: &mut Fields) -> Result<File, Bad> {
    Ok(File { id: f.n()?, items: f.n()?, disk: f.n()?, stated: f.n()? })
}

fn map_entry(f: &mut Fields) -> Result<MapEntry, Bad> {
    Ok(MapEntry { id: f.n()?, frames: f.word()?, stated: f.n()?, disk: f.n()? })
}

fn map_step(f: &mut Fields) -> Result<MapStep, Bad> {
    let kind = f.n()?;
    let map = f.most(7)?;
    Ok(match kind {
        0 => MapStep::Drop { map, marked: f.flag()?, record: f.b()? },
        1 => {
            let count = f.most(256)?;
            MapStep::Batch { map, drops: all(count, f, pointer)? }
        }
        2 => {
            let target = f.most(7)?;
            if target == map {
                return Err(Bad);
            }
            MapStep::Merge { source: map, target }
        }
        3 => MapStep::Store { map, room: f.most(4_096)? },
        4 => MapStep::Load { map, bytes: f.b()? },
        5 => {
            let count = f.most(256)?;
            MapStep::Prune { map, kept: all(count, f, |f| f.n())? }
        }
        6 => MapStep::Sum { map },
        7 => MapStep::Dead { map, file: file(f)? },
        8 => MapStep::Stale { map, file: file(f)?, threshold: f.word()? },
        9 => {
            let count = f.n()?;
            MapStep::Entries { map, entries: all(count, f, map_entry)? }
        }
        _ => return Err(Bad),
    })
}

fn without_steps(letter: u8, f: &mut Fields) -> Result<Record, Bad> {
    Ok(match letter {
        b'H' => Record::Joined { key: f.b()?, value: f.b()? },
        b'h' => Record::Hash { bytes: f.b()? },
        b'S' => Record::Scan { file: f.b()? },
        b'P' => Record::Point { file: f.b()?, key: f.b()?, id: f.n()?, offset: f.n()?, size: f.word()? },
        b'M' => Record::Merge { image: f.b()?, parts: parts(f)? },
        b'V' => {
            let wide = wide(f)?;
            let value = f.most(if wide { u64::MAX } else { u32::MAX.into() })?;
            Record::PutNumber { wide, value, room: f.most(16)? }
        }
        b'v' => Record::GetNumber { wide: wide(f)?, bytes: f.b()? },
        b'I' => {
            let pointer = pointer(f)?;
            Record::PutPointer { pointer, room: f.most(64)? }
        }
        b'i' => Record::GetPointer { bytes: f.b()? },
        _ => return Err(Bad),
    })
}

fn with_steps(letter: u8, f: &mut Fields) -> Result<Read, Bad> {
    let (record, whole) = match letter {
        b'W' => {
            let (room, id, target) = (f.most(32_768)?, f.n()?, f.n()?);
            let (steps, whole) = items(f.n()?, f, write_step);
            (Record::Write { room, id, target, steps }, whole)
        }
        b'D' => {
            let (image, parts) = (f.b()?, parts(f)?);
            let (asks, whole) = items(f.n()?, f, ask);
            (Record::Drain { image, parts, asks }, whole)
        }
        _ => {
            let (steps, whole) = items(f.n()?, f, map_step);
            (Record::Garbage { steps }, whole)
        }
    };
    Ok(Read { record: Some(record), whole })
}

/// Reads one record off the front.
pub fn read(f: &mut Fields) -> Read {
    let nothing = Read { record: None, whole: false };
    let Ok(letter) = f.take(1) else {
        return nothing;
    };
    match letter[0] {
        letter @ (b'W' | b'D' | b'G') => with_steps(letter, f).unwrap_or(nothing),
        letter => match without_steps(letter, f) {
            Ok(record) => Read { record: Some(record), whole: true },
            Err(Bad) => nothing,
        },
    }
}
