//! The originals' answers to records, as the lines of the calls format, with `unjudged` and the reason where the
//! originals can't speak: what that record would print from there on is then free.

mod garbage;
mod merge;
mod numbers;
mod scan;
mod write;

use crate::fields::{hex, Fields};
use crate::record::{read, Record};
use crate::scratch::Scratch;
use crate::BATCH;
use original::door::{hash, Refusal};

/// Why the originals can't judge.
pub struct Unjudged(pub String);

impl Unjudged {
    pub fn new<T>(why: impl Into<String>) -> Result<T, Self> {
        Err(Self(why.into()))
    }
}

/// The line that stands for all that is free.
pub const UNJUDGED: &str = "unjudged";

/// A room is filled with this byte.
const ROOM: u8 = 0xEE;

pub struct Judge {
    scratch: Scratch,
    pub lines: Vec<String>,
}

fn sum(x: u128) -> String {
    format!("{} {}", x as u64, (x >> 64) as u64)
}

/// What a refusal prints after its number and place.
fn sums(stored: u128, computed: u128) -> String {
    format!("{} {}", sum(stored), sum(computed))
}

/// The number of a refusal in a handle, a map's stored form or a record.
fn number(refusal: Refusal) -> Result<u64, Unjudged> {
    match refusal {
        Refusal::CutShort => Ok(7),
        other => Unjudged::new(format!("{other:?}")),
    }
}

impl Judge {
    pub fn new() -> Self {
        Self { scratch: Scratch::new().expect("a folder for scratch files"), lines: Vec::new() }
    }

    fn say(&mut self, line: impl Into<String>) {
        self.lines.push(line.into());
    }

    /// The whole of a room into which these bytes were written.
    fn room(&mut self, room: u64, bytes: &[u8]) {
        let mut whole = bytes.to_vec();
        assert!(whole.len() as u64 <= room, "written past a room");
        whole.resize(room as usize, ROOM);
        self.say(format!("bytes {}", hex(&whole)));
    }

    /// `used`, and the room, for bytes that fit it.
    fn put(&mut self, room: u64, bytes: &[u8]) -> Result<(), Unjudged> {
        if bytes.len() as u64 > room {
            return Unjudged::new("no room");
        }
        self.say(format!("used {}", bytes.len()));
        self.room(room, bytes);
        Ok(())
    }

    fn record(&mut self, record: &Record, whole: bool) -> Result<(), Unjudged> {
        match record {
            Record::Joined { key, value } => {
                self.say(format!("hash {}", sum(hash::joined(key, value))));
                Ok(())
            }
            Record::Hash { bytes } => {
                self.say(format!("hash {}", sum(hash::one(bytes))));
                Ok(())
            }
            Record::Write { room, id, target, steps } => self.write(*room, *id, *target, steps, whole),
            Record::Scan { file } => self.scan(file),
            Record::Point { file, key, id, offset, size } => self.point(file, key, *id, *offset, *size),
            Record::Merge { image, parts } => self.merge(image, parts),
            Record::Drain { image, parts, asks } => self.drain(image, parts, asks, whole),
            Record::PutNumber { wide, value, room } => self.put_number(*wide, *value, *room),
            Record::GetNumber { wide, bytes } => self.get_number(*wide, bytes),
            Record::PutPointer { pointer, room } => self.put_pointer(pointer, *room),
            Record::GetPointer { bytes } => self.get_pointer(bytes),
            Record::Garbage { steps } => self.garbage(steps),
        }
    }

    /// Reads one record and answers it. False where it was malformed.
    fn answer(&mut self, fields: &mut Fields) -> bool {
        let read = read(fields);
        if let Some(record) = &read.record {
            if let Err(Unjudged(why)) = self.record(record, read.whole) {
                self.say(format!("{UNJUDGED} {}", why.replace('\n', " ")));
            }
        }
        read.whole
    }

    /// Answers a batch's records, handing on the lines of each. False where one was malformed.
    fn batch(&mut self, mut records: Fields, mut each: impl FnMut(&mut Self)) -> bool {
        while !records.0.is_empty() {
            if !self.answer(&mut records) {
                return false;
            }
            each(self);
        }
        true
    }

    /// Answers a whole input.
    pub fn input(&mut self, input: &[u8], mut each: impl FnMut(&mut Self)) {
        let mut fields = Fields(input);
        for _ in 0..1_000_000 {
            if fields.0.is_empty() {
                return;
            }
            let batch = fields.most(BATCH as u64).and_then(|len| fields.take(len as usize));
            let fine = match batch {
                Ok(records) => self.batch(Fields(records), &mut each),
                Err(_) => false,
            };
            if !fine {
                self.say("bad");
                each(self);
                return;
            }
        }
    }
}

impl Default for Judge {
    fn default() -> Self {
        Self::new()
    }
}
