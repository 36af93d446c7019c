//! Numbers in groups of seven bits, and pointers.

use super::{number, Judge, Unjudged};
use crate::record::Pointer;
use original::door::numbers;

impl Judge {
    pub(super) fn put_number(&mut self, wide: bool, value: u64, room: u64) -> Result<(), Unjudged> {
        let bytes = if wide { numbers::write_u64(value) } else { numbers::write_u32(value as u32) };
        self.put(room, &bytes)
    }

    pub(super) fn get_number(&mut self, wide: bool, bytes: &[u8]) -> Result<(), Unjudged> {
        let read = if wide {
            numbers::read_u64(bytes)
        } else {
            numbers::read_u32(bytes).map(|(x, used)| (x.into(), used))
        };
        match read {
            Ok((value, used)) => self.say(format!("num {value} {used}")),
            Err(refusal) => {
                let number = number(refusal)?;
                self.say(format!("refused {number}"));
            }
        }
        Ok(())
    }

    pub(super) fn put_pointer(&mut self, pointer: &Pointer, room: u64) -> Result<(), Unjudged> {
        self.put(room, &numbers::encode(original(pointer)))
    }

    pub(super) fn get_pointer(&mut self, bytes: &[u8]) -> Result<(), Unjudged> {
        match numbers::decode(bytes) {
            Ok((p, used)) => {
                let (id, offset, size, stated) = (p.id, p.offset, p.size, p.stated);
                self.say(format!("ptr {id} {offset} {size} {stated} {used}"));
            }
            Err(refusal) => {
                let number = number(refusal)?;
                self.say(format!("refused {number}"));
            }
        }
        Ok(())
    }
}

pub(super) fn original(p: &Pointer) -> numbers::Pointer {
    numbers::Pointer { id: p.id, offset: p.offset, size: p.size, stated: p.stated }
}
