//! Stand-in for varint-rs: unsigned LEB128 from DWARF 5, section 7.6. It writes the shortest spelling. It reads that
//! spelling, and answers a cut number as its reader does; of a padded or over-long number it says that it cannot judge.

use std::io::{Error, ErrorKind, Read, Result, Write};

/// What the reader says of a number that only the real package could answer for.
#[derive(Debug)]
pub struct NotShortest;

impl std::fmt::Display for NotShortest {
    fn fmt(&self, f: &mut std::fmt::Formatter<'_>) -> std::fmt::Result {
        f.write_str("a padded or over-long number")
    }
}

impl std::error::Error for NotShortest {}

fn groups(mut x: u64) -> Vec<u8> {
    let mut out = Vec::new();
    while x >= 0x80 {
        out.push((x % 0x80) as u8 + 0x80);
        x /= 0x80;
    }
    out.push(x as u8);
    out
}

fn number(reader: &mut (impl Read + ?Sized), most: usize, width: u32) -> Result<u64> {
    let mut spelled = Vec::new();
    loop {
        let mut byte = [0];
        reader.read_exact(&mut byte)?;
        spelled.push(byte[0]);
        if byte[0] < 0x80 || spelled.len() == most {
            break;
        }
    }
    let value: u128 = spelled.iter().rev().fold(0, |sum, group| sum * 0x80 + u128::from(group % 0x80));
    match u64::try_from(value) {
        Ok(x) if u128::from(x) < 1 << width && groups(x) == spelled => Ok(x),
        _ => Err(Error::new(ErrorKind::Other, NotShortest)),
    }
}

pub trait VarintWriter: Write {
    fn write_u64_varint(&mut self, x: u64) -> Result<()> {
        self.write_all(&groups(x))
    }

    fn write_u32_varint(&mut self, x: u32) -> Result<()> {
        self.write_all(&groups(x.into()))
    }
}

impl<W: Write> VarintWriter for W {}

pub trait VarintReader: Read {
    fn read_u64_varint(&mut self) -> Result<u64> {
        number(self, 10, 64)
    }

    fn read_u32_varint(&mut self) -> Result<u32> {
        Ok(number(self, 5, 32)? as u32)
    }
}

impl<R: Read> VarintReader for R {}
