//! Stand-in for varint-rs: groups of seven bits, the least first, without a list in between.

use std::io::{Error, ErrorKind, Read, Result, Write};

#[derive(Debug)]
pub struct NotShortest;

impl std::fmt::Display for NotShortest {
    fn fmt(&self, f: &mut std::fmt::Formatter<'_>) -> std::fmt::Result {
        f.write_str("an over-long number")
    }
}

impl std::error::Error for NotShortest {}

fn number(reader: &mut (impl Read + ?Sized), width: u32) -> Result<u64> {
    let (mut value, mut shift) = (0, 0);
    loop {
        let mut byte = [0];
        reader.read_exact(&mut byte)?;
        value |= u64::from(byte[0] % 0x80) << shift;
        if byte[0] < 0x80 {
            return Ok(value);
        }
        shift += 7;
        if shift >= width {
            return Err(Error::new(ErrorKind::Other, NotShortest));
        }
    }
}

pub trait VarintWriter: Write {
    fn write_u64_varint(&mut self, mut x: u64) -> Result<()> {
        while x >= 0x80 {
            self.write_all(&[(x % 0x80) as u8 + 0x80])?;
            x /= 0x80;
        }
        self.write_all(&[x as u8])
    }

    fn write_u32_varint(&mut self, x: u32) -> Result<()> {
        self.write_u64_varint(x.into())
    }
}

impl<W: Write> VarintWriter for W {}

pub trait VarintReader: Read {
    fn read_u64_varint(&mut self) -> Result<u64> {
        number(self, 64)
    }

    fn read_u32_varint(&mut self) -> Result<u32> {
        Ok(number(self, 32)? as u32)
    }
}

impl<R: Read> VarintReader for R {}
