//! XXH3-128 as the originals compute it.

use crate::checksum::ChecksummedWriter;
use std::io::{sink, Write};

/// By hash.rs, over one slice.
pub fn one(bytes: &[u8]) -> u128 {
    crate::hash::hash128(bytes)
}

/// By checksum.rs, piece after piece.
pub fn joined(key: &[u8], value: &[u8]) -> u128 {
    let mut writer = ChecksummedWriter::new(sink());
    for mut piece in [key, value] {
        while !piece.is_empty() {
            let taken = writer.write(piece).expect("a sink takes everything");
            piece = &piece[taken..];
        }
    }
    writer.checksum().into_u128()
}
