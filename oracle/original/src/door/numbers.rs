//! Numbers in groups of seven bits (by the stand-in), and pointers by the two handle.rs.

use super::Refusal;
use crate::coding::{Decode, Encode};
use crate::vlog::ValueHandle;
use crate::BlobIndirection;
use varint_rs::{VarintReader, VarintWriter};

#[derive(Clone, Copy, Debug)]
pub struct Pointer {
    pub id: u64,
    pub offset: u64,
    pub size: u32,
    pub stated: u32,
}

pub fn write_u64(x: u64) -> Vec<u8> {
    let mut bytes = Vec::new();
    bytes.write_u64_varint(x).expect("a list takes everything");
    bytes
}

pub fn write_u32(x: u32) -> Vec<u8> {
    let mut bytes = Vec::new();
    bytes.write_u32_varint(x).expect("a list takes everything");
    bytes
}

/// What was read, and how many bytes that took.
fn used<T>(
    bytes: &[u8],
    read: impl FnOnce(&mut &[u8]) -> Result<T, crate::Error>,
) -> Result<(T, usize), Refusal> {
    let mut rest = bytes;
    let it = read(&mut rest)?;
    Ok((it, bytes.len() - rest.len()))
}

pub fn read_u64(bytes: &[u8]) -> Result<(u64, usize), Refusal> {
    used(bytes, |rest| Ok(rest.read_u64_varint()?))
}

pub fn read_u32(bytes: &[u8]) -> Result<(u32, usize), Refusal> {
    used(bytes, |rest| Ok(rest.read_u32_varint()?))
}

pub fn encode(pointer: Pointer) -> Vec<u8> {
    BlobIndirection {
        vhandle: ValueHandle { blob_file_id: pointer.id, offset: pointer.offset, on_disk_size: pointer.size },
        size: pointer.stated,
    }
    .encode_into_vec()
}

pub fn decode(bytes: &[u8]) -> Result<(Pointer, usize), Refusal> {
    let (it, used) = used(bytes, |rest| BlobIndirection::decode_from(rest))?;
    let pointer = Pointer {
        id: it.vhandle.blob_file_id,
        offset: it.vhandle.offset,
        size: it.vhandle.on_disk_size,
        stated: it.size,
    };
    Ok((pointer, used))
}
