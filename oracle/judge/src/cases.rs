//! Cases from a seed. A case is one record; each comes behind a label, a hash of its index, so that the two sides'
//! answers can be laid beside each other case by case.

mod damage;
mod files;
mod garbage;
mod hashes;
mod merges;
mod numbers;
mod writes;

pub use damage::damaged;
pub use files::{finished, Frame};

use crate::fields::put_n;
use crate::random::Random;
use crate::record::Record;
use crate::BATCH;

/// The record of one case. Every fourth goes through lists of borders in order; the others are free.
pub fn case(seed: u64, index: u64) -> Record {
    let r = &mut Random::of_case(seed, index);
    if index % 4 == 0 {
        let turn = index / 4;
        return match turn % 4 {
            0 => hashes::border(turn / 4, r),
            1 => files::cut_or_flip(turn / 4),
            2 => garbage::border(turn / 4, r),
            _ => numbers::border(turn / 4, r),
        };
    }
    match r.below(32) {
        0..=2 => hashes::any(r),
        3..=8 => writes::any(r),
        9..=13 => files::scan(r),
        14..=18 => files::point(r),
        19..=21 => merges::merge(r),
        22..=24 => merges::drain(r),
        25..=27 => numbers::any(r),
        _ => garbage::any(r),
    }
}

fn label_text(index: u64) -> Vec<u8> {
    format!("case {index}").into_bytes()
}

pub fn label(index: u64) -> Record {
    Record::Hash { bytes: label_text(index) }
}

/// Batches of labelled records.
pub fn labelled<'a>(records: impl IntoIterator<Item = (u64, &'a Record)>) -> Vec<u8> {
    let pairs = records.into_iter().map(|(index, record)| [label(index).bytes(), record.bytes()].concat());
    batches(pairs)
}

/// Batches as full as they get, each piece whole in one. A piece must fit a batch.
pub fn batches(pieces: impl IntoIterator<Item = Vec<u8>>) -> Vec<u8> {
    let mut out = Vec::new();
    let mut batch: Vec<u8> = Vec::new();
    let mut close = |batch: &mut Vec<u8>| {
        if !batch.is_empty() {
            put_n(&mut out, batch.len() as u64);
            out.append(batch);
        }
    };
    for piece in pieces {
        assert!(piece.len() <= BATCH, "a case of {} bytes", piece.len());
        if batch.len() + piece.len() > BATCH {
            close(&mut batch);
        }
        batch.extend(piece);
    }
    close(&mut batch);
    out
}

/// The line that a label's answer is.
pub fn label_line(index: u64) -> String {
    let sum = original::door::hash::one(&label_text(index));
    format!("hash {} {}", sum as u64, (sum >> 64) as u64)
}
