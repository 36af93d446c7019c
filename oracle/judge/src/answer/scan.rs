//! Scans and point reads.

use super::{sums, Judge, Unjudged};
use crate::fields::hex;
use original::door::{point, scan::Scan, Refusal};
use std::fs::File;

impl Judge {
    pub(super) fn scan(&mut self, file: &[u8]) -> Result<(), Unjudged> {
        let path = self.scratch.file("scanned", file);
        let mut scan = Scan::new(&path);
        loop {
            let (at, step) = scan.step();
            match step {
                None => {
                    self.say(format!("end {at}"));
                    return Ok(());
                }
                Some(Ok(entry)) => {
                    assert_eq!(entry.offset, at, "an entry lies elsewhere");
                    self.say(format!(
                        "entry {at} {} {} {} {} {}",
                        entry.seqno,
                        entry.stated,
                        entry.value.len(),
                        hex(&entry.key),
                        hex(&entry.value)
                    ));
                }
                Some(Err(Refusal::CutShort)) => {
                    self.say(format!("refused 7 {at}"));
                    return Ok(());
                }
                Some(Err(Refusal::InvalidHeader)) => self.say(format!("refused 8 {at}")),
                Some(Err(Refusal::Mismatch { stored, computed })) => {
                    self.say(format!("refused 9 {at} {}", sums(stored, computed)));
                }
                Some(Err(Refusal::Other(what))) => return Unjudged::new(what),
            }
        }
    }

    pub(super) fn point(
        &mut self,
        file: &[u8],
        key: &[u8],
        id: u64,
        offset: u64,
        size: u32,
    ) -> Result<(), Unjudged> {
        let path = self.scratch.file("read", file);
        let file = File::open(path).expect("a scratch file");
        match point::read(&file, key, id, offset, size) {
            Ok(value) => self.say(format!("value {}", hex(&value))),
            Err(Refusal::CutShort) => self.say("refused 7"),
            Err(Refusal::InvalidHeader) => self.say("refused 8"),
            Err(Refusal::Mismatch { stored, computed }) => {
                self.say(format!("refused 9 {}", sums(stored, computed)));
            }
            Err(Refusal::Other(what)) => return Unjudged::new(what),
        }
        Ok(())
    }
}
