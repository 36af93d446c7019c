//! Merges and drains, on document 01's domain: no part's scan is refused, and no key and seqno stands in two parts.

use super::{Judge, Unjudged};
use crate::fields::hex;
use crate::record::{Ask, Part};
use original::door::merge::{Drained, Merge, Part as Source, Pulled};
use original::door::scan::Entry;
use std::collections::HashMap;

struct Table {
    sources: Vec<Source>,
    /// Which part a key and seqno stands in.
    part_of: HashMap<(Vec<u8>, u64), usize>,
}

impl Table {
    /// The sources read from where they stand once all this is taken.
    fn after(&self, pulled: &[Pulled]) -> Vec<Source> {
        let place = |part: usize, source: &Source| {
            let of = |(key, seqno, _): &&Pulled| self.part_of[&(key.clone(), *seqno)] == part;
            let last = pulled.iter().filter(of).last();
            last.map_or(source.position, |(_, _, after)| *after)
        };
        let moved = self.sources.iter().enumerate();
        moved
            .map(|(part, source)| Source {
                path: source.path.clone(),
                id: source.id,
                position: place(part, source),
            })
            .collect()
    }
}

impl Judge {
    fn sources(&self, image: &[u8], parts: &[Part]) -> Result<Vec<Source>, Unjudged> {
        if parts.len() > 16 {
            return Unjudged::new("bad part: too many");
        }
        let source = |(k, part): (usize, &Part)| {
            let size = image.len() as u64;
            let inside = part.start <= size && part.length <= size - part.start;
            if !inside || part.position > part.length {
                return Unjudged::new(format!("bad part {k}"));
            }
            let bytes = &image[part.start as usize..][..part.length as usize];
            Ok(Source {
                path: self.scratch.file(&format!("part{k}"), bytes),
                id: part.id,
                position: part.position,
            })
        };
        parts.iter().enumerate().map(source).collect()
    }

    fn table(&self, image: &[u8], parts: &[Part]) -> Result<Table, Unjudged> {
        let sources = self.sources(image, parts)?;
        let mut part_of = HashMap::new();
        for (k, source) in sources.iter().enumerate() {
            let mut alone = Merge::new(std::slice::from_ref(source));
            while let Some(next) = alone.next() {
                let Ok((entry, _)) = next else {
                    return Unjudged::new(format!("the scan of part {k} is refused"));
                };
                let before = part_of.insert((entry.key, entry.seqno), k);
                if before.is_some_and(|part| part != k) {
                    return Unjudged::new("a key and seqno in two parts");
                }
            }
        }
        Ok(Table { sources, part_of })
    }

    /// False at the end.
    fn merged(&mut self, table: &Table, merge: &mut Merge) -> Result<bool, Unjudged> {
        match merge.next() {
            None => {
                self.say("end");
                Ok(false)
            }
            Some(Ok((Entry { offset, key, seqno, stated, value }, id))) => {
                let part = table.part_of[&(key.clone(), seqno)];
                let (key, value) = (hex(&key), hex(&value));
                self.say(format!("entry {part} {id} {offset} {seqno} {stated} {key} {value}"));
                Ok(true)
            }
            Some(Err(refusal)) => Unjudged::new(format!("{refusal:?}")),
        }
    }

    pub(super) fn merge(&mut self, image: &[u8], parts: &[Part]) -> Result<(), Unjudged> {
        let table = self.table(image, parts)?;
        let mut merge = Merge::new(&table.sources);
        while self.merged(&table, &mut merge)? {}
        Ok(())
    }

    pub(super) fn drain(
        &mut self,
        image: &[u8],
        parts: &[Part],
        asks: &[Ask],
        whole: bool,
    ) -> Result<(), Unjudged> {
        let mut table = self.table(image, parts)?;
        let mut merge = Merge::new(&table.sources);
        // What was pulled and not taken: the entry that a drain left standing.
        let mut standing = false;
        for ask in asks {
            let drained = merge.drain(&ask.key, ask.id, ask.offset);
            standing = matches!(drained, Drained::Stands(_));
            match drained {
                Drained::Stands(at) if at == ask.offset => self.say("found"),
                Drained::Stands(_) => self.say("past"),
                Drained::End => self.say("end"),
                Drained::Refused(refusal) => return Unjudged::new(format!("{refusal:?}")),
                Drained::NotMatched => {
                    self.say("refused 14");
                    // The original has taken the entry that document 01 leaves: begin again before it.
                    let mut taken = merge.pulled();
                    taken.pop();
                    table.sources = table.after(&taken);
                    merge = Merge::new(&table.sources);
                }
            }
            if ask.take {
                self.merged(&table, &mut merge)?;
                standing = false;
            }
        }
        if whole {
            let mut taken = merge.pulled();
            if standing {
                taken.pop();
            }
            let places = table.after(&taken);
            let places = places.iter().map(|source| format!(" {}", source.position));
            self.say(format!("at{}", places.collect::<String>()));
        }
        Ok(())
    }
}
