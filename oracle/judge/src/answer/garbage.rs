//! Fragmentation maps and verdicts, within document 01's limits: at most 64 ids, counts and sums that fit. The originals
//! wrap or go on where it refuses, so such a step is not judged.

use super::{number, numbers::original, Judge, Unjudged};
use crate::record::{File, MapEntry, MapStep, Pointer};
use original::door::garbage::{Entry, Map};
use original::door::{numbers, point::Report};

const IDS: usize = 64;

/// The eight maps; nothing where a map that is not well formed was handed in.
struct Maps([Option<Map>; 8]);

impl Maps {
    fn at(&mut self, map: u64) -> Result<&mut Map, Unjudged> {
        match &mut self.0[map as usize] {
            Some(map) => Ok(map),
            None => Unjudged::new("a malformed map"),
        }
    }
}

fn add(old: Entry, new: Entry) -> Option<Entry> {
    Some(Entry {
        frames: Some(old.frames + new.frames).filter(|&sum| sum <= u32::MAX.into())?,
        stated: old.stated.checked_add(new.stated)?,
        disk: old.disk.checked_add(new.disk)?,
    })
}

/// Whether this may be added to that id's entry within the limits.
fn fits(map: &Map, id: u64, new: Entry) -> Result<(), Unjudged> {
    match map.get(id) {
        Some(old) if add(old, new).is_none() => Unjudged::new("sum too big"),
        None if map.ids().len() >= IDS => Unjudged::new("map full"),
        _ => Ok(()),
    }
}

fn drop_pointer(map: &mut Map, pointer: numbers::Pointer) -> Result<(), Unjudged> {
    let new = Entry { frames: 1, stated: pointer.stated.into(), disk: pointer.size.into() };
    fits(map, pointer.id, new)
}

fn drop_record(map: &mut Map, marked: bool, record: &[u8]) -> Result<Option<u64>, Unjudged> {
    if marked {
        match numbers::decode(record) {
            Ok((pointer, _)) => drop_pointer(map, pointer)?,
            Err(refusal) => {
                let number = number(refusal)?;
                assert!(!map.drop(marked, record), "a cut record was dropped");
                return Ok(Some(number));
            }
        }
    }
    assert!(map.drop(marked, record), "a whole record was not dropped");
    Ok(None)
}

fn merge(source: Map, target: &mut Map) -> Result<(), Unjudged> {
    let mut room = IDS - target.ids().len();
    for id in source.ids() {
        let new = source.get(id).expect("an id of the map");
        match target.get(id) {
            Some(old) if add(old, new).is_none() => return Unjudged::new("sum too big"),
            Some(_) => {}
            None if room == 0 => return Unjudged::new("map full"),
            None => room -= 1,
        }
    }
    source.merge_into(target);
    Ok(())
}

/// The stored form with its entries in ascending order.
fn sorted(stored: &[u8]) -> Vec<u8> {
    let (count, entries) = stored.split_at(4);
    let mut entries: Vec<_> = entries.chunks(28).collect();
    entries.sort_by_key(|entry| u64::from_le_bytes(entry[..8].try_into().expect("8 bytes")));
    [count, &entries.concat()].concat()
}

fn well_formed(entries: &[MapEntry]) -> bool {
    entries.len() <= IDS && entries.windows(2).all(|pair| pair[0].id < pair[1].id)
}

fn report(file: &File) -> Report {
    Report { items: file.items, disk: file.disk, stated: file.stated }
}

/// The ratio, shown to be the original's own: it is stale at the ratio and not at the next number above.
fn ratio(map: &Map, file: &File, entry: Entry) -> f32 {
    let ratio = entry.stated as f32 / file.stated as f32;
    let stale_at = |threshold| map.is_stale(file.id, report(file), threshold);
    if ratio.is_nan() {
        assert!(!stale_at(f32::NEG_INFINITY), "the original has a ratio");
    } else {
        assert!(stale_at(ratio), "the original's ratio is less");
        let more = f32::from_bits(ratio.to_bits() + 1);
        assert!(!stale_at(more), "the original's ratio is greater");
    }
    ratio
}

impl Judge {
    pub(super) fn garbage(&mut self, steps: &[MapStep]) -> Result<(), Unjudged> {
        let mut maps = Maps(std::array::from_fn(|_| Some(Map::default())));
        steps.iter().try_for_each(|step| self.map_step(&mut maps, step))
    }

    fn map_step(&mut self, maps: &mut Maps, step: &MapStep) -> Result<(), Unjudged> {
        match step {
            MapStep::Drop { map, marked, record } => match drop_record(maps.at(*map)?, *marked, record)? {
                None => self.say("ok"),
                Some(number) => self.say(format!("refused {number}")),
            },
            MapStep::Batch { map, drops } => self.drops(maps.at(*map)?, drops)?,
            MapStep::Merge { source, target } => {
                let taken = maps.at(*source)?.clone();
                merge(taken, maps.at(*target)?)?;
                maps.0[*source as usize] = Some(Map::default());
                self.say("ok");
            }
            MapStep::Store { map, room } => {
                let stored = sorted(&maps.at(*map)?.store());
                self.put(*room, &stored)?;
            }
            MapStep::Load { map, bytes } => self.load(maps.at(*map)?, bytes)?,
            MapStep::Prune { map, kept } => {
                maps.at(*map)?.prune(kept);
                self.say("ok");
            }
            MapStep::Sum { map } => {
                let map = maps.at(*map)?;
                let disk = |id| u128::from(map.get(id).expect("an id of the map").disk);
                if map.ids().into_iter().map(disk).sum::<u128>() > u64::MAX.into() {
                    return Unjudged::new("sum too big");
                }
                let total = map.stale_bytes();
                self.say(format!("sum {total}"));
            }
            MapStep::Dead { map, file } => {
                let map = maps.at(*map)?;
                let verdict = match (map.is_dead(file.id, report(file)), map.get(file.id)) {
                    (true, _) => "dead",
                    (false, Some(_)) => "wanted",
                    (false, None) => "none",
                };
                self.say(verdict);
            }
            MapStep::Stale { map, file, threshold } => {
                self.stale(maps.at(*map)?, file, f32::from_bits(*threshold));
            }
            MapStep::Entries { map, entries } => {
                let entry = |e: &MapEntry| {
                    let (frames, stated, disk) = (e.frames.into(), e.stated, e.disk);
                    (e.id, Entry { frames, stated, disk })
                };
                let made = well_formed(entries).then(|| Map::with(entries.iter().map(entry)));
                maps.0[*map as usize] = made;
            }
        }
        Ok(())
    }

    fn drops(&mut self, map: &mut Map, drops: &[Pointer]) -> Result<(), Unjudged> {
        for pointer in drops {
            let record = numbers::encode(original(pointer));
            drop_record(map, true, &record)?;
        }
        self.say("ok");
        Ok(())
    }

    fn load(&mut self, map: &mut Map, bytes: &[u8]) -> Result<(), Unjudged> {
        let count = bytes.first_chunk().map(|count| u32::from_le_bytes(*count));
        if count.is_some_and(|count| count as usize > IDS) {
            return Unjudged::new("map full");
        }
        match Map::load(bytes) {
            Ok((loaded, used)) => {
                *map = loaded;
                self.say(format!("used {used}"));
            }
            Err(refusal) => {
                let number = number(refusal)?;
                self.say(format!("refused {number}"));
            }
        }
        Ok(())
    }

    fn stale(&mut self, map: &Map, file: &File, threshold: f32) {
        let Some(entry) = map.get(file.id) else {
            assert!(!map.is_stale(file.id, report(file), threshold), "stale without an entry");
            self.say("none");
            return;
        };
        let ratio = ratio(map, file, entry);
        let bits = if ratio.is_nan() { "nan".into() } else { ratio.to_bits().to_string() };
        let verdict = if map.is_stale(file.id, report(file), threshold) { "stale" } else { "kept" };
        self.say(format!("{verdict} {bits}"));
    }
}
