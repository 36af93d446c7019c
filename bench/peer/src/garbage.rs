//! Drops into a map of so many ids, and its stored form, per drop and per call.

use crate::boundary::{self, Map};
use crate::{fold, given, maker, Case, Given, Plan};
use original::door::fast;
use original::door::numbers::{encode, Pointer};
use std::rc::Rc;

const IDS: [usize; 3] = [1, 16, 64];

/// Lengths that differ and take two bytes each.
fn pointer(i: usize, ids: usize) -> Pointer {
    Pointer {
        id: (i * 7919 % ids) as u64 * 3 + 5,
        offset: i as u64 * 4096,
        size: 4096 + 3 * i as u32,
        stated: 5000 + 7 * i as u32,
    }
}

const DROPS: usize = 1000;

fn pointers(ids: usize) -> Vec<Pointer> {
    (0..DROPS).map(|i| pointer(i, ids)).collect()
}

fn totals(map: &Map) -> u64 {
    (0..map.count).fold(0u64, |sum, i| sum.wrapping_add(fold(map.ids[i], map.stated[i] + map.disk[i])))
}

/// Every column of every entry, as they stand.
fn entries(map: &Map) -> Vec<Given> {
    let one = |i: usize| given(&[map.ids[i], map.frames[i].into(), map.stated[i], map.disk[i]], &[]);
    (0..map.count).map(one).collect()
}

/// The same of the original's, by id.
fn original_entries(map: &fast::Map) -> Vec<Given> {
    map.entries().iter().map(|e| given(e, &[])).collect()
}

/// Our way beside the original's: one record after another.
fn dropped(kind: &'static str, ids: usize, ours: impl Fn() -> Map + Clone + 'static) -> Case {
    let records: Vec<_> = pointers(ids).iter().map(|&p| fast::record(&encode(p))).collect();
    let rust = Rc::new(move || {
        let mut map = fast::Map::default();
        for record in &records {
            map.drop(record);
        }
        map
    });
    let (ours2, rust2) = (ours.clone(), rust.clone());
    let sum = move || rust().totals().fold(0u64, |sum, (id, total)| sum.wrapping_add(fold(id, total)));
    Case {
        kind,
        size: ids.to_string(),
        entries: DROPS,
        results: ids,
        makers: vec![
            maker("pitchdowel", move || totals(&ours()), move || entries(&ours2())),
            maker("original", sum, move || original_entries(&rust2())),
        ],
    }
}

fn drops(ids: usize) -> Case {
    let pointers = pointers(ids);
    dropped("drop", ids, move || {
        let mut map = Map::default();
        for p in &pointers {
            assert_eq!(boundary::drop(&mut map, p.id, p.size, p.stated), 0);
        }
        map
    })
}

fn batch(ids: usize) -> Case {
    let rows: Vec<u64> = pointers(ids).iter().flat_map(|p| [p.id, p.size.into(), p.stated.into()]).collect();
    dropped("batch", ids, move || {
        let mut map = Map::default();
        assert_eq!(boundary::batch(&mut map, &rows), 0);
        map
    })
}

fn filled(ids: usize) -> (Map, fast::Map) {
    let (mut ours, mut rust) = (Map::default(), fast::Map::default());
    for p in pointers(ids) {
        boundary::drop(&mut ours, p.id, p.size, p.stated);
        rust.drop(&fast::record(&encode(p)));
    }
    (ours, rust)
}

const ROOM: usize = 4 + 28 * 64;

/// The count, then each entry's bytes.
fn stored(bytes: &[u8]) -> Vec<Given> {
    let (count, entries) = bytes.split_at(4);
    std::iter::once(count).chain(entries.chunks(28)).map(|part| given(&[], &[part])).collect()
}

fn store(ids: usize) -> Case {
    let (map, theirs) = filled(ids);
    let (map, theirs) = (Rc::new(map), Rc::new(theirs));
    let (map2, theirs2) = (map.clone(), theirs.clone());
    let mut buf = vec![0; ROOM];
    let ours = move || (0..64).map(|_| boundary::store(&map, &mut buf)).sum();
    let ours_whole = move || {
        let mut buf = vec![0xee; ROOM];
        let n = boundary::store(&map2, &mut buf) as usize;
        stored(&buf[..n])
    };
    let mut list = Vec::with_capacity(ROOM);
    let rust = move || {
        let one = |_| {
            list.clear();
            theirs.store(&mut list);
            list.len() as u64
        };
        (0..64).map(one).sum()
    };
    // Entries stand in any order there, and ascend by id here.
    let rust_whole = move || {
        let mut list = Vec::new();
        theirs2.store(&mut list);
        let mut parts: Vec<&[u8]> = list[4..].chunks(28).collect();
        parts.sort_by_key(|part| u64::from_le_bytes(part[..8].try_into().expect("an id")));
        stored(&[&list[..4], &parts.concat()].concat())
    };
    Case {
        kind: "store",
        size: ids.to_string(),
        entries: 64,
        results: 1 + ids,
        makers: vec![maker("pitchdowel", ours, ours_whole), maker("original", rust, rust_whole)],
    }
}

/// The entries, after the count of bytes that they took.
fn after(used: usize, entries: Vec<Given>) -> Vec<Given> {
    std::iter::once(given(&[used as u64], &[])).chain(entries).collect()
}

fn load(ids: usize) -> Case {
    let (map, _) = filled(ids);
    let mut bytes = vec![0; ROOM];
    let n = boundary::store(&map, &mut bytes) as usize;
    bytes.truncate(n);
    // what follows is left
    bytes.extend([0xee; 9]);
    let bytes = Rc::new(bytes);
    let (bytes2, bytes3, bytes4) = (bytes.clone(), bytes.clone(), bytes.clone());
    let mut map = Map::default();
    let ours = move || {
        (0..64).fold(0, |sum, _| {
            assert_eq!(boundary::load(&bytes, &mut map), n as u64);
            sum + map.count as u64
        })
    };
    let ours_whole = move || {
        let mut map = Map::default();
        let used = boundary::load(&bytes2, &mut map);
        after(used as usize, entries(&map))
    };
    let rust = move || (0..64).fold(0, |sum, _| sum + fast::Map::load(&mut &bytes3[..]).0.len() as u64);
    let rust_whole = move || {
        let mut rest = &bytes4[..];
        let map = fast::Map::load(&mut rest);
        after(bytes4.len() - rest.len(), original_entries(&map))
    };
    Case {
        kind: "load",
        size: ids.to_string(),
        entries: 64,
        results: 1 + ids,
        makers: vec![maker("pitchdowel", ours, ours_whole), maker("original", rust, rust_whole)],
    }
}

pub fn plans() -> Vec<Plan> {
    let mut all = Vec::new();
    for (kind, make) in [("drop", drops as fn(usize) -> Case), ("batch", batch), ("store", store), ("load", load)] {
        for ids in IDS {
            all.push(Plan { kind, size: ids.to_string(), make: Box::new(move || make(ids)) });
        }
    }
    all
}
