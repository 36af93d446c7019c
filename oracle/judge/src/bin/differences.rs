//! differences [--large]: what the original Rust does on the inputs of docs/DIFFERENCES.md, each beside document 01's rule.
//! `--large` reads a value of more than two billion bytes, and takes as much memory.

use judge::cases::{finished, Frame};
use judge::scratch::Scratch;
use original::door::garbage::{Entry, Map};
use original::door::merge::{Drained, Merge, Part};
use original::door::point::{read, Report};
use original::door::write::{Files, Ids, Rotation};
use std::fs::File;
use std::os::unix::fs::FileExt;
use std::path::Path;

fn say(what: &str, rust: impl std::fmt::Debug, rule: &str) {
    println!("{what}\n  Rust: {rust:?}\n  document 01: {rule}");
}

fn far_read(scratch: &Scratch) {
    let path = scratch.file("far", &finished(&[Frame::new(b"a", 7, b"xyz")]));
    let file = File::open(path).expect("a scratch file");
    for offset in [(1 << 63) - 1, 1 << 63, u64::MAX] {
        let answer = read(&file, b"a", 1, offset, 3);
        say(&format!("point read at offset {offset} of a file of 46 bytes"), answer, "refused 7");
    }
}

/// The frame's header says one byte; the handle says so many, and the file has them all.
fn large_read(scratch: &Scratch) {
    for whole in [2_147_479_552_u64, 2_147_479_553] {
        let path = scratch.file("large", &Frame::new(b"a", 7, b"x").bytes());
        let file = File::options().read(true).write(true).open(path).expect("a scratch file");
        file.set_len(whole).expect("a long file");
        file.write_all_at(b"META", whole - 4).expect("its end");
        let answer = match read(&file, b"a", 1, 0, (whole - 39) as u32) {
            Err(refusal) => format!("{refusal:?}"),
            Ok(value) => format!("a value of {} bytes", value.len()),
        };
        let answer = answer.split('{').next().unwrap_or("").to_owned();
        let what = format!("point read that needs {whole} bytes, all of them there, with a wrong sum");
        say(&what, answer, "refused 9");
    }
}

/// What five calls of a merge give. A file is its frames' keys; `!` cuts it there.
fn five_calls(scratch: &Scratch, files: &[&str]) -> Vec<String> {
    let part = |(k, file): (usize, &&str)| {
        let (keys, cut) = file.split_once('!').map_or((*file, false), |(keys, _)| (keys, true));
        let frames: Vec<Frame> = keys.bytes().map(|key| Frame::new(&[key], 1, b"v")).collect();
        let mut bytes = finished(&frames);
        if cut {
            bytes.truncate(bytes.len() - 1);
        }
        Part { path: scratch.file(&format!("m{k}"), &bytes), id: k as u64, position: 0 }
    };
    let parts: Vec<Part> = files.iter().enumerate().map(part).collect();
    let mut merge = Merge::new(&parts);
    let call = |_| match merge.next() {
        None => "end".into(),
        Some(Err(refusal)) => format!("{refusal:?}"),
        Some(Ok((entry, _))) => String::from_utf8_lossy(&entry.key).into_owned(),
    };
    (0..5).map(call).collect()
}

fn refused_merge(scratch: &Scratch) {
    let calls = five_calls(scratch, &["a!", "bd"]);
    say(
        "merge of a (cut behind it) and b, d: five calls",
        calls,
        "a, then refused 7 of part 0 at every call",
    );
    let calls = five_calls(scratch, &["bd", "!", "a"]);
    say("merge of b, d, then a cut part, then a: five calls", calls, "refused 7 of part 1 at every call");
}

/// The rotation's empty file and its ids. `folder` shows what is there.
fn rotation(scratch: &Scratch) {
    let names = |folder: &Path| {
        let mut names: Vec<String> = std::fs::read_dir(folder)
            .expect("the writer's folder")
            .map(|file| file.expect("a file").file_name().to_string_lossy().into_owned())
            .collect();
        names.sort();
        names
    };
    let folder = scratch.folder("rotated");
    let ids = Ids::new(5);
    let writer = Rotation::new(&ids, &folder, 1 << 26);
    let before = names(&folder);
    let answer = writer.finish();
    say(
        "a rotation with target 2^26, ids from 5: the files there before a finish with no frame, its answer, and after",
        (before, answer, names(&folder)),
        "refused 5",
    );

    let folder = scratch.folder("rotated");
    let ids = Ids::new(5);
    let mut writer = Rotation::new(&ids, &folder, 42);
    let put = writer.append(b"a", 7, b"xyz");
    let (next, before) = (ids.next(), names(&folder));
    let answer = writer.finish();
    say(
        "target 42, ids from 5, append of a, 7, xyz: its handle (file, offset, size), the counter's next id, the files; then finish: \
         its answer (file, items), the files, the counter",
        (put, next, before, answer, names(&folder), ids.next()),
        "put 5 0 3, done with it: the file is finished, no other is there; finish is refused 4; next file is asked for and has id 6",
    );

    let folder = scratch.folder("rotated");
    let ids = Ids::new(5);
    let mut writer = Rotation::new(&ids, &folder, 42);
    let taken = ids.take();
    let first = writer.append(b"a", 7, b"xyz");
    let second = writer.append(b"b", 8, b"xyz");
    say(
        "target 42, ids from 5, another writer takes an id from the counter, then appends of a and b: that id, and the handles",
        (taken, first, second),
        "the second file's id is the first's plus one",
    );
}

fn wrapping() {
    let full = Entry { frames: u32::MAX.into(), stated: u64::MAX, disk: u64::MAX };
    let mut map = Map::with([(1, full)]);
    let pointer = original::door::numbers::Pointer { id: 1, offset: 0, size: 2, stated: 3 };
    map.drop(true, &original::door::numbers::encode(pointer));
    say("a drop of lengths 2 and 3 on an entry at its bounds", map.get(1), "refused 12, the map unchanged");
    say("that map stored", map.store(), "refused 12 before");
    let mut target = Map::with([(1, full)]);
    Map::with([(1, Entry { frames: 1, stated: 2, disk: 3 })]).merge_into(&mut target);
    say(
        "a map (id 1: 1, 2, 3) merged into one with id 1 at its bounds",
        target.get(1),
        "refused 12, both maps unchanged",
    );
    say("that map stored", target.store(), "refused 12 before");
    let two = Map::with([(1, full), (2, Entry { disk: 5, ..full })]);
    say("sum of 2^64 - 1 and 5", two.stale_bytes(), "refused 12");
    let many = Map::with((0..65).map(|id| (id, Entry { frames: 1, stated: 1, disk: 1 })));
    say("ids in a map of 65", many.ids().len(), "refused 11");
}

/// The load ends the process, so another one does it.
fn huge_count() {
    let this = std::env::current_exe().expect("this program");
    let run = std::process::Command::new(this).arg("--load").output().expect("a second run");
    let said = String::from_utf8_lossy(&run.stderr).lines().next().unwrap_or("").to_owned();
    say("load of the stored count ff ff ff ff", (run.status, said), "refused 11");
}

/// Where the original asserts, document 01 refuses.
fn assertions(scratch: &Scratch) {
    for len in [0, 65_535, 65_536] {
        let mut files = Files::new(&scratch.folder("asserted"), 1, u64::MAX);
        let answer = match files.append(&vec![b'k'; len], 1, b"v", None) {
            Some((handle, _)) => format!("{handle:?}"),
            None => "ends by an assertion".into(),
        };
        let rule = if len == 65_535 { "taken" } else { "refused 1" };
        say(&format!("append of a key of {len} bytes"), answer, rule);
    }
    let mut files = Files::new(&scratch.folder("asserted"), 1, u64::MAX);
    say("finish without a frame, a report", files.finish(), "refused 5");
    say("drop of the record 80, taken", Map::default().drop(true, &[0x80]), "refused 7");
    let path = scratch.file("drained", &finished(&[Frame::new(b"b", 1, b"v"), Frame::new(b"c", 1, b"v")]));
    let mut merge = Merge::new(&[Part { path, id: 1, position: 0 }]);
    let matched = !matches!(merge.drain(b"a", 1, 0), Drained::NotMatched);
    let next = merge.next().map(|next| next.map(|(entry, _)| entry.key[0] as char));
    say(
        "drain to a in b, c: whether it ended well, and the next entry",
        (matched, next),
        "refused 14, then b",
    );
}

fn nan() {
    let zero = std::hint::black_box(0_u64);
    let ratio = zero as f32 / zero as f32;
    let map = Map::with([(1, Entry { frames: 1, stated: zero, disk: 0 })]);
    let stale = map.is_stale(1, Report::default(), f32::NEG_INFINITY);
    let bits = format!("ratio's bits {:08x}, stale at minus infinity: {stale}", ratio.to_bits());
    say("0 of 0", bits, "a NaN, whose bits no rule fixes; never stale");
}

fn main() {
    original::door::panic_quietly();
    let word = std::env::args().nth(1);
    if word.as_deref() == Some("--load") {
        println!("{:?}", Map::load(&[0xff; 4]).map(|(map, used)| (map.ids(), used)));
        return;
    }
    let scratch = Scratch::new().expect("a folder for scratch files");
    far_read(&scratch);
    refused_merge(&scratch);
    rotation(&scratch);
    wrapping();
    huge_count();
    assertions(&scratch);
    nan();
    if word.as_deref() == Some("--large") {
        large_read(&scratch);
    }
}
