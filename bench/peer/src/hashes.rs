//! XXH3-128 of one slice, and of a 20-byte key and a value as one string. Every maker is a function of C's convention that is not
//! compiled into its caller, as a library's is: bytes in, the low half out, the high half written.

use crate::{boundary, fold, given, maker, noise, Case, Maker, Plan};

#[repr(C)]
struct Pair {
    low: u64,
    high: u64,
}

extern "C" {
    fn XXH3_128bits(s: *const u8, n: usize) -> Pair;
}

const SIZES: [usize; 15] = [1, 3, 8, 16, 32, 64, 128, 240, 241, 500, 577, 1024, 4096, 65536, 1_048_576];
const JOINED: [usize; 14] = [21, 24, 32, 64, 128, 240, 241, 300, 400, 500, 577, 1024, 4096, 65536];
const KEY: usize = 20;

#[inline(never)]
extern "C" fn xxhash_rust(s: *const u8, n: usize, high: &mut u64) -> u64 {
    let h = xxhash_rust::xxh3::xxh3_128(unsafe { std::slice::from_raw_parts(s, n) });
    *high = (h >> 64) as u64;
    h as u64
}

/// As the original's writer, scanner and reader hash a key and a value.
#[inline(never)]
extern "C" fn xxhash_rust_stream(key: *const u8, k: usize, value: *const u8, v: usize, high: &mut u64) -> u64 {
    let mut hasher = xxhash_rust::xxh3::Xxh3::default();
    hasher.update(unsafe { std::slice::from_raw_parts(key, k) });
    hasher.update(unsafe { std::slice::from_raw_parts(value, v) });
    let h = hasher.digest128();
    *high = (h >> 64) as u64;
    h as u64
}

fn libxxhash(s: &[u8]) -> [u64; 2] {
    let h = unsafe { XXH3_128bits(s.as_ptr(), s.len()) };
    [h.low, h.high]
}

fn rust(s: &[u8]) -> [u64; 2] {
    let mut high = 0;
    let low = xxhash_rust(s.as_ptr(), s.len(), &mut high);
    [low, high]
}

/// The same bytes in one slice, by the same way of calling.
fn whole(bytes: &[u8], _: &[u8]) -> [u64; 2] {
    rust(bytes)
}

fn stream(key: &[u8], value: &[u8]) -> [u64; 2] {
    let mut high = 0;
    let low = xxhash_rust_stream(key.as_ptr(), key.len(), value.as_ptr(), value.len(), &mut high);
    [low, high]
}

/// A pass hashes the same bytes as often as a case has entries.
fn makes(name: &'static str, entries: usize, hash: impl Fn() -> [u64; 2] + Clone + 'static) -> Maker {
    let again = hash.clone();
    let pass = move || {
        (0..entries).fold(0u64, |sum, _| {
            let [low, high] = hash();
            sum.wrapping_add(fold(low, high))
        })
    };
    maker(name, pass, move || vec![given(&again(), &[])])
}

fn entries(n: usize) -> usize {
    (1 << 18) / (n + 64) + 1
}

fn one(n: usize) -> Case {
    let of = |name, hash: fn(&[u8]) -> [u64; 2]| {
        let bytes = noise(n, 1);
        makes(name, entries(n), move || hash(std::hint::black_box(&bytes)))
    };
    Case {
        kind: "hash",
        size: n.to_string(),
        entries: entries(n),
        results: 1,
        makers: vec![of("pitchdowel", boundary::hash), of("xxhash-rust", rust), of("libxxhash", libxxhash)],
    }
}

fn joined(n: usize) -> Case {
    let of = |name, at: usize, hash: fn(&[u8], &[u8]) -> [u64; 2]| {
        let bytes = noise(n, 1);
        let (key, value) = (bytes[..at].to_vec(), bytes[at..].to_vec());
        makes(name, entries(n), move || hash(std::hint::black_box(&key), std::hint::black_box(&value)))
    };
    Case {
        kind: "joined",
        size: n.to_string(),
        entries: entries(n),
        results: 1,
        makers: vec![
            of("pitchdowel", KEY, boundary::hash_joined),
            of("two-updates", KEY, stream),
            of("one-slice", n, whole),
        ],
    }
}

pub fn plans() -> Vec<Plan> {
    let kinds = [("hash", &SIZES[..], one as fn(usize) -> Case), ("joined", &JOINED[..], joined)];
    let plan = |(kind, n, make): (_, usize, fn(usize) -> Case)| Plan {
        kind,
        size: n.to_string(),
        make: Box::new(move || make(n)),
    };
    kinds.into_iter().flat_map(|(kind, sizes, make)| sizes.iter().map(move |&n| (kind, n, make))).map(plan).collect()
}
