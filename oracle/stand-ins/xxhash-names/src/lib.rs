//! Debian's xxhash-rust, with one name that its 0.8.5 lacks: later releases have a second hasher without a seed, which
//! hashes as the first does with none set.

pub mod xxh3 {
    pub use xxhash_rust::xxh3::*;

    pub type Xxh3Default = xxhash_rust::xxh3::Xxh3;
}
