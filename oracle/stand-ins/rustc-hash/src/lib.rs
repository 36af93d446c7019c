//! Stand-in for rustc-hash: a builder of hashers under the same name. It is std's own hasher with fixed keys, so the
//! order in which a map gives its entries differs from the real one's; no answer may depend on that order.

use std::collections::hash_map::DefaultHasher;
use std::hash::BuildHasher;

#[derive(Clone, Copy, Debug, Default)]
pub struct FxBuildHasher;

impl BuildHasher for FxBuildHasher {
    type Hasher = DefaultHasher;

    fn build_hasher(&self) -> DefaultHasher {
        DefaultHasher::new()
    }
}
