# Shared by the scripts here, over oracle/lib.sh: the program over the archive and the original Rust.
. "$(dirname "$0")/../oracle/lib.sh"
made=${BENCH_TARGET:-$top/target/bench}

# peer: the original Rust as oracle/ compiles it, with the faster stand-ins of overlay/, and the program over both
peer() {
    [ "$(uname -m)" = x86_64 ] || missing "the archive is for x86-64, and this machine is $(uname -m)"
    originals
    package "/usr/include/xxhash.h" libxxhash-dev
    [ -w /dev/shm ] || missing "/dev/shm, a file system in memory, is not writable"
    rm -rf "$made/rust"
    mkdir -p "$made/rust"
    cp -r "$top/oracle/original" "$top/oracle/stand-ins" "$top/oracle/.cargo" "$here/peer" "$made/rust/"
    cp -r "$here/overlay/." "$made/rust/"
    mv "$made/rust/peer/workspace.toml" "$made/rust/Cargo.toml"
    echo 'pub mod fast;' >>"$made/rust/original/src/door.rs"
    (cd "$made/rust" && CARGO_TARGET_DIR=$made/cargo cargo build --release --offline --quiet) ||
        failed "the program over both could not be built (above: why)"
    PEER=$made/cargo/release/peer
}
