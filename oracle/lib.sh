# Shared by the scripts here and in bench/: where things are, and plain words for what is missing or fails. Exit 3: something is not on this
# machine. Exit 1: all that is needed is here, and it does not work.
here=$(cd "$(dirname "$0")" && pwd)
top=$(dirname "$here")
made=${ORACLE_TARGET:-$top/target/oracle}
ORIGINALS=${ORIGINALS:-$here/../../shared/docs/src}
install=no
export DEBIAN_FRONTEND=noninteractive

missing() {
    echo "${here##*/}: $*" >&2
    exit 3
}

failed() {
    echo "${here##*/}: $*" >&2
    exit 1
}

usage() {
    echo "usage: $*" >&2
    exit 2
}

# number WORD: whether it is a number, in decimal
number() {
    case $1 in '' | *[!0-9]*) return 1 ;; esac
}

# package FILE-PATTERN DEBIAN-PACKAGE: the pattern has a match, else the package is installed (--install, as root) or named
package() {
    for found in $1; do [ ! -e "$found" ] || return 0; done
    if [ "$install" = yes ] && [ "$(id -u)" = 0 ] && command -v apt-get >/dev/null; then
        take="apt-get install -y -q $2"
        { $take || { apt-get update -q && $take; }; } >/dev/null 2>&1 ||
            missing "Debian's package $2 could not be installed"
        for found in $1; do [ ! -e "$found" ] || return 0; done
    fi
    missing "Debian's package $2 is not here (as root: apt-get install $2)"
}

# originals: a Rust compiler, the Rust's own files, and Debian's packages that they lean on
originals() {
    command -v cargo >/dev/null || missing "no Rust compiler is here (cargo, rustc 1.87 or newer)"
    minor=$(rustc --version | sed -n 's/^rustc 1\.\([0-9]*\)\..*/\1/p')
    [ "${minor:-87}" -ge 87 ] || missing "$(rustc --version) is too old: 1.87 or newer is needed"
    [ -f "$ORIGINALS/src/vlog/blob_file/writer.rs" ] ||
        missing "the original Rust files are not in $ORIGINALS (set ORIGINALS to the folder that has src/)"
    for name in xxhash-rust byteorder log tempfile; do
        package "/usr/share/cargo/registry/$name-*" "librust-$name-dev"
    done
    ORIGINALS=$(cd "$ORIGINALS" && pwd)
    export ORIGINALS
}

# build: the workspace, from the originals' folder; from a copy, so that cargo writes nothing beside the sources
build() {
    originals
    rm -rf "$made/copy"
    mkdir -p "$made/copy" || failed "$made can't be written"
    (cd "$here" && cp -Rp Cargo.toml .cargo original judge stand-ins "$made/copy/" &&
        cd "$made/copy" && CARGO_TARGET_DIR=$made cargo build --release --offline --quiet) ||
        failed "the comparison could not be built (above: why)"
}

# python: an interpreter and libxxhash, for the scripts in it
python() {
    command -v python3 >/dev/null || missing "python3 is not here"
    package "/usr/lib/*/libxxhash.so.0" libxxhash0
}

# archive: the proved library for C and Rust; BOUNDARY names another one in its place
archive() {
    if [ -z "${BOUNDARY:-}" ]; then
        command -v rt >/dev/null || missing "no rt is here: the Rattle kit's bin/ must be in PATH"
        mkdir -p "$made"
        (cd "$top/crates/boundary" && rt lib) >"$made/boundary.log" 2>&1 ||
            failed "the archive of crates/boundary was not proved (see $made/boundary.log)"
        BOUNDARY=$top/crates/boundary/out/libboundary.a
    fi
    [ -f "$BOUNDARY" ] || missing "there is no archive at $BOUNDARY"
    BOUNDARY=$(readlink -f "$BOUNDARY")
    export BOUNDARY
}

# calls: the program over the Rattle crates
calls() {
    CALLS=${CALLS:-$top/crates/calls/out/calls}
    [ -x "$CALLS" ] || missing "the calls program is not at $CALLS (rt run in crates/calls builds it; or set CALLS to it)"
    export CALLS
}
