//! Takes the original files from the folder named by ORIGINALS into the build's own folder, and checks there, by the
//! list known.sha256, that each is byte for byte the one known. The compiler then reads those very copies.

use std::path::{Path, PathBuf};
use std::process::Command;
use std::{env, fs};

fn main() {
    println!("cargo:rerun-if-env-changed=ORIGINALS");
    let here = PathBuf::from(env::var("CARGO_MANIFEST_DIR").unwrap());
    let out = PathBuf::from(env::var("OUT_DIR").unwrap());
    let from =
        PathBuf::from(env::var("ORIGINALS").expect("ORIGINALS names the folder that has the crate's src/"));
    let list = here.join("known.sha256");
    watch(&list);
    for line in fs::read_to_string(&list).unwrap().lines() {
        let path = line.split_whitespace().nth(1).expect("a sum and a path");
        watch(&from.join(path));
        take(&from.join(path), &out.join(path));
    }
    let known = Command::new("sha256sum")
        .args(["--check", "--strict", "--quiet"])
        .arg(&list)
        .current_dir(&out)
        .status()
        .expect("sha256sum is needed for the check of the originals");
    assert!(known.success(), "the originals in {} are not the known ones", from.display());
    // vlog/mod.rs declares this module, and the folder does not have it.
    let accessor = here.join("beside/accessor.rs");
    watch(&accessor);
    take(&accessor, &out.join("src/vlog/accessor.rs"));
}

fn watch(path: &Path) {
    println!("cargo:rerun-if-changed={}", path.display());
}

fn take(from: &Path, to: &Path) {
    fs::create_dir_all(to.parent().unwrap()).unwrap();
    let bytes =
        fs::read(from).unwrap_or_else(|e| panic!("the original {} can't be read: {e}", from.display()));
    fs::write(to, bytes).unwrap();
}
