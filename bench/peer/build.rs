//! Links the archive that BOUNDARY names, and libxxhash.
fn main() {
    println!("cargo:rerun-if-env-changed=BOUNDARY");
    let archive = std::env::var("BOUNDARY").expect("BOUNDARY is the path of libboundary.a");
    println!("cargo:rerun-if-changed={archive}");
    println!("cargo:rustc-link-arg={archive}");
    println!("cargo:rustc-link-arg=-lxxhash");
}
