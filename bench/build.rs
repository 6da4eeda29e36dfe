//! Where the static library lies: `tools/build linked` writes it to the repository's target/staticlib.
fn main() {
    let here = std::env::var("CARGO_MANIFEST_DIR").expect("cargo sets it");
    println!("cargo:rustc-link-search=native={here}/../target/staticlib");
    println!("cargo:rustc-link-lib=static=linked");
    println!("cargo:rerun-if-changed={here}/../target/staticlib/liblinked.a");
}
