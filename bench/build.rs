//! Links the proved library that `tools/staticlib ribbon_c` leaves.

fn main() {
    let root = std::env::var("CARGO_MANIFEST_DIR").unwrap();
    println!("cargo::rustc-link-search=native={root}/../target/staticlib");
    println!("cargo::rustc-link-lib=static=ribbon_c");
    println!("cargo::rerun-if-changed=../target/staticlib/libribbon_c.a");
}
