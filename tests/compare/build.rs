//! Links the library under test: `liblookahead_c.a` in the folder that the
//! environment variable LOOKAHEAD_LIB_DIR names.

use std::path::Path;

fn main() {
    println!("cargo:rerun-if-env-changed=LOOKAHEAD_LIB_DIR");
    let folder = std::env::var("LOOKAHEAD_LIB_DIR")
        .expect("LOOKAHEAD_LIB_DIR names the folder of liblookahead_c.a");
    let folder = Path::new(&folder)
        .canonicalize()
        .expect("LOOKAHEAD_LIB_DIR is a folder");
    let archive = folder.join("liblookahead_c.a");
    assert!(
        archive.is_file(),
        "LOOKAHEAD_LIB_DIR has no liblookahead_c.a"
    );
    println!("cargo:rerun-if-changed={}", archive.display());
    println!("cargo:rustc-link-search=native={}", folder.display());
    println!("cargo:rustc-link-lib=static=lookahead_c");
    // A library built without Rust's std brings a panic handler of its own, and
    // this program has std's: one of the two has to do.
    println!("cargo:rustc-link-arg=-Wl,--allow-multiple-definition");
}
