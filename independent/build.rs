//! Links the board archive. BOARD_LIB_DIR names the folder of libboard.a.

use std::{env, path::Path};

fn main() {
    println!("cargo:rerun-if-env-changed=BOARD_LIB_DIR");
    let given =
        env::var("BOARD_LIB_DIR").expect("BOARD_LIB_DIR must name the folder of libboard.a");
    // The linker may run in another folder, so it gets a full path.
    let folder = Path::new(&given)
        .canonicalize()
        .unwrap_or_else(|fault| panic!("BOARD_LIB_DIR {given}: {fault}"));
    let archive = folder.join("libboard.a");
    assert!(archive.is_file(), "no libboard.a in BOARD_LIB_DIR {given}");
    println!("cargo:rerun-if-changed={}", archive.display());
    println!("cargo:rustc-link-search=native={}", folder.display());
    println!("cargo:rustc-link-lib=static=board");
}
