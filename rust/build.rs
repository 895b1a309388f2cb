//! Links the static library, from `../crates/lugloquat/out` or from the folder that `LUGLOQUAT_LIB_DIR` names by its full path.

use std::{env, path::PathBuf};

fn main() {
    println!("cargo:rerun-if-env-changed=LUGLOQUAT_LIB_DIR");
    let folder = env::var_os("LUGLOQUAT_LIB_DIR").map_or_else(
        || {
            PathBuf::from(env::var_os("CARGO_MANIFEST_DIR").expect("cargo names the package's folder"))
                .join("../crates/lugloquat/out")
        },
        PathBuf::from,
    );
    let archive = folder.join("liblugloquat.a");
    assert!(
        archive.is_file(),
        "{} is not there: `rt lib` in crates/lugloquat makes it, and LUGLOQUAT_LIB_DIR names another folder",
        archive.display()
    );
    println!("cargo:rerun-if-changed={}", archive.display());
    println!("cargo:rustc-link-search=native={}", folder.display());
    println!("cargo:rustc-link-lib=static=lugloquat");
}
