//! Links libvdloops.a beside the library, from crates/vdloops/out or the folder that VDLIB_DIR names: each has its exported functions and nothing else.

use std::env;
use std::path::PathBuf;

fn main() {
    println!("cargo:rerun-if-env-changed=VDLIB_DIR");
    let folder = match env::var_os("VDLIB_DIR") {
        Some(folder) => PathBuf::from(folder),
        None => {
            PathBuf::from(env::var_os("CARGO_MANIFEST_DIR").unwrap()).join("../crates/vdloops/out")
        }
    };
    println!(
        "cargo:rerun-if-changed={}",
        folder.join("libvdloops.a").display()
    );
    println!("cargo:rustc-link-search=native={}", folder.display());
    println!("cargo:rustc-link-lib=static=vdloops");
}
