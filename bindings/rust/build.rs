//! Links libvdlib.a, which `rt lib` in crates/vdlib writes to crates/vdlib/out; VDLIB_DIR may name another folder.

use std::env;
use std::path::PathBuf;
use std::process::exit;

fn main() {
    println!("cargo:rerun-if-env-changed=VDLIB_DIR");
    let folder = match env::var_os("VDLIB_DIR") {
        Some(folder) => PathBuf::from(folder),
        None => {
            PathBuf::from(env::var_os("CARGO_MANIFEST_DIR").unwrap()).join("../../crates/vdlib/out")
        }
    };
    // rustc may run in another folder than this script: the path is made absolute.
    let library = match folder.join("libvdlib.a").canonicalize() {
        Ok(library) => library,
        Err(_) => {
            eprintln!(
                "no libvdlib.a in {}: run `rt lib` in crates/vdlib of the repository, or set VDLIB_DIR",
                folder.display()
            );
            exit(1);
        }
    };
    println!("cargo:rerun-if-changed={}", library.display());
    println!(
        "cargo:rustc-link-search=native={}",
        library.parent().unwrap().display()
    );
    println!("cargo:rustc-link-lib=static=vdlib");
}
