//! Compares the proved checker (`vd`) with another implementation of docs/SPECIFICATION.md
//! (`independent`): the check, its tests, its report and its buffer, and single tests.

pub mod compare;
pub mod generate;
pub mod large;
pub mod limits;
pub mod situations;
pub mod tally;

use std::path::Path;

/// The repository's examples, by name.
pub fn samples() -> Vec<(String, Vec<u8>)> {
    let folder = Path::new(env!("CARGO_MANIFEST_DIR")).join("../../examples");
    let entries = std::fs::read_dir(folder).expect("the folder examples");
    let mut samples: Vec<(String, Vec<u8>)> = entries
        .map(|entry| entry.expect("an example").path())
        .filter(|path| {
            path.extension()
                .map_or(false, |extension| extension == "vd")
        })
        .map(|path| {
            let name = path.file_stem().expect("a name").to_string_lossy();
            (name.into_owned(), std::fs::read(&path).expect("an example"))
        })
        .collect();
    samples.sort();
    samples
}
