//! The listed runs of the proved program: what is stored as its output is what the twin writes.

use std::fs::{read, read_dir};
use std::path::Path;

use lots_twin::answers;

#[test]
fn stored_runs_are_the_twins() {
    let crates = Path::new(env!("CARGO_MANIFEST_DIR")).join("../../crates");
    let mut runs = 0;
    for entry in read_dir(crates).expect("the crates") {
        let run = entry.expect("a crate").path();
        let name = run
            .file_name()
            .expect("a name")
            .to_string_lossy()
            .into_owned();
        if name != "lots" && !name.starts_with("lots_") {
            continue;
        }
        let input = read(run.join("stdin")).expect("a stored input");
        let output = read(run.join("stdout")).expect("a stored output");
        assert!(answers(&input) == output, "{name}");
        runs += 1;
    }
    assert_eq!(runs, 6);
}
