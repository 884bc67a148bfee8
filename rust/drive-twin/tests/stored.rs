//! The stored run of `drive`, and the table of its lines.

use std::fs::read;
use std::path::Path;

use drive_twin::{Drive, Twin};

#[test]
fn the_stored_run_is_the_twins() {
    let run = Path::new(env!("CARGO_MANIFEST_DIR")).join("../../crates/drive");
    let input = read(run.join("stdin")).expect("a stored input");
    let output = read(run.join("stdout")).expect("a stored output");
    assert!(Drive::new(Twin).answers(&input) == output);
}

#[test]
fn the_example_of_the_document() {
    let text = include_str!("../../../docs/DRIVE.md");
    let rows: Vec<(&str, &str)> = text
        .lines()
        .skip_while(|line| *line != "| in | out |")
        .skip(2)
        .map_while(|line| {
            let mut cells = line.split('|').map(|cell| cell.trim().trim_matches('`'));
            cells.next()?;
            Some((cells.next()?, cells.next()?))
        })
        .collect();
    assert_eq!(rows.len(), 12);
    let mut drive = Drive::new(Twin);
    for (line, answer) in rows {
        let mut out = Vec::new();
        drive.line(line.as_bytes(), &mut out);
        assert_eq!(String::from_utf8_lossy(&out).trim_end(), answer, "{line}");
    }
}
