//! Finds the archive, and takes every number of the header, so that the crate can be held to it.

use std::env;
use std::fs;
use std::path::{Path, PathBuf};

fn main() {
    let here =
        PathBuf::from(env::var("CARGO_MANIFEST_DIR").expect("cargo says where the crate is"));
    let root = here.join("../..");
    println!("cargo:rerun-if-env-changed=GHAZFULIT_ARCHIVE");
    link(&root);
    let header = root.join("include/ghazfulit.h");
    println!("cargo:rerun-if-changed={}", header.display());
    let text = fs::read_to_string(&header).expect("include/ghazfulit.h is there");
    let out = PathBuf::from(env::var("OUT_DIR").expect("cargo says where to write"));
    fs::write(out.join("header.rs"), constants(&text)).expect("written");
}

/// Links the archive: in the folder that GHAZFULIT_ARCHIVE names, or where `link` and the README put it.
fn link(root: &Path) {
    let machine = env::var("CARGO_CFG_TARGET_ARCH").unwrap_or_default();
    let maker = "tools/archive-here embed target/staticlib";
    let named = env::var("GHAZFULIT_ARCHIVE").map(PathBuf::from);
    let folder = named.unwrap_or(root.join("target/staticlib"));
    let archive = folder.join("libembed.a");
    println!("cargo:rerun-if-changed={}", archive.display());
    let Ok(bytes) = fs::read(&archive) else {
        panic!("{} is not there: `{maker}` writes it", archive.display());
    };
    if let Some(other) = other_machine(&bytes, &machine) {
        panic!(
            "{} is for {other}, and this builds for {machine}: `{maker} {machine}` writes one",
            archive.display()
        );
    }
    println!("cargo:rustc-link-search=native={}", folder.display());
    println!("cargo:rustc-link-lib=static=embed");
}

/// The machine that an archive is for, where it is one that we know and another than this.
fn other_machine(archive: &[u8], machine: &str) -> Option<&'static str> {
    // the first object in it, and the number of its machine
    let start = archive.windows(4).position(|four| four == b"\x7fELF")?;
    let number = archive.get(start + 18..start + 20)?;
    let its = match u16::from_le_bytes([number[0], number[1]]) {
        62 => "x86_64",
        183 => "aarch64",
        _ => return None,
    };
    (its != machine).then_some(its)
}

/// Each `#define NAME NUMBER` and each `NAME = NUMBER` of the header as a constant, with the comment behind it.
fn constants(text: &str) -> String {
    let mut constants = String::new();
    for line in text.lines() {
        let line = line.trim_start();
        let (code, comment) = line.split_once("/*").unwrap_or((line, ""));
        let words: Vec<&str> = code
            .trim_start_matches("#define ")
            .split([' ', ',', '='])
            .filter(|word| !word.is_empty())
            .collect();
        if let [name, number] = words[..] {
            if let (Some(own), Ok(number)) =
                (name.strip_prefix("GHAZFULIT_"), number.parse::<u32>())
            {
                let comment = comment.trim_end_matches("*/").trim();
                let colon = if comment.is_empty() { "" } else { ": " };
                constants +=
                    &format!("/// `{name}`{colon}{comment}\npub const {own}: u32 = {number};\n");
            }
        }
    }
    constants
}
