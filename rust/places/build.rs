//! Links both builds, which `../measure-place` puts into the folder that GHAZFULIT_WAYS names.

use std::env;

fn main() {
    println!("cargo:rerun-if-env-changed=GHAZFULIT_WAYS");
    // without it the crate can be checked, and not linked
    let Ok(folder) = env::var("GHAZFULIT_WAYS") else {
        return;
    };
    println!("cargo:rerun-if-changed={folder}");
    println!("cargo:rustc-link-search=native={folder}");
    for name in ["scan_page", "scan_embed", "halving_page", "halving_embed"] {
        println!("cargo:rustc-link-lib=static={name}");
    }
}
