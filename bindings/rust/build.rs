//! Links the archive: `HOURS_ARCHIVE` names its folder; without it, that is where `bindings/archive.sh` writes it.

use std::env;
use std::path::{Path, PathBuf};

fn main() {
    let root = Path::new(env!("CARGO_MANIFEST_DIR")).join("../..");
    let folder = env::var_os("HOURS_ARCHIVE").map_or(root.join("target/staticlib"), PathBuf::from);
    let archive = folder.join("libhours.a");

    println!("cargo::rerun-if-env-changed=HOURS_ARCHIVE");
    println!("cargo::rerun-if-changed={}", archive.display());
    if !archive.is_file() {
        println!(
            "cargo::error={} is missing: `bindings/archive.sh` writes it",
            archive.display()
        );
    }
    println!("cargo::rustc-link-search=native={}", folder.display());
    println!("cargo::rustc-link-lib=static=hours");
}
