//! Links the archive that `bindings/archive.sh` writes; `HOURS_ARCHIVE` names another folder to take it from.

use std::env;
use std::path::PathBuf;

fn main() {
    let folder = env::var_os("HOURS_ARCHIVE")
        .map(PathBuf::from)
        .unwrap_or_else(|| {
            PathBuf::from(env!("CARGO_MANIFEST_DIR")).join("../../target/staticlib")
        });

    println!("cargo::rerun-if-env-changed=HOURS_ARCHIVE");
    println!(
        "cargo::rerun-if-changed={}",
        folder.join("libhours.a").display()
    );
    println!("cargo::rustc-link-search=native={}", folder.display());
    println!("cargo::rustc-link-lib=static=hours");
    println!(
        "cargo::rustc-env=HOURS_ARCHIVE_FILE={}",
        folder.join("libhours.a").display()
    );
}
