//! Finds the libraries: in FOWHARIMU_LIB_DIR, or in this package where it has them, or by pkg-config, or where the linker looks.

use std::env;
use std::path::{Path, PathBuf};
use std::process::Command;

fn main() {
    println!("cargo:rerun-if-env-changed=FOWHARIMU_LIB_DIR");
    match (env::var("FOWHARIMU_LIB_DIR"), shipped()) {
        (Ok(folder), _) => search_in(&folder),
        (Err(_), Some(folder)) => search_in(&folder.to_string_lossy()),
        (Err(_), None) => search_by_pkg_config(),
    }
    println!("cargo:rustc-link-lib=static=fowharimu");
}

/// The folder of the libraries that this package has for the target. On another system or processor than theirs the build ends.
fn shipped() -> Option<PathBuf> {
    let of = |name| env::var(name).unwrap_or_default();
    let all = Path::new(&of("CARGO_MANIFEST_DIR")).join("lib");
    if !all.exists() {
        return None;
    }
    let target = format!(
        "{}-{}",
        of("CARGO_CFG_TARGET_OS"),
        of("CARGO_CFG_TARGET_ARCH")
    );
    let folder = all.join(&target);
    assert!(
        folder.exists(),
        "fowharimu has no library for the target {target}: {} has those there are",
        all.display()
    );
    Some(folder)
}

/// Has the libraries of a folder linked, and linked anew where they have changed.
fn search_in(folder: &str) {
    println!("cargo:rustc-link-search=native={folder}");
    println!("cargo:rerun-if-changed={folder}/libfowharimu.a");
}

fn search_by_pkg_config() {
    let asked = Command::new("pkg-config")
        .args(["--variable=libdir", "fowharimu"])
        .output();
    if let Ok(found) = asked {
        let folder = String::from_utf8_lossy(&found.stdout);
        if found.status.success() {
            search_in(folder.trim());
        }
    }
}
