//! Finds the static library: what `./kaltewi lib` has made in this checkout, or the archives that KALTEWI_ARCHIVES names, with a colon between.

use std::path::{Path, PathBuf};

/// The archives to link.
fn archives() -> Vec<PathBuf> {
    if let Some(named) = std::env::var_os("KALTEWI_ARCHIVES") {
        return named.to_str().expect("paths are UTF-8").split(':').map(PathBuf::from).collect();
    }
    let own = Path::new(env!("CARGO_MANIFEST_DIR")).join("../../crates/rt_ffi/out/libkaltewi.a");
    println!("cargo:rerun-if-changed={}", own.display());
    assert!(own.is_file(), "there is no {}: make it by ./kaltewi lib, or name archives by the variable KALTEWI_ARCHIVES", own.display());
    vec![own]
}

fn main() {
    println!("cargo:rerun-if-env-changed=KALTEWI_ARCHIVES");
    for archive in archives() {
        let folder = archive.parent().expect("an archive stands in a folder");
        let name = archive.file_stem().and_then(|it| it.to_str()).and_then(|it| it.strip_prefix("lib"));
        println!("cargo:rerun-if-changed={}", archive.display());
        println!("cargo:rustc-link-search=native={}", folder.display());
        println!("cargo:rustc-link-lib=static={}", name.expect("an archive's name is libNAME.a"));
    }
}
