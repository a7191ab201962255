//! Links the proved library: the archive that KUHLABIRES_ARCHIVE names, or the one that `python3 host/library.py` leaves in the repository.
use std::env;
use std::path::PathBuf;

fn main() {
    println!("cargo:rerun-if-env-changed=KUHLABIRES_ARCHIVE");
    let archive = match env::var_os("KUHLABIRES_ARCHIVE") {
        Some(path) => PathBuf::from(path),
        None => PathBuf::from(env::var_os("CARGO_MANIFEST_DIR").expect("cargo sets CARGO_MANIFEST_DIR"))
            .join("../target/staticlib/libkuhlabires.a"),
    };
    println!("cargo:rerun-if-changed={}", archive.display());
    let archive = archive
        .canonicalize()
        .unwrap_or_else(|error| panic!("{}: {error}; make it with `python3 host/library.py`", archive.display()));
    let name = archive
        .file_stem()
        .and_then(|stem| stem.to_str())
        .and_then(|stem| stem.strip_prefix("lib"))
        .unwrap_or_else(|| panic!("{}: an archive is named libNAME.a", archive.display()));
    let folder = archive.parent().expect("an archive stands in a folder");
    println!("cargo:rustc-link-search=native={}", folder.display());
    println!("cargo:rustc-link-lib=static={name}");
}
