//! What stands in the C header and in this crate alike: the version, the words of the refusals, and the line and column of a place.
use kuhlabires::{position, Reason};
use std::fs;
use std::path::{Path, PathBuf};
use std::process::Command;

fn here() -> &'static Path {
    Path::new(env!("CARGO_MANIFEST_DIR"))
}

// What the program of header.c prints; it is made by the C compiler that cargo links with.
fn printed(name: &str, file: Option<&Path>) -> String {
    let program = PathBuf::from(env!("CARGO_TARGET_TMPDIR")).join(name);
    let made = Command::new("cc")
        .args(["-std=c99", "-Wall", "-Wextra", "-Werror", "-I"])
        .arg(here().join("../include"))
        .arg(here().join("tests/header.c"))
        .arg("-o")
        .arg(&program)
        .status();
    assert!(made.expect("a C compiler is there").success());
    let output = Command::new(&program).args(file).output().unwrap();
    assert!(output.status.success());
    String::from_utf8(output.stdout).unwrap()
}

#[test]
fn the_version_and_the_words_are_the_same() {
    let version = env!("CARGO_PKG_VERSION");
    let reasons = Reason::ALL.iter().map(|reason| format!("{} {}", reason.number(), reason.words()));
    let wanted: Vec<String> = [version.into(), version.into()].into_iter().chain(reasons).collect();
    assert_eq!(printed("words", None).lines().collect::<Vec<_>>(), wanted);
}

#[test]
fn every_place_has_the_same_line_and_column() {
    let text = b"v 0 0 0\nf 1 \\\r\n 2\t3\r\n\n# \xc3\xa9\r\n\r\rg a";
    let file = PathBuf::from(env!("CARGO_TARGET_TMPDIR")).join("places.obj");
    fs::write(&file, text).unwrap();
    let wanted: Vec<String> = (0..=text.len() + 1)
        .map(|place| position(text, place))
        .map(|at| format!("{} {}", at.line, at.column))
        .collect();
    assert_eq!(printed("places", Some(&file)).lines().collect::<Vec<_>>(), wanted);
}
