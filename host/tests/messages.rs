//! What the command tells of each refused case besides its number: the line after it, as messages.txt has it.
use std::collections::BTreeSet;
use std::path::Path;
use std::process::{Command, Stdio};

fn root() -> std::path::PathBuf {
    Path::new(env!("CARGO_MANIFEST_DIR")).join("..")
}

// The rows of messages.txt that name a file, which `check` refuses.
fn rows() -> Vec<(String, String)> {
    let stored = include_str!("messages.txt");
    let rows = stored.lines().filter(|line| !line.is_empty() && !line.starts_with('#'));
    let pairs = rows.map(|line| line.split_once(" | ").unwrap_or_else(|| panic!("no row: {line}")));
    pairs.filter(|(key, _)| !key.contains(": ")).map(|(key, message)| (key.into(), message.into())).collect()
}

// The second line that `check` tells of a file, if it is refused and has one before the line shown.
fn told(file: &str) -> Option<String> {
    let mut command = Command::new(env!("CARGO_BIN_EXE_kuhlabires"));
    let output = command.current_dir(root()).stdin(Stdio::null()).args(["check", file]).output().unwrap();
    let told = String::from_utf8_lossy(&output.stderr).into_owned();
    told.lines().nth(1).and_then(|line| line.strip_prefix("  ")).filter(|line| !line.starts_with(' ')).map(String::from)
}

#[test]
fn each_message_is_the_stored_one() {
    for (file, message) in rows() {
        assert_eq!(told(&file), Some(message), "{file}");
    }
}

#[test]
fn each_refused_case_has_its_message() {
    let stored: BTreeSet<String> = rows().into_iter().map(|(file, _)| file).collect();
    let mut files: Vec<String> = std::fs::read_dir(root().join("second/cases"))
        .unwrap()
        .map(|entry| format!("second/cases/{}", entry.unwrap().file_name().to_string_lossy()))
        .filter(|file| file.ends_with(".obj"))
        .collect();
    files.sort();
    for file in files {
        assert_eq!(told(&file).is_some(), stored.contains(&file), "{file}");
    }
}

#[test]
fn a_tidy_text_that_is_too_long_is_told_without_its_buffer() {
    let path = std::env::temp_dir().join(format!("kuhlabires-{}-tidied.obj", std::process::id()));
    std::fs::write(&path, b"v 0 0 0\n".repeat(600_000)).unwrap();
    let output = Command::new(env!("CARGO_BIN_EXE_kuhlabires")).arg("tidy").arg(&path).output().unwrap();
    std::fs::remove_file(&path).unwrap();
    let told = String::from_utf8_lossy(&output.stderr).into_owned();
    let lines: Vec<&str> = told.lines().collect();
    assert_eq!(output.status.code(), Some(1));
    assert!(lines[0].ends_with(": refused 16 at 0: the tidy text is too long"), "{told}");
    assert_eq!(lines[1..], ["  the tidy text has over 16,777,216 bytes"]);
}
