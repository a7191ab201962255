//! The command as a person meets it: whatever cannot be written or opened, the exit status and what is told are right.
use std::fs::{self, File, OpenOptions};
use std::path::{Path, PathBuf};
use std::process::{Command, Output, Stdio};

fn command() -> Command {
    let mut command = Command::new(env!("CARGO_BIN_EXE_kuhlabires"));
    command.stdin(Stdio::null());
    command
}

fn full() -> Stdio {
    OpenOptions::new().write(true).open("/dev/full").expect("/dev/full is there").into()
}

fn example(name: &str) -> PathBuf {
    Path::new(env!("CARGO_MANIFEST_DIR")).join("../examples").join(name)
}

// A file of the test's own, taken away with it.
struct Made(PathBuf);

impl Made {
    fn new(name: impl AsRef<std::ffi::OsStr>, text: &[u8]) -> Made {
        let mut path = std::env::temp_dir();
        let mut file = std::ffi::OsString::from(format!("kuhlabires-{}-", std::process::id()));
        file.push(name);
        path.push(file);
        fs::write(&path, text).expect("a file is written");
        Made(path)
    }
}

impl Drop for Made {
    fn drop(&mut self) {
        let _ = fs::remove_file(&self.0);
    }
}

fn told(output: &Output) -> String {
    String::from_utf8_lossy(&output.stderr).into_owned()
}

#[test]
fn a_standard_error_that_cannot_be_written_changes_no_status() {
    let refused = Made::new("refused.obj", b"f 1 2 3\n");
    for (words, status) in [
        (vec!["check".into(), refused.0.clone().into_os_string()], 1),
        (vec!["points".into(), example("plate.obj").into_os_string(), "1".into(), "8".into()], 1),
        (vec!["paint".into()], 2),
        (vec!["tidy".into(), "no-such-file.obj".into()], 2),
        (vec!["tidy".into(), example("plate.obj").into_os_string()], 0),
    ] {
        let ended = command().args(&words).stdout(Stdio::null()).stderr(full()).status().unwrap();
        assert_eq!(ended.code(), Some(status), "{words:?}");
    }
}

#[test]
fn a_standard_output_that_cannot_be_written_is_told() {
    for words in [["check"], ["tidy"], ["elements"], ["show"]] {
        let output = command().args(words).arg(example("seat.obj")).stdout(full()).output().unwrap();
        assert_eq!(output.status.code(), Some(2), "{words:?}");
        assert!(told(&output).starts_with("kuhlabires: standard output: "), "{}", told(&output));
    }
    let both = command().arg("tidy").arg(example("seat.obj")).stdout(full()).stderr(full()).status().unwrap();
    assert_eq!(both.code(), Some(2));
}

#[cfg(unix)]
#[test]
fn a_file_name_is_any_bytes() {
    use std::os::unix::ffi::OsStrExt;
    let made = Made::new(std::ffi::OsStr::from_bytes(b"na\xffme.obj"), b"v 1 2 3\np 1\n");
    let output = command().arg("tidy").arg(&made.0).output().unwrap();
    assert_eq!(output.status.code(), Some(0), "{}", told(&output));
    assert_eq!(output.stdout, b"v 1.000000 2.000000 3.000000\np 1\n");
}

#[test]
fn a_file_that_is_too_long_is_told_with_its_size() {
    let made = Made::new("long.obj", b"");
    OpenOptions::new().write(true).open(&made.0).unwrap().set_len(60_000_000).unwrap();
    let output = command().arg("check").arg(&made.0).output().unwrap();
    assert_eq!(output.status.code(), Some(1));
    assert!(told(&output).ends_with("refused 1 at 0: the text has over 16,777,216 bytes: 60,000,000 bytes\n"));
    let piped = command().args(["check", "-"]).stdin(File::open(&made.0).unwrap()).output().unwrap();
    assert_eq!(piped.status.code(), Some(1));
    assert_eq!(told(&piped), "standard input:1:1: refused 1 at 0: the text has over 16,777,216 bytes\n");
}

#[test]
fn a_number_that_is_too_large_is_told_so() {
    for (element, steps, wanted) in [
        ("99999999999", "5", "ELEMENT is too large: 99999999999 is over 4294967295"),
        ("1", "4294967296", "STEPS is too large: 4294967296 is over 4294967295"),
        ("one", "5", "ELEMENT is a whole number, and not one"),
        ("-1", "5", "ELEMENT is a whole number, and not -1"),
    ] {
        let output = command().arg("points").arg(example("chair-rail.obj")).args([element, steps]).output().unwrap();
        assert_eq!(output.status.code(), Some(2));
        assert_eq!(told(&output), format!("kuhlabires: {wanted}; see kuhlabires --help\n"));
    }
}

#[test]
fn a_large_file_is_told_of_on_a_terminal_alone() {
    let made = Made::new("large.obj", &b"v 1 2 3\n".repeat(200_000));
    for words in [vec!["check"], vec!["--quiet", "check"], vec!["check", "--quiet"]] {
        let output = command().args(&words).arg(&made.0).output().unwrap();
        assert_eq!((output.status.code(), told(&output).as_str()), (Some(0), ""), "{words:?}");
    }
}

#[cfg(target_os = "linux")]
#[test]
fn a_terminal_is_told_unless_quiet() {
    let made = Made::new("terminal.obj", &b"v 1 2 3\n".repeat(200_000));
    for (option, telling) in [("", true), ("--quiet", false)] {
        let line = format!("{} check {option} {}", env!("CARGO_BIN_EXE_kuhlabires"), made.0.display());
        let mut script = Command::new("script");
        script.args(["-qec", &line, "/dev/null"]).stdin(Stdio::null());
        let output = script.output().expect("script of util-linux is there");
        let shown = String::from_utf8_lossy(&output.stdout);
        assert_eq!(shown.contains("reading took"), telling, "{shown}");
        assert!(shown.contains(": read, 1,600,000 bytes"), "{shown}");
    }
}

#[test]
fn joined_lines_ask_for_little_room() {
    let made = Made::new("joined.obj", &b"f\\\n".repeat(200_000));
    let output = command().arg("check").arg(&made.0).output().unwrap();
    assert_eq!(output.status.code(), Some(1));
    assert!(told(&output).contains(": refused 6 at 3: "), "{}", told(&output));
}

#[test]
fn a_reader_that_goes_away_is_no_error() {
    let mut child = command()
        .arg("points")
        .arg(example("chair-rail.obj"))
        .args(["1", "65536"])
        .stdout(Stdio::piped())
        .stderr(Stdio::piped())
        .spawn()
        .unwrap();
    drop(child.stdout.take());
    let output = child.wait_with_output().unwrap();
    assert_eq!((output.status.code(), told(&output).as_str()), (Some(0), ""));
}

#[test]
fn the_version_is_the_crates() {
    let output = command().arg("--version").output().unwrap();
    assert_eq!(output.status.code(), Some(0));
    assert_eq!(output.stdout, format!("kuhlabires {}\n", env!("CARGO_PKG_VERSION")).as_bytes());
}

#[test]
fn each_command_has_its_part_of_the_help() {
    let whole = String::from_utf8(command().arg("--help").output().unwrap().stdout).unwrap();
    for name in ["check", "tidy", "elements", "show", "points", "polyline", "cubic", "tables", "sweep"] {
        for words in [vec![name, "--help"], vec!["--help", name], vec![name, "no-such-file.obj", "--help"]] {
            let output = command().args(&words).output().unwrap();
            assert_eq!((output.status.code(), told(&output).as_str()), (Some(0), ""), "{words:?}");
            let own = String::from_utf8(output.stdout).unwrap();
            assert!(own.lines().all(|line| whole.contains(line)), "{own}");
            let forms: Vec<&str> = own.lines().filter(|line| line.starts_with("    kuhlabires ")).collect();
            assert!(!forms.is_empty() && forms.iter().all(|form| form.contains(&format!(" {name} "))), "{own}");
        }
    }
}

#[test]
fn after_two_dashes_no_word_is_an_option() {
    let folder = std::env::temp_dir().join(format!("kuhlabires-{}-dashes", std::process::id()));
    fs::create_dir_all(&folder).unwrap();
    for name in ["--weights", "--help", "-x.obj", "--"] {
        fs::write(folder.join(name), b"v 1 2 3\np 1\n").unwrap();
        let output = command().current_dir(&folder).args(["tidy", "--", name]).output().unwrap();
        assert_eq!(output.status.code(), Some(0), "{}", told(&output));
        assert_eq!(output.stdout, b"v 1.000000 2.000000 3.000000\np 1\n", "{name}");
    }
    let output = command().current_dir(&folder).args(["tidy", "--weights", "--", "--weights"]).output().unwrap();
    assert_eq!(output.stdout, b"v 1.000000 2.000000 3.000000 1.000000\np 1\n");
    fs::remove_dir_all(&folder).unwrap();
}

#[test]
fn bad_usage_is_told_in_short() {
    for (words, wanted) in [
        (vec!["check"], "check takes FILE.."),
        (vec!["--quiet"], "no command"),
        (vec!["paint", "a.obj"], "no command paint"),
        (vec!["check", "a.obj", "--weights"], "no option --weights of check"),
        (vec!["tidy", "a.obj", "--csv"], "no option --csv of tidy"),
        (vec!["tidy", "a.obj", "b.obj"], "tidy takes FILE"),
        (vec!["polyline", "a.obj", "1"], "polyline takes FILE ELEMENT TOLERANCE"),
        (vec!["points", "a.obj", "1", "2", "--csv", "--json"], "points are written as --csv or as --json"),
        (vec!["points", "a.obj", "1", "--at", "half"], "--at half: not a number"),
        (vec!["points", "a.obj", "1", "0.5"], "STEPS is a whole number, and not 0.5"),
    ] {
        let output = command().args(&words).output().unwrap();
        assert_eq!(output.status.code(), Some(2), "{words:?}");
        assert_eq!(told(&output), format!("kuhlabires: {wanted}; see kuhlabires --help\n"), "{words:?}");
    }
}

#[test]
fn a_curve_is_asked_for_one_number_and_a_surface_at_two() {
    for (words, wanted) in [
        (vec!["1", "2", "3"], "element 1 is a curv2: one number along it, not two"),
        (vec!["1", "--at", "2", "3"], "element 1 is a curv2: one number along it, not two"),
        (vec!["3", "--at", "0.5"], "element 3 is a surf: --at takes S and T"),
    ] {
        let output = command().arg("points").arg(example("seat.obj")).args(&words).output().unwrap();
        assert_eq!((output.status.code(), &output.stdout[..]), (Some(2), &b""[..]), "{words:?}");
        assert_eq!(told(&output), format!("kuhlabires: {wanted}; see kuhlabires --help\n"));
    }
}

#[test]
fn of_several_files_each_is_checked_and_the_worst_is_the_status() {
    let (read, refused) = (Made::new("several.obj", b"v 1 2 3\n"), Made::new("worse.obj", b"f 1 2 3\n"));
    let missing = PathBuf::from("no-such-file.obj");
    for (files, status, summary) in [
        (vec![&read.0, &read.0], 0, "2 files: 2 read, 0 refused, 0 not opened\n"),
        (vec![&read.0, &refused.0], 1, "2 files: 1 read, 1 refused, 0 not opened\nrefused 8: 1, "),
        (vec![&missing, &refused.0, &read.0], 2, "3 files: 1 read, 1 refused, 1 not opened\nrefused 8: 1, "),
    ] {
        let output = command().arg("check").args(&files).output().unwrap();
        assert_eq!(output.status.code(), Some(status), "{files:?}");
        assert!(String::from_utf8_lossy(&output.stdout).contains(summary), "{files:?}");
        let ending = if status == 2 { "no-such-file.obj: " } else { "" };
        assert!(told(&output).contains(ending));
    }
    let alone = command().arg("check").arg(&missing).output().unwrap();
    assert_eq!((alone.status.code(), &alone.stdout[..]), (Some(2), &b""[..]));
    assert!(told(&alone).starts_with("kuhlabires: no-such-file.obj: "), "{}", told(&alone));
}

// What the sqlite3 of the distribution answers, in that folder.
fn sqlite(folder: &Path, input: Stdio, words: &[&str]) -> String {
    let mut sqlite = Command::new("sqlite3");
    let output = sqlite.current_dir(folder).arg("part.db").args(words).stdin(input).output().expect("sqlite3 is there");
    assert!(output.status.success(), "{}", told(&output));
    String::from_utf8(output.stdout).unwrap()
}

#[test]
fn a_database_takes_the_tables_in_one_step() {
    let text = b"v 0 0 0\nv 1 0 0\nv 1 .5 0\nv 9 9 9\ng 6\"pipe,left top\nusemtl oak,'oiled'\nf 1 2 3\nl 1 3\n";
    let made = Made::new("database.obj", text);
    let folder = std::env::temp_dir().join(format!("kuhlabires-{}-database/tables", std::process::id()));
    let output = command().arg("tables").arg("--csv").arg(&folder).arg(&made.0).output().unwrap();
    assert_eq!((output.status.code(), told(&output).as_str(), &output.stdout[..]), (Some(0), "", &b""[..]));
    let load = File::open(folder.join("load.sql")).unwrap();
    assert_eq!(sqlite(&folder, load.into(), &[]), "");
    let joined = "SELECT c.element, c.k, v.x, v.y FROM corners c JOIN v ON v.number = c.v ORDER BY c.number";
    assert_eq!(sqlite(&folder, Stdio::null(), &[joined]), "1|0|0|0\n1|1|1|0\n1|2|1|0.5\n2|0|0|0\n2|1|1|0.5\n");
    let names = "SELECT DISTINCT group_names, material FROM elements";
    assert_eq!(sqlite(&folder, Stdio::null(), &[names]), "6\"pipe,left top|oak,'oiled'\n");
    let nowhere = "SELECT count(*) FROM corners WHERE vt IS NULL AND vn IS NULL AND vp IS NULL";
    assert_eq!(sqlite(&folder, Stdio::null(), &[nowhere]), "5\n");
    fs::remove_dir_all(folder.parent().unwrap()).unwrap();
}

#[test]
fn a_folder_that_cannot_be_made_is_told() {
    let output = command().arg("tables").arg(example("seat.obj")).args(["--csv", "/dev/null/tables"]).output().unwrap();
    assert_eq!(output.status.code(), Some(2));
    assert!(told(&output).starts_with("kuhlabires: /dev/null/tables: "), "{}", told(&output));
    let output = command().arg("tables").arg(example("seat.obj")).arg("--csv").output().unwrap();
    assert_eq!(told(&output), "kuhlabires: --csv lacks its DIR; see kuhlabires --help\n");
    let output = command().arg("tables").arg(example("seat.obj")).output().unwrap();
    assert_eq!(told(&output), "kuhlabires: tables takes FILE --csv DIR; see kuhlabires --help\n");
}
