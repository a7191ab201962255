//! The cases of `second/cases`, answers worked out by hand, through the static library: reading with the rooms that a case names, and with the
//! rooms that the text is found to need; tidying against the texts beside.
use kuhlabires::{read, rooms_of, tidy_text, Rooms, Tables, Used, Weights};
use std::fs;
use std::path::{Path, PathBuf};

// What a case has for each table that it does not name.
const ROOM: usize = 16_384;

fn cases() -> PathBuf {
    Path::new(env!("CARGO_MANIFEST_DIR")).join("../second/cases")
}

fn rooms_in(column: &str) -> Rooms {
    let named = |table: &str| {
        let parts = column.split(',').map(str::trim);
        let room = parts.filter_map(|part| part.strip_prefix(table)?.strip_prefix(' ')).next();
        room.map_or(ROOM, |room| room.parse().unwrap())
    };
    Rooms {
        v: named("v"),
        vt: named("vt"),
        vn: named("vn"),
        vp: named("vp"),
        corners: named("corners"),
        elements: named("elements"),
        bodies: named("bodies"),
        ranges: named("ranges"),
        parameters: named("parameters"),
        loops: named("loops"),
        spans: named("spans"),
    }
}

fn counts(used: Used) -> [(&'static str, u32); 9] {
    [
        ("v", used.v),
        ("vt", used.vt),
        ("vn", used.vn),
        ("vp", used.vp),
        ("corners", used.corners),
        ("elements", used.elements),
        ("bodies", used.bodies),
        ("parameters", used.parameters),
        ("loops", used.loops),
    ]
}

fn answer(text: &[u8], rooms: &Rooms) -> String {
    let mut tables = Tables::with_rooms(rooms);
    match read(text, &mut tables) {
        Ok(()) => {
            let used = counts(tables.used).into_iter().filter(|(_, many)| *many > 0);
            used.fold("read".to_string(), |shown, (table, many)| format!("{shown} {table} {many}"))
        }
        Err(refusal) => {
            assert_eq!(tables, Tables::with_rooms(rooms), "a refusal leaves zeros");
            format!("refused {} at {}", refusal.reason.number(), refusal.place)
        }
    }
}

#[test]
fn every_case_is_answered_as_listed() {
    let listed = fs::read_to_string(cases().join("expected.txt")).unwrap();
    let mut held = 0;
    for row in listed.lines().filter(|line| !line.is_empty() && !line.starts_with('#')) {
        let columns: Vec<&str> = row.split(" | ").map(str::trim).collect();
        let (name, rooms, wanted) = (columns[0], rooms_in(columns[1]), columns[2]);
        let text = fs::read(cases().join(name)).unwrap();
        assert_eq!(answer(&text, &rooms), wanted, "{name}");
        if !wanted.starts_with("refused 14") {
            assert_eq!(answer(&text, &rooms_of(&text)), wanted, "{name}, in room that was counted");
        }
        held += 1;
    }
    assert!(held > 500, "only {held} cases");
}

#[test]
fn every_tidy_text_is_the_one_beside() {
    let mut held = 0;
    for entry in fs::read_dir(cases().join("tidy")).unwrap() {
        let path = entry.unwrap().path();
        if path.extension().map_or(true, |extension| extension != "obj") {
            continue;
        }
        let text = fs::read(&path).unwrap();
        for (weights, ending) in [(Weights::WhenNeeded, ""), (Weights::Always, "-every-w")] {
            let name = format!("{}{ending}.tidy", path.file_stem().unwrap().to_str().unwrap());
            let Ok(wanted) = fs::read(path.with_file_name(name)) else {
                assert_eq!(weights, Weights::Always, "{} has no tidy text", path.display());
                continue;
            };
            assert_eq!(tidy_text(&text, weights).as_deref(), Ok(&wanted[..]), "{}", path.display());
            assert_eq!(tidy_text(&wanted, weights).as_deref(), Ok(&wanted[..]), "{} once more", path.display());
            held += 1;
        }
    }
    assert!(held > 7, "only {held} tidy texts");
}

#[test]
fn a_text_over_the_limit_is_refused() {
    let text = vec![b'\n'; kuhlabires::MOST_BYTES + 1];
    assert_eq!(answer(&text, &rooms_of(&text)), "refused 1 at 0");
    assert_eq!(answer(&text[1..], &rooms_of(&text[1..])), "read");
}
