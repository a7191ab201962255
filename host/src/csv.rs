//! `tables`: the eleven tables of a file as comma separated values, with a schema for a database.
use crate::input::{tables_of, Input};
use crate::schema::{self, Table};
use crate::Failure;
use kuhlabires::{Corner, Decimal, Kind, Tables};
use std::fmt::{self, Display};
use std::fs::{self, File};
use std::io::{self, BufWriter, Write};
use std::path::{Path, PathBuf};

enum Cell {
    Whole(u32),
    Millionths(i32),
    Text(String),
    Nothing,
}

// A reference, where 0 is none.
fn reference(number: u32) -> Cell {
    if number == 0 {
        return Cell::Nothing;
    }
    Cell::Whole(number)
}

impl Display for Cell {
    fn fmt(&self, f: &mut fmt::Formatter<'_>) -> fmt::Result {
        match self {
            Cell::Whole(number) => write!(f, "{number}"),
            Cell::Millionths(number) => write!(f, "{}", Decimal(*number)),
            Cell::Text(text) if text.contains(['"', ',']) => write!(f, "\"{}\"", text.replace('"', "\"\"")),
            Cell::Text(text) => write!(f, "{text}"),
            Cell::Nothing => Ok(()),
        }
    }
}

// A table's file, to which its records are written.
struct Sheet {
    path: PathBuf,
    out: BufWriter<File>,
    last: u32,
}

fn failed(path: &Path, error: io::Error) -> Failure {
    Failure::Io(format!("{}: {error}", path.display()))
}

impl Sheet {
    fn new(folder: &Path, table: &Table) -> Result<Sheet, Failure> {
        let path = folder.join(format!("{}.csv", table.name));
        let file = File::create(&path).map_err(|error| failed(&path, error))?;
        let mut sheet = Sheet { path, out: BufWriter::new(file), last: 0 };
        let names: Vec<&str> = table.columns.iter().map(|(name, _)| *name).collect();
        sheet.write(format_args!("{}\n", names.join(",")))?;
        Ok(sheet)
    }

    fn write(&mut self, text: impl Display) -> Result<(), Failure> {
        write!(self.out, "{text}").map_err(|error| failed(&self.path, error))
    }

    // The next record: its number, and its cells.
    fn record(&mut self, cells: &[Cell]) -> Result<(), Failure> {
        self.last += 1;
        self.write(self.last)?;
        for cell in cells {
            self.write(format_args!(",{cell}"))?;
        }
        self.write('\n')
    }

    // A record of numbers in millionths alone.
    fn numbers(&mut self, numbers: &[i32]) -> Result<(), Failure> {
        let cells: Vec<Cell> = numbers.iter().map(|&number| Cell::Millionths(number)).collect();
        self.record(&cells)
    }

    fn end(mut self) -> Result<(), Failure> {
        self.out.flush().map_err(|error| failed(&self.path, error))
    }
}

/// Writes each table to DIR, which is made where it is not there, with `schema.sql` and what loads them all into SQLite, `load.sql`.
pub fn tables(input: Input, folder: &Path) -> Result<(), Failure> {
    let tables = tables_of(&input)?;
    fs::create_dir_all(folder).map_err(|error| failed(folder, error))?;
    vertices(&tables, folder)?;
    bodies(&tables, folder)?;
    elements(&input, &tables, folder)?;
    loops(&tables, folder)?;
    for (name, text) in [("schema.sql", schema::schema()), ("load.sql", schema::load())] {
        let path = folder.join(name);
        fs::write(&path, text).map_err(|error| failed(&path, error))?;
    }
    Ok(())
}

fn vertices(tables: &Tables, folder: &Path) -> Result<(), Failure> {
    let used = tables.used;
    let mut sheet = Sheet::new(folder, &schema::V)?;
    for v in (1..=used.v).map_while(|number| tables.vertex(number)) {
        sheet.numbers(&[v.x, v.y, v.z, v.w])?;
    }
    sheet.end()?;
    let mut sheet = Sheet::new(folder, &schema::VT)?;
    for vt in (1..=used.vt).map_while(|number| tables.texture_vertex(number)) {
        sheet.numbers(&[vt.u, vt.v, vt.w])?;
    }
    sheet.end()?;
    let mut sheet = Sheet::new(folder, &schema::VN)?;
    for vn in (1..=used.vn).map_while(|number| tables.normal(number)) {
        sheet.numbers(&[vn.i, vn.j, vn.k])?;
    }
    sheet.end()?;
    let mut sheet = Sheet::new(folder, &schema::VP)?;
    for vp in (1..=used.vp).map_while(|number| tables.parameter_vertex(number)) {
        let [u, v, w] = [vp.u, vp.v, vp.w].map(Cell::Millionths);
        sheet.record(&[Cell::Whole(vp.given as u32), u, v, w])?;
    }
    sheet.end()
}

fn bodies(tables: &Tables, folder: &Path) -> Result<(), Failure> {
    let mut records = Sheet::new(folder, &schema::BODIES)?;
    let mut ranges = Sheet::new(folder, &schema::RANGES)?;
    let mut parameters = Sheet::new(folder, &schema::PARAMETERS)?;
    for (number, body) in tables.bodies() {
        let [rational, u_degree, v_degree] = [body.rational as u32, body.u_degree, body.v_degree].map(Cell::Whole);
        let basis = Cell::Text(body.basis.word().into());
        records.record(&[basis, rational, u_degree, v_degree])?;
        ranges.numbers(&[body.u_start, body.u_end, body.v_start, body.v_end])?;
        let along_u = tables.u_parameters(&body).map(|value| ("u", value));
        for (direction, value) in along_u.chain(tables.v_parameters(&body).map(|value| ("v", value))) {
            parameters.record(&[Cell::Whole(number), Cell::Text(direction.into()), Cell::Millionths(value)])?;
        }
    }
    records.end()?;
    ranges.end()?;
    parameters.end()
}

fn elements(input: &Input, tables: &Tables, folder: &Path) -> Result<(), Failure> {
    let mut records = Sheet::new(folder, &schema::ELEMENTS)?;
    let mut corners = Sheet::new(folder, &schema::CORNERS)?;
    for (number, element) in tables.elements() {
        let kind = Cell::Text(element.kind.keyword().into());
        let group = Cell::Text(tables.group_names(&input.text, number).collect::<Vec<_>>().join(" "));
        let material = Cell::Text(tables.material(&input.text, number).unwrap_or("").into());
        records.record(&[kind, reference(element.body), Cell::Whole(element.smoothing), group, material])?;
        for (k, Corner { v, vt, vn }) in (0..).zip(tables.corners(number)) {
            let (v, vp) = if element.kind == Kind::Curv2 { (0, v) } else { (v, 0) };
            let [v, vt, vn, vp] = [v, vt, vn, vp].map(reference);
            corners.record(&[Cell::Whole(number), Cell::Whole(k), v, vt, vn, vp])?;
        }
    }
    records.end()?;
    corners.end()
}

// A loop part names its curv2 among the curv2 alone; here it is an element.
fn loops(tables: &Tables, folder: &Path) -> Result<(), Failure> {
    let mut records = Sheet::new(folder, &schema::LOOPS)?;
    let mut spans = Sheet::new(folder, &schema::SPANS)?;
    let curves = tables.curv2_elements();
    for (number, body) in tables.bodies() {
        for part in tables.loop_parts(&body) {
            let begins = part.begins.keyword().map_or(Cell::Nothing, |keyword| Cell::Text(keyword.into()));
            let curve = part.curve.checked_sub(1).and_then(|index| curves.get(index as usize));
            let curve = curve.map_or(Cell::Nothing, |&element| Cell::Whole(element));
            records.record(&[Cell::Whole(number), begins, curve])?;
            spans.numbers(&[part.from, part.to])?;
        }
    }
    records.end()?;
    spans.end()
}

#[cfg(test)]
mod tests {
    use super::*;

    #[test]
    fn a_text_is_quoted_where_it_has_to_be() {
        for (text, shown) in [("top", "top"), ("a,b", "\"a,b\""), ("6\" pipe", "\"6\"\" pipe\""), ("", "")] {
            assert_eq!(Cell::Text(text.into()).to_string(), shown);
        }
    }
}
