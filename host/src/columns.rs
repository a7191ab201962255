//! Points as they are written: plain, as comma separated values, or as JSON.
use kuhlabires::{Decimal, Kind};
use std::io::{self, Write};

#[derive(Clone, Copy, PartialEq, Eq)]
pub enum Form {
    Plain,
    Csv,
    Json,
}

/// Which columns there are: those of one element, or of all curves at once.
#[derive(Clone, Copy, PartialEq, Eq)]
pub enum Rows {
    Of(Option<Kind>),
    AllCurves,
}

/// Points, one a line. In JSON and CSV all have the same columns, one that a point has not left out or empty.
pub struct Columns<'a> {
    form: Form,
    rows: Rows,
    parameter: bool,
    names: Vec<&'static str>,
    begun: bool,
    out: &'a mut dyn Write,
}

const SPACE: [&str; 3] = ["x", "y", "z"];
const PLANE: [&str; 2] = ["u", "v"];

impl<'a> Columns<'a> {
    pub fn new(form: Form, rows: Rows, parameter: bool, out: &'a mut dyn Write) -> Columns<'a> {
        let mut names = Vec::new();
        if rows == Rows::AllCurves {
            names.push("element");
        }
        match rows {
            Rows::Of(Some(Kind::Surf)) if parameter => names.extend(PLANE),
            _ if parameter => names.push("t"),
            _ => (),
        }
        match rows {
            Rows::Of(Some(Kind::Curv2)) => names.extend(PLANE),
            Rows::Of(_) => names.extend(SPACE),
            Rows::AllCurves => names.extend(SPACE.iter().chain(&PLANE)),
        }
        Columns { form, rows, parameter, names, begun: false, out }
    }

    /// The points of an element follow: of all curves, in the plain form, a comment says so.
    pub fn element(&mut self, number: u32, kind: Kind) -> io::Result<()> {
        if (self.rows, self.form) == (Rows::AllCurves, Form::Plain) {
            writeln!(self.out, "# element {number} {}", kind.keyword())?;
        }
        Ok(())
    }

    /// A row of a surf has ended, and another follows.
    pub fn between_rows(&mut self) -> io::Result<()> {
        if self.form == Form::Plain {
            writeln!(self.out)?;
        }
        Ok(())
    }

    /// A point of that element, with its parameters.
    pub fn point(&mut self, element: u32, parameters: &[i32], point: &[i32]) -> io::Result<()> {
        let parameters = if self.parameter { parameters } else { &[] };
        let numbers = parameters.iter().chain(point).map(|&number| Decimal(number));
        if self.form == Form::Plain {
            let mut before = "";
            for number in numbers {
                write!(self.out, "{before}{number}")?;
                before = " ";
            }
            return writeln!(self.out);
        }
        // Of all curves those in the plane have their columns after those in space.
        let all = self.rows == Rows::AllCurves;
        let skipped = if all && point.len() == PLANE.len() { SPACE.len() } else { 0 };
        let first = usize::from(all);
        let mut cells = vec![None; self.names.len()];
        for (index, number) in numbers.enumerate() {
            let skipped = if index < parameters.len() { 0 } else { skipped };
            cells[first + skipped + index] = Some(number);
        }
        self.begin()?;
        match self.form {
            Form::Csv => self.csv(all.then_some(element), &cells[first..]),
            _ => self.json(all.then_some(element), &cells[first..]),
        }
    }

    fn csv(&mut self, element: Option<u32>, cells: &[Option<Decimal>]) -> io::Result<()> {
        if let Some(element) = element {
            write!(self.out, "{element},")?;
        }
        for (index, cell) in cells.iter().enumerate() {
            let comma = if index == 0 { "" } else { "," };
            match cell {
                Some(number) => write!(self.out, "{comma}{number}")?,
                None => write!(self.out, "{comma}")?,
            }
        }
        writeln!(self.out)
    }

    fn json(&mut self, element: Option<u32>, cells: &[Option<Decimal>]) -> io::Result<()> {
        let mut before = "{";
        if let Some(element) = element {
            write!(self.out, "{before}\"element\": {element}")?;
            before = ", ";
        }
        let first = self.names.len() - cells.len();
        for (name, cell) in self.names[first..].iter().zip(cells) {
            if let Some(number) = cell {
                write!(self.out, "{before}\"{name}\": {number}")?;
                before = ", ";
            }
        }
        write!(self.out, "}}")
    }

    // The line of names; in JSON what stands before an object.
    fn begin(&mut self) -> io::Result<()> {
        match (self.form, self.begun) {
            (Form::Csv, false) => writeln!(self.out, "{}", self.names.join(","))?,
            (Form::Json, false) => write!(self.out, "[\n ")?,
            (Form::Json, true) => write!(self.out, ",\n ")?,
            _ => (),
        }
        self.begun = true;
        Ok(())
    }

    /// What is written so far goes out, before something is told beside it.
    pub fn flush(&mut self) -> io::Result<()> {
        self.out.flush()
    }

    /// No point follows.
    pub fn end(&mut self) -> io::Result<()> {
        match (self.form, self.begun) {
            (Form::Csv, false) => self.begin(),
            (Form::Json, false) => writeln!(self.out, "[]"),
            (Form::Json, true) => writeln!(self.out, "\n]"),
            _ => Ok(()),
        }
    }
}
