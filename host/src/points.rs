//! `points`: points of curves and surfaces, in steps or at a parameter.
use crate::arguments::{millionths, number, Arguments};
use crate::columns::{Columns, Form, Rows};
use crate::input::{tables_of, Input};
use crate::{show, tell, Failure};
use kuhlabires::{Body, Decimal, Element, Kind, Point, Reason, Tables, MOST_STEPS};
use std::ffi::OsStr;
use std::fmt;
use std::io::{self, Write};

/// Where points are asked for: along u, and on a surf along v too.
enum Places {
    Steps(u32, Option<u32>),
    At(i32, Option<i32>),
}

pub struct Asked {
    /// None for all curves.
    element: Option<u32>,
    places: Places,
    form: Form,
    parameter: bool,
}

enum Trouble {
    Refused(Reason),
    Io(io::Error),
    Usage(String),
}

impl From<Reason> for Trouble {
    fn from(reason: Reason) -> Trouble {
        Trouble::Refused(reason)
    }
}

impl From<io::Error> for Trouble {
    fn from(error: io::Error) -> Trouble {
        Trouble::Io(error)
    }
}

impl Asked {
    pub fn of(arguments: &Arguments) -> Result<Asked, Failure> {
        let (first, second) = match arguments.others[..] {
            [_, _, first] => (first, None),
            [_, element, first, second] if element != "all" => (first, Some(second)),
            _ => return Err(arguments.misused()),
        };
        let element = arguments.others[1];
        let element = if element == "all" { None } else { Some(number("ELEMENT", element)?) };
        let form = match (arguments.has("--csv"), arguments.has("--json")) {
            (true, true) => return Err(Failure::Usage("points are written as --csv or as --json".into())),
            (true, false) => Form::Csv,
            (false, true) => Form::Json,
            (false, false) => Form::Plain,
        };
        let steps = |word: &OsStr| number("STEPS", word);
        let at = |word: &OsStr| millionths("--at", word);
        let places = if arguments.has("--at") {
            Places::At(at(first)?, second.map(at).transpose()?)
        } else {
            Places::Steps(steps(first)?, second.map(steps).transpose()?)
        };
        Ok(Asked { element, places, form, parameter: arguments.has("--parameter") })
    }
}

impl Places {
    fn asked(&self) -> kuhlabires::Asked {
        match *self {
            Places::Steps(along_u, along_v) => kuhlabires::Asked::Steps(along_u, along_v.unwrap_or(along_u)),
            Places::At(s, t) => kuhlabires::Asked::At(s, t),
        }
    }
}

impl fmt::Display for Places {
    fn fmt(&self, f: &mut fmt::Formatter<'_>) -> fmt::Result {
        match *self {
            Places::Steps(steps, None) => write!(f, ", {steps} steps"),
            Places::Steps(along_u, Some(along_v)) => write!(f, ", {along_u} by {along_v} steps"),
            Places::At(t, None) => write!(f, " at {}", Decimal(t)),
            Places::At(s, Some(t)) => write!(f, " at {} {}", Decimal(s), Decimal(t)),
        }
    }
}

/// Of all curves each that is refused is told, and the others are written.
pub fn points(input: Input, asked: &Asked, out: &mut dyn Write) -> Result<(), Failure> {
    let tables = tables_of(&input)?;
    let rows = match asked.element {
        Some(element) => Rows::Of(tables.element(element).map(|found| found.kind)),
        None => Rows::AllCurves,
    };
    let mut columns = Columns::new(asked.form, rows, asked.parameter, out);
    let mut ended = Ok(());
    match asked.element {
        Some(element) => write_element(&input, &tables, element, asked, &mut columns)?,
        None => {
            for (number, found) in tables.elements() {
                if found.kind.is_curve() {
                    match write_element(&input, &tables, number, asked, &mut columns) {
                        Err(Failure::Refused) => ended = Err(Failure::Refused),
                        other => other?,
                    }
                }
            }
        }
    }
    columns.end()?;
    ended
}

fn write_element(
    input: &Input,
    tables: &Tables,
    element: u32,
    asked: &Asked,
    columns: &mut Columns,
) -> Result<(), Failure> {
    let written = match (tables.element(element), &asked.places) {
        (Some(Element { kind: Kind::Surf, body, .. }), places) => {
            surface(tables, element, tables.body(body), places, columns)
        }
        (found, places) => curve(tables, element, found, places, columns),
    };
    match written {
        Ok(()) => Ok(()),
        Err(Trouble::Refused(reason)) => {
            columns.flush()?;
            tell(format_args!("{}: element {element}{}: {reason}\n", input.name, asked.places));
            show::tell_why(tables, element, asked.places.asked(), reason);
            Err(Failure::Refused)
        }
        Err(Trouble::Io(error)) => Err(error.into()),
        Err(Trouble::Usage(message)) => Err(Failure::Usage(message)),
    }
}

fn curve(
    tables: &Tables,
    element: u32,
    found: Option<Element>,
    places: &Places,
    columns: &mut Columns,
) -> Result<(), Trouble> {
    let kind = found.map(|found| found.kind).filter(|kind| kind.is_curve());
    if let (Some(kind), Places::Steps(_, Some(_)) | Places::At(_, Some(_))) = (kind, places) {
        return Err(Trouble::Usage(format!("element {element} is a {}: one number along it, not two", kind.keyword())));
    }
    let (points, parameters) = match *places {
        Places::At(t, _) => (vec![tables.point_on_curve(element, t)?], vec![t]),
        Places::Steps(steps, _) => {
            let points = tables.run_on_curve(element, steps)?;
            let body = found.and_then(|found| tables.body(found.body));
            let (start, end) = body.map_or((0, 0), |body| (body.u_start, body.u_end));
            (points, (0..=steps).map(|j| parameter(start, end, steps, j)).collect())
        }
    };
    if let Some(kind) = kind {
        columns.element(element, kind)?;
    }
    for (point, t) in points.into_iter().zip(parameters) {
        columns.point(element, &[t], &coordinates(point))?;
    }
    Ok(())
}

// On a surface the parameters of a run, along u and along v.
fn surface(
    tables: &Tables,
    element: u32,
    body: Option<Body>,
    places: &Places,
    columns: &mut Columns,
) -> Result<(), Trouble> {
    let write = |s: i32, t: i32, columns: &mut Columns| -> Result<(), Trouble> {
        let point = coordinates(tables.point_on_surface(element, s, t)?);
        Ok(columns.point(element, &[s, t], &point)?)
    };
    let (along_u, along_v) = match *places {
        Places::At(s, Some(t)) => return write(s, t, columns),
        Places::At(_, None) => {
            return Err(Trouble::Usage(format!("element {element} is a surf: --at takes S and T")));
        }
        Places::Steps(along_u, along_v) => (along_u, along_v.unwrap_or(along_u)),
    };
    let body = body.ok_or(Reason::RecordsBreakRules)?;
    // What is refused whatever the steps comes first.
    tables.point_on_surface(element, body.u_start, body.v_start)?;
    if !(1..=MOST_STEPS).contains(&along_u) || !(1..=MOST_STEPS).contains(&along_v) {
        return Err(Reason::ParameterOutside.into());
    }
    for row in 0..=along_v {
        if row > 0 {
            columns.between_rows()?;
        }
        let t = parameter(body.v_start, body.v_end, along_v, row);
        for column in 0..=along_u {
            write(parameter(body.u_start, body.u_end, along_u, column), t, columns)?;
        }
    }
    Ok(())
}

fn coordinates(point: Point) -> Vec<i32> {
    match point {
        Point::Space { x, y, z } => vec![x, y, z],
        Point::Plane { u, v } => vec![u, v],
    }
}

// start + floor(j (end - start) / steps), as in a run.
fn parameter(start: i32, end: i32, steps: u32, j: u32) -> i32 {
    let (start, end) = (i64::from(start), i64::from(end));
    (start + i64::from(j) * (end - start) / i64::from(steps)) as i32
}

#[cfg(test)]
mod tests {
    use super::*;

    #[test]
    fn parameters_reach_from_start_to_end() {
        let all: Vec<i32> = (0..=3).map(|j| parameter(-2_000_000_000, 2_000_000_000, 3, j)).collect();
        assert_eq!(all, [-2_000_000_000, -666_666_667, 666_666_666, 2_000_000_000]);
        assert_eq!(parameter(5, 6, 65_536, 65_535), 5);
    }
}
