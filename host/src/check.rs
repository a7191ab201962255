//! `check`: whether files are read, and what they hold.
use crate::input::{self, Input};
use crate::{show, tell, Failure};
use kuhlabires::{keywords, Basis, Body, Kind, Reason, Refusal, Tables};
use std::collections::BTreeMap;
use std::ffi::OsStr;
use std::io::Write;

// What became of the files so far.
#[derive(Default)]
struct Summary {
    read: usize,
    unopened: usize,
    // By number: how many, and the first with its words, file, line and column.
    refused: BTreeMap<Reason, (usize, String)>,
}

/// Each file by itself, and where there are several, a summary. What is read is flushed before a refusal is told, so that where both go to one place
/// they stand in the order of the files.
pub fn check(files: &[&OsStr], told: bool, out: &mut dyn Write) -> Result<(), Failure> {
    let mut summary = Summary::default();
    for file in files {
        match input::open(file, told) {
            Ok(input) => check_one(&input, &mut summary, out)?,
            Err(Failure::Io(message)) => {
                out.flush()?;
                tell(format_args!("kuhlabires: {message}\n"));
                summary.unopened += 1;
            }
            Err(other) => return Err(other),
        }
    }
    if files.len() > 1 {
        summary.write(files.len(), out)?;
    }
    match (summary.unopened, summary.refused.len()) {
        (0, 0) => Ok(()),
        (0, _) => Err(Failure::Refused),
        _ => Err(Failure::Unopened),
    }
}

fn check_one(input: &Input, summary: &mut Summary, out: &mut dyn Write) -> Result<(), Failure> {
    match input::tables(input) {
        Ok(tables) => {
            summary.read += 1;
            write_holds(input, &tables, out)
        }
        Err(refusal) => {
            out.flush()?;
            input::refused(input, refusal);
            summary.refuse(input, refusal);
            Ok(())
        }
    }
}

fn write_holds(input: &Input, tables: &Tables, out: &mut dyn Write) -> Result<(), Failure> {
    let used = tables.used;
    writeln!(out, "{}: read, {}", input.name, input.bytes())?;
    let mut kinds = [0; Kind::ALL.len()];
    let mut unsampled: BTreeMap<String, Vec<u32>> = BTreeMap::new();
    for (number, element) in tables.elements() {
        kinds[element.kind as usize] += 1;
        if let Some(reason) = tables.body(element.body).and_then(unsampled_for) {
            unsampled.entry(reason).or_default().push(number);
        }
    }
    // The first four keywords are those of vertices.
    let vertices = keywords().iter().map(String::as_str).zip([used.v, used.vt, used.vn, used.vp]);
    let elements = Kind::ALL.iter().map(|kind| kind.keyword()).zip(kinds);
    for (keyword, many) in vertices.chain(elements) {
        if many > 0 {
            writeln!(out, "{keyword:>8} {}", show::thousands(many as usize))?;
        }
    }
    for (reason, numbers) in unsampled {
        let s = if numbers.len() == 1 { "" } else { "s" };
        writeln!(out, "         not sampled, since {reason}: element{s} {}", show::runs(numbers))?;
    }
    Ok(())
}

// Why no point of a body is given, if so: what sampling refuses with 18.
fn unsampled_for(body: Body) -> Option<String> {
    let rational = if body.rational { Some("rational") } else { None };
    let words: Vec<&str> =
        rational.into_iter().chain(Some(body.basis).filter(|basis| !basis.is_sampled()).map(Basis::word)).collect();
    if words.is_empty() {
        return None;
    }
    Some(words.join(" and "))
}

impl Summary {
    fn refuse(&mut self, input: &Input, refusal: Refusal) {
        let (many, _) = self.refused.entry(refusal.reason).or_insert_with(|| {
            let at = refusal.position(&input.text);
            let reason = show::reason(&input.text, refusal);
            (0, format!("{reason}; the first is {}:{}:{}", input.name, at.line, at.column))
        });
        *many += 1;
    }

    // The most frequent refusal first.
    fn write(&self, files: usize, out: &mut dyn Write) -> Result<(), Failure> {
        let refused: usize = self.refused.values().map(|(many, _)| many).sum();
        let counts = [files, self.read, refused, self.unopened].map(show::thousands);
        writeln!(out, "{} files: {} read, {} refused, {} not opened", counts[0], counts[1], counts[2], counts[3])?;
        let mut rows: Vec<(&Reason, &(usize, String))> = self.refused.iter().collect();
        rows.sort_by_key(|(_, (many, _))| std::cmp::Reverse(*many));
        for (reason, (many, first)) in rows {
            writeln!(out, "refused {}: {}, {first}", reason.number(), show::thousands(*many))?;
        }
        Ok(())
    }
}

#[cfg(test)]
mod tests {
    use super::*;

    #[test]
    fn every_reason_is_named() {
        let of = |rational, basis| {
            let mut tables = Tables { bodies: vec![1; 9], ranges: vec![0; 4], ..Tables::default() };
            tables.used.bodies = 1;
            let body = tables.body(1).unwrap();
            unsampled_for(Body { rational, basis, ..body })
        };
        assert_eq!(of(false, Basis::Bezier), None);
        assert_eq!(of(false, Basis::Bspline), None);
        assert_eq!(of(true, Basis::Bspline).as_deref(), Some("rational"));
        assert_eq!(of(false, Basis::Taylor).as_deref(), Some("taylor"));
        assert_eq!(of(true, Basis::Cardinal).as_deref(), Some("rational and cardinal"));
    }
}
