//! `tidy`, `polyline`, `cubic` and `sweep`.
use crate::input::{refused, tables_of, told, Input};
use crate::{show, tell, Failure};
use kuhlabires::{keywords, tidy_text, Asked, Decimal, Reason, Used, Weights, CUBIC_STEPS};
use std::io::Write;

pub fn tidy(input: Input, weights: Weights, out: &mut dyn Write) -> Result<(), Failure> {
    let tidied =
        told(&input, "tidying", || tidy_text(&input.text, weights)).map_err(|refusal| refused(&input, refusal))?;
    Ok(out.write_all(&tidied)?)
}

pub fn polyline(input: Input, element: u32, tolerance: i32, out: &mut dyn Write) -> Result<(), Failure> {
    let tables = tables_of(&input)?;
    let points = tables.polyline(element, tolerance).map_err(|reason| {
        let shown = Decimal(tolerance);
        tell(format_args!("{}: element {element}, tolerance {shown}: {reason}\n", input.name));
        show::tell_why(&tables, element, Asked::Polyline(tolerance), reason);
        Failure::Refused
    })?;
    for point in points {
        writeln!(out, "{point}")?;
    }
    Ok(())
}

// How many of each kind are dropped, and their numbers, runs of them as first-last.
pub fn sweep(input: Input, out: &mut dyn Write) -> Result<(), Failure> {
    let mut tables = tables_of(&input)?;
    let Used { v, vt, vn, vp, .. } = tables.used;
    let mut numbers = vec![0; tables.used.vertices()];
    let dropped = tables.sweep(&mut numbers).map_err(|reason| {
        tell(format_args!("{}: {reason}\n", input.name));
        Failure::Refused
    })?;
    let mut after = &numbers[..];
    // The first four keywords are those of vertices.
    let kinds = [(v, dropped.v), (vt, dropped.vt), (vn, dropped.vn), (vp, dropped.vp)];
    for (keyword, (used, dropped)) in keywords().iter().zip(kinds) {
        let (own, rest) = after.split_at(used as usize);
        after = rest;
        if used > 0 {
            let (dropped, used) = (show::thousands(dropped as usize), show::thousands(used as usize));
            writeln!(out, "{keyword:>8} {dropped} of {used} dropped{}", show::zeros(own))?;
        }
    }
    Ok(())
}

// Every step of every segment that lies in the range; a segment that begins where another ended gives that point once more.
pub fn cubic(input: Input, element: u32, out: &mut dyn Write) -> Result<(), Failure> {
    let tables = tables_of(&input)?;
    let body = tables.element(element).and_then(|asked| tables.body(asked.body));
    let segments = body.map_or(1, |body| body.u_parameters.saturating_sub(1).max(1));
    let mut last = Reason::ParameterOutside;
    let mut none = true;
    for segment in 0..segments {
        for j in 0..=CUBIC_STEPS {
            match tables.cubic_at(element, segment, j) {
                Ok(point) => {
                    writeln!(out, "{segment} {j} {point}")?;
                    none = false;
                }
                Err(reason) => last = reason,
            }
        }
    }
    if none {
        tell(format_args!("{}: element {element}: {last}\n", input.name));
        show::tell_why(&tables, element, Asked::Cubic, last);
        return Err(Failure::Refused);
    }
    Ok(())
}
