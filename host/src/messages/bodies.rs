//! 10 to 13: bodies, and what they hold at their end.
use super::line::{shown, words_from, Line};
use super::{line_of, list, thousands};
use crate::words::{Argument, Keyword};
use crate::{Along, Basis, Decimal, Form, Kind};

// The keyword of the open body, and the line where it stands.
fn open(line: &Line) -> Option<(String, String)> {
    let tally = line.advice.tally;
    if tally.kind == 0 {
        return None;
    }
    let keyword = words_from(line.text, tally.opened).next().map(shown)?;
    Some((keyword, line_of(line.text, tally.opened)))
}

fn parm(direction: Argument) -> String {
    format!("{} {}", Keyword::Parm.word(), direction.word())
}

fn is_surface(line: &Line) -> bool {
    line.advice.tally.kind == Kind::Surf.number()
}

pub fn not_here(line: &Line) -> String {
    let keyword = line.keyword();
    let (surf, end) = (Kind::Surf.keyword(), Keyword::End.word());
    let Some((body, since)) = open(line) else {
        let bodies = list(&[Kind::Curv, Kind::Curv2, Kind::Surf].map(Kind::keyword), "or");
        return format!("{keyword} stands in a body, and none is open: one goes from {bodies} to {end}");
    };
    if line.at == line.text.len() {
        return format!("the {body} of line {since} has no {end}");
    }
    let refused = match line.rules().standing {
        2 => keyword,
        3 => parm(Argument::V),
        _ => {
            return format!(
                "the {body} of line {since} is open, and {keyword} stands outside of bodies: its {end} may be missing"
            )
        }
    };
    format!("a {body} has no {refused}, only a {surf} has: the {body} of line {since} is open")
}

// At the line of a body its type or degree, at end a parm.
pub fn lacking(line: &Line) -> String {
    let (advice, keyword) = (line.advice, line.keyword());
    if let Some((body, since)) = open(line) {
        let direction = if advice.u.parameters == 0 { Argument::U } else { Argument::V };
        return format!("the {body} of line {since} has no {}", parm(direction));
    }
    let (cstype, deg) = (Keyword::Cstype.word(), Keyword::Deg.word());
    match (advice.basis, advice.degree_u) {
        (0, _) => format!("no {cstype} stands before this {keyword}"),
        (_, 0) => format!("no {deg} stands before this {keyword}"),
        _ => format!("the {deg} before this {keyword} has one number, and a {keyword} takes two, along u and along v"),
    }
}

fn type_word(line: &Line) -> &'static str {
    Basis::of(line.advice.basis).map_or("body", Basis::word)
}

fn counted(many: usize, what: &str) -> String {
    format!("{} {what}{}", thousands(many), if many == 1 { "" } else { "s" })
}

pub fn disagreeing(line: &Line) -> String {
    if line.rules().form() == Form::Control {
        let (vp, curv2) = (Keyword::Vp.word(), Kind::Curv2.keyword());
        return format!("{vp} {} has one coordinate, and a control of a {curv2} takes two", line.word());
    }
    let advice = line.advice;
    let Some((body, since)) = open(line) else {
        return "controls and parameters disagree".into();
    };
    let basis = type_word(line);
    let [u, v] = [Argument::U, Argument::V].map(Argument::word);
    let directions = [(u, advice.u, advice.degree_u), (v, advice.v, advice.degree_v)];
    let directions = &directions[..if is_surface(line) { 2 } else { 1 }];
    for (name, along, degree) in directions {
        if along.enough == 0 {
            let many = counted(along.parameters as usize, "knot");
            return format!("{many} along {name} are too few for a {basis} of degree {degree}");
        }
    }
    let by = |numbers: Vec<String>| numbers.join(" by ");
    let parameters = by(directions.iter().map(|(_, along, _)| thousands(along.parameters as usize)).collect());
    let controls = by(directions.iter().map(|(_, along, _)| thousands(along.controls)).collect());
    let degrees: Vec<String> = directions.iter().map(|(_, _, degree)| degree.to_string()).collect();
    let of = match &degrees[..] {
        _ if basis == Basis::Cardinal.word() => String::new(),
        [degree] => format!(" of degree {degree}"),
        degrees => format!(" of degrees {}", degrees.join(" and ")),
    };
    let given = thousands(advice.controls);
    format!(
        "a {basis}{of} with {parameters} parameters takes {controls} controls, the {body} of line {since} has {given}"
    )
}

pub fn disordered(line: &Line) -> String {
    let advice = line.advice;
    let (direction, along, degree) = match advice.u.fits {
        1 => (Argument::V, advice.v, advice.degree_v),
        _ => (Argument::U, advice.u, advice.degree_u),
    };
    if along.wrong > 1 {
        return order(line, &parm(direction), along, degree);
    }
    let name = direction.word();
    let (start, end) = (Decimal(along.start), Decimal(along.end));
    if along.start >= along.end {
        return format!("the range along {name}, {start} to {end}, is empty");
    }
    let (low, high) = (Decimal(along.low), Decimal(along.high));
    format!("the range along {name}, {start} to {end}, is not within that of the parameters, {low} to {high}")
}

// The number that a word writes, in millionths, as far as doubles hold it.
fn millionths(word: &[u8]) -> f64 {
    let value: f64 = String::from_utf8_lossy(word).parse().unwrap_or(0.0);
    (value * 1e6).round()
}

fn order(line: &Line, parm: &str, along: Along, degree: u32) -> String {
    let number = along.wrong as usize;
    let words: Vec<&[u8]> = words_from(line.text, along.place).skip(number - 2).take(2).collect();
    let [before, after] = words[..] else {
        return format!("parameter {number} of {parm} is out of order");
    };
    let (earlier, later) = (shown(before), shown(after));
    if millionths(before) < millionths(after) {
        return format!("the knot {earlier} of {parm} stands more often than the degree, {degree}, inside the range");
    }
    format!("parameter {number} of {parm}, {later}, does not follow the one before, {earlier}: they {}", rising(line))
}

fn rising(line: &Line) -> &'static str {
    if Basis::of(line.advice.basis) == Some(Basis::Bspline) {
        "never fall"
    } else {
        "rise"
    }
}
