//! What a refusal found and what was expected, in a line: advice, which goes with the number and the place.
mod bodies;
mod bytes;
mod counts;
mod forms;
mod line;
mod sampling;

use crate::{keywords, position, rooms_of, Reason, Refusal, Tables, MOST_BYTES};
use line::Line;
pub use sampling::{sampling_message, Asked};

/// What reading or tidying found at the place of its refusal, and what was expected there. None where the number says all.
pub fn message(text: &[u8], refusal: Refusal) -> Option<String> {
    let said: fn(&Line) -> String = match refusal.reason {
        Reason::ByteNotAllowed => return bytes::not_allowed(text, refusal.place),
        Reason::OutputLacksRoom => return Some(format!("the tidy text has over {} bytes", thousands(MOST_BYTES))),
        Reason::KeywordUnknown => unknown,
        Reason::KnownAndRefused => not_carried,
        Reason::WordCount => counts::said,
        Reason::WordMalformed => forms::malformed,
        Reason::OutOfRange => forms::out_of_range,
        Reason::ReferenceToNothing => forms::missing,
        Reason::PatternDiffers => forms::unlike,
        Reason::NotAllowedHere => bodies::not_here,
        Reason::TypeDegreeOrParm => bodies::lacking,
        Reason::ControlCount => bodies::disagreeing,
        Reason::ParameterOrder => bodies::disordered,
        _ => return None,
    };
    Some(said(&Line::of(text, refusal.place)))
}

/// Which of the lent tables are shorter than the text can need, where its reading was refused with 14.
pub fn lacking(text: &[u8], tables: &Tables) -> Option<String> {
    let rooms = rooms_of(text);
    let lent = [
        ("v", tables.v.len(), rooms.v),
        ("vt", tables.vt.len(), rooms.vt),
        ("vn", tables.vn.len(), rooms.vn),
        ("vp", tables.vp.len(), rooms.vp),
        ("corners", tables.corners.len(), rooms.corners),
        ("elements", tables.elements.len(), rooms.elements),
        ("bodies", tables.bodies.len(), rooms.bodies),
        ("ranges", tables.ranges.len(), rooms.ranges),
        ("parameters", tables.parameters.len(), rooms.parameters),
        ("loops", tables.loops.len(), rooms.loops),
        ("spans", tables.spans.len(), rooms.spans),
    ];
    let short: Vec<String> = lent
        .iter()
        .filter(|(_, length, room)| length < room)
        .map(|(name, length, room)| {
            format!("{name} has {} entries, the text can need {}", thousands(*length), thousands(*room))
        })
        .collect();
    if short.is_empty() {
        return None;
    }
    Some(short.join("; "))
}

fn unknown(line: &Line) -> String {
    let word = line.keyword();
    let small = word.to_lowercase();
    if keywords().contains(&small) {
        return format!("{word} is no keyword: {small} is, in small letters");
    }
    if word.starts_with(|first: char| first.is_ascii_digit() || "+-.".contains(first)) {
        return format!("{word} is no keyword: a line begins with one, and goes on after a backslash at its end");
    }
    format!("{word} is no keyword")
}

// The place is the keyword's, or a type's.
fn not_carried(line: &Line) -> String {
    if line.at == line.advice.key {
        return format!("{} is known and not carried", line.keyword());
    }
    format!("the type {} is known and not carried: {} are", line.word(), list(&line::types(), "and"))
}

// Words with commas, and the last after `and` or `or`.
fn list(words: &[&str], last: &str) -> String {
    match words {
        [] => String::new(),
        [word] => word.to_string(),
        [before @ .., word] => format!("{} {last} {word}", before.join(", ")),
    }
}

fn line_of(text: &[u8], place: usize) -> String {
    thousands(position(text, place).line)
}

/// A number with its thousands apart.
pub fn thousands(number: usize) -> String {
    let digits = number.to_string();
    let mut shown = String::new();
    for (index, digit) in digits.chars().enumerate() {
        if index > 0 && (digits.len() - index) % 3 == 0 {
            shown.push(',');
        }
        shown.push(digit);
    }
    shown
}

#[cfg(test)]
mod tests;
