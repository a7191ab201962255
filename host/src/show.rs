//! What a person is shown: a refusal with its line, sizes.
use crate::tell;
pub use kuhlabires::thousands;
use kuhlabires::{message, sampling_message, Asked, Position, Reason, Refusal, Tables};

// The most columns of a line that are shown, around the place.
const MOST_COLUMNS: usize = 100;

/// The refusal of a file: number, words, line and column, and the line with a mark under the place.
pub fn refusal(name: &str, text: &[u8], refusal: Refusal) -> String {
    let at = refusal.position(text);
    let mut shown = format!(
        "{name}:{}:{}: refused {} at {}: {}\n",
        at.line,
        at.column,
        refusal.reason.number(),
        refusal.place,
        reason(text, refusal)
    );
    if let Some(message) = message(text, refusal) {
        shown.push_str(&format!("  {}\n", printable(&message)));
    }
    if !text.is_empty() && !matches!(refusal.reason, Reason::TextTooLong | Reason::OutputLacksRoom) {
        shown.push_str(&marked(text, at));
    }
    shown
}

/// Tells what sampling found, and what was expected, after its refusal: a sampling refusal has no place.
pub fn tell_why(tables: &Tables, element: u32, asked: Asked, reason: Reason) {
    if let Some(message) = sampling_message(tables, element, asked, reason) {
        tell(format_args!("  {message}\n"));
    }
}

/// The words of the number; of 10 the half that holds, of 16 those of a tidy text.
pub fn reason(text: &[u8], refusal: Refusal) -> &'static str {
    let words = refusal.reason.words();
    let (here, ends) = words.split_once("; ").unwrap_or((words, words));
    match refusal.reason {
        Reason::NotAllowedHere if refusal.place == text.len() => ends,
        Reason::NotAllowedHere => here,
        Reason::OutputLacksRoom => "the tidy text is too long",
        _ => words,
    }
}

// The line, or the part of it around the place, and a mark below.
fn marked(text: &[u8], at: Position) -> String {
    let line = &text[at.start..at.end];
    let column = at.column - 1;
    let from = if line.len() <= MOST_COLUMNS { 0 } else { column.saturating_sub(MOST_COLUMNS / 2) };
    let to = line.len().min(from + MOST_COLUMNS);
    let before = if from == 0 { "" } else { ".. " };
    let after = if to == line.len() { "" } else { " .." };
    let margin = format!("{:>5} | ", at.line);
    let blank = format!("{} | ", " ".repeat(margin.len() - 3));
    let mark: String =
        line[from..column.clamp(from, to)].iter().map(|&b| if b == b'\t' { '\t' } else { ' ' }).collect();
    format!("{margin}{before}{}{after}\n{blank}{}{mark}^\n", visible(&line[from..to]), " ".repeat(before.len()))
}

/// Bytes as a terminal may show them: any but 32 to 126 and tabs as a question mark.
pub fn visible(bytes: &[u8]) -> String {
    bytes.iter().map(|&b| if matches!(b, 32..=126 | b'\t') { b as char } else { '?' }).collect()
}

// A message as a terminal may show it.
fn printable(message: &str) -> String {
    message.chars().map(|letter| if letter.is_control() { '?' } else { letter }).collect()
}

/// The numbers, from 1, of the entries that are 0, after a colon.
pub fn zeros(entries: &[u32]) -> String {
    let numbers = (1..).zip(entries).filter(|(_, &entry)| entry == 0).map(|(number, _)| number);
    let shown = runs(numbers);
    if shown.is_empty() {
        return shown;
    }
    format!(": {shown}")
}

/// Rising numbers, neighbours as first-last.
pub fn runs(numbers: impl IntoIterator<Item = u32>) -> String {
    let mut runs: Vec<(u32, u32)> = Vec::new();
    for number in numbers {
        match runs.last_mut() {
            Some((_, last)) if *last + 1 == number => *last = number,
            _ => runs.push((number, number)),
        }
    }
    let shown: Vec<String> =
        runs.iter().map(|&(a, b)| if a == b { a.to_string() } else { format!("{a}-{b}") }).collect();
    shown.join(" ")
}

#[cfg(test)]
mod tests {
    use super::*;

    #[test]
    fn a_refusal_shows_its_line_with_a_mark() {
        let text = b"v 0 0 0\nf 1\t1 2\n";
        assert_eq!(
            refusal("a.obj", text, Refusal::new(Reason::ReferenceToNothing, 14)),
            "a.obj:2:7: refused 8 at 14: a reference to nothing\n  there is no v 2: there is 1 v so far\n    2 | f 1\t1 2\n      |    \t  ^\n"
        );
    }

    #[test]
    fn a_text_that_ends_in_a_body_is_told_so() {
        let text = b"curv 0 1 1 2\n";
        let shown = refusal("-", text, Refusal::new(Reason::NotAllowedHere, text.len()));
        assert!(shown.starts_with("-:2:1: refused 10 at 13: the text ends in a body\n"), "{shown}");
    }

    #[test]
    fn a_long_line_is_cut_around_the_place() {
        let mut text = vec![b'x'; 500];
        text[300] = 7;
        let shown = refusal("a", &text, Refusal::new(Reason::ByteNotAllowed, 300));
        let lines: Vec<&str> = shown.lines().collect();
        assert!(lines[2].len() < 130);
        assert_eq!(lines[2].find('?'), lines[3].find('^'));
    }

    #[test]
    fn the_mark_stands_under_the_place_whatever_the_line() {
        let text = [b"\n".repeat(1_234_567), b"f 1 2 0".to_vec()].concat();
        let shown = refusal("a", &text, Refusal::new(Reason::ReferenceToNothing, 1_234_573));
        let lines: Vec<&str> = shown.lines().collect();
        assert_eq!(lines[2].find('0'), lines[3].find('^'));
    }

    #[test]
    fn zeros_are_shown_as_runs() {
        assert_eq!(zeros(&[0, 1, 0, 0, 0, 2, 0]), ": 1 3-5 7");
        assert_eq!(zeros(&[1, 2]), "");
        assert_eq!(zeros(&[]), "");
    }

    #[test]
    fn thousands_stand_apart() {
        assert_eq!(thousands(16_777_216), "16,777,216");
        assert_eq!(thousands(999), "999");
    }
}
