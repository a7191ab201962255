//! Why a call was refused, and where.
use std::fmt;

// The numbers of refusal in their order, from 1: each with its name and its words, which docs/REFUSALS.md and include/kuhlabires.h have too.
macro_rules! reasons {
    ($($name:ident: $words:literal;)*) => {
        /// Why a call was refused: the numbers of refusal, 1 to 19, by name. It is shown by its words, which `docs/REFUSALS.md` lists, each with a
        /// file that gives it.
        #[derive(Clone, Copy, PartialEq, Eq, PartialOrd, Ord, Hash)]
        pub enum Reason {
            $(#[doc = $words] $name,)*
        }

        impl Reason {
            /// Every reason, in the order of the numbers.
            pub const ALL: &'static [Reason] = &[$(Reason::$name,)*];

            /// What it means, in words.
            pub fn words(self) -> &'static str {
                match self {
                    $(Reason::$name => $words,)*
                }
            }
        }
    };
}

reasons! {
    TextTooLong: "the text has over 16,777,216 bytes";
    ByteNotAllowed: "a byte is not allowed";
    KeywordUnknown: "the keyword is unknown";
    KnownAndRefused: "the keyword or the type is known and refused";
    WordCount: "the count of words";
    WordMalformed: "a word is malformed";
    OutOfRange: "a number, a degree or a smoothing is out of range";
    ReferenceToNothing: "a reference to nothing";
    PatternDiffers: "a corner's pattern differs from the first";
    NotAllowedHere: "the statement is not allowed here; the text ends in a body";
    TypeDegreeOrParm: "no type or degree (at the line of curv, curv2, surf), no parm (at end)";
    ControlCount: "control counts disagree";
    ParameterOrder: "parameter order or range, or a bspline's inner knot more than n times";
    TableLacksRoom: "a lent table lacks room";
    RecordsBreakRules: "a record of the element, names aside, or a vertex that it names breaks a rule or passes the used or lent entries; for a sweep any record, or runs of corners, parameters or loop parts that do not follow on";
    OutputLacksRoom: "the tidy text passes the lent buffer or 16,777,216 bytes (at place 0); a run or a polyline passes the lent point table, a sweep's new numbers the lent list";
    NoSuchElement: "no element of that number, or one of another kind";
    NotSampled: "the body is rational, cardinal or taylor; for a cubic in steps also of another type or degree";
    ParameterOutside: "a parameter outside start..end; a run of 0 or over 65,536 steps; a negative tolerance; no such step or segment of a cubic, or one outside start..end";
}

impl Reason {
    /// The number of refusal, 1 to 19.
    pub fn number(self) -> u32 {
        self as u32 + 1
    }

    /// The reason of that number; `None` for 0, which is no refusal, and for a number that is none.
    pub fn of(number: u32) -> Option<Reason> {
        Reason::ALL.get(number.checked_sub(1)? as usize).copied()
    }
}

/// A refusal of a text: why, and where.
#[derive(Clone, Copy, PartialEq, Eq)]
pub struct Refusal {
    /// Why.
    pub reason: Reason,
    /// Where, as a byte offset in the text; [`Refusal::position`] is its line and column.
    pub place: usize,
    /// How long a buffer the tidy text needs, where it has no room ([`Reason::OutputLacksRoom`]): over [`crate::MOST_BYTES`] where none has. Else 0.
    pub needed: usize,
}

/// Where a place stands for a person: line and column count from 1, columns in bytes; `start..end` is the line without its ending.
#[derive(Clone, Copy, Debug, PartialEq, Eq)]
pub struct Position {
    /// The line, from 1.
    pub line: usize,
    /// The column, from 1, in bytes.
    pub column: usize,
    /// Where the line starts, as a byte offset in the text.
    pub start: usize,
    /// Where the line ends, without its LF or CR LF.
    pub end: usize,
}

impl Refusal {
    /// A refusal at that place, of which no length is needed.
    pub fn new(reason: Reason, place: usize) -> Refusal {
        Refusal { reason, place, needed: 0 }
    }

    /// Line and column of the place in the text that was refused.
    pub fn position(&self, text: &[u8]) -> Position {
        position(text, self.place)
    }
}

impl fmt::Display for Reason {
    fn fmt(&self, f: &mut fmt::Formatter<'_>) -> fmt::Result {
        write!(f, "refused {}: {}", self.number(), self.words())
    }
}

impl fmt::Display for Refusal {
    fn fmt(&self, f: &mut fmt::Formatter<'_>) -> fmt::Result {
        write!(f, "refused {} at {}: {}", self.reason.number(), self.place, self.reason.words())
    }
}

// What a `main` that answers a `Result` prints is the error's Debug form, so that has the words too.
impl fmt::Debug for Reason {
    fn fmt(&self, f: &mut fmt::Formatter<'_>) -> fmt::Result {
        fmt::Display::fmt(self, f)
    }
}

impl fmt::Debug for Refusal {
    fn fmt(&self, f: &mut fmt::Formatter<'_>) -> fmt::Result {
        fmt::Display::fmt(self, f)
    }
}

impl std::error::Error for Reason {}

impl std::error::Error for Refusal {}

/// Line and column of a place in a text; a place past the end counts as the end. Lines end at LF, whether or not a backslash joins the next.
pub fn position(text: &[u8], place: usize) -> Position {
    let place = place.min(text.len());
    let before = &text[..place];
    let start = before.iter().rposition(|&b| b == b'\n').map_or(0, |at| at + 1);
    let line = before.iter().filter(|&&b| b == b'\n').count() + 1;
    let length = text[start..].iter().position(|&b| b == b'\n').unwrap_or(text.len() - start);
    let mut end = start + length;
    if end > place + 1 && text[end - 1] == b'\r' {
        end -= 1;
    }
    Position { line, column: place - start + 1, start, end }
}

#[cfg(test)]
mod tests {
    use super::*;

    #[test]
    fn words_are_those_of_the_document() {
        let document = include_str!("../../docs/REFUSALS.md");
        assert_eq!(Reason::ALL.len(), 19);
        for reason in Reason::ALL {
            let row = format!("| {} | {} |", reason.number(), reason.words());
            assert!(document.contains(&row), "docs/REFUSALS.md has no row {row}");
        }
    }

    #[test]
    fn every_number_is_that_of_its_reason() {
        assert_eq!((Reason::of(0), Reason::of(20)), (None, None));
        for reason in Reason::ALL {
            assert_eq!(Reason::of(reason.number()), Some(*reason));
        }
        assert_eq!(Reason::ReferenceToNothing.number(), 8);
    }

    #[test]
    fn a_place_is_a_line_and_a_column() {
        let text = b"v 0 0 0\nf 1 1 2\r\n";
        assert_eq!(position(text, 0), Position { line: 1, column: 1, start: 0, end: 7 });
        assert_eq!(position(text, 14), Position { line: 2, column: 7, start: 8, end: 15 });
        assert_eq!(position(text, 17), Position { line: 3, column: 1, start: 17, end: 17 });
        assert_eq!(position(b"", 0), Position { line: 1, column: 1, start: 0, end: 0 });
        assert_eq!(position(b"v\rx", 1), Position { line: 1, column: 2, start: 0, end: 3 });
        assert_eq!(position(b"v\r", 1), Position { line: 1, column: 2, start: 0, end: 2 });
    }

    #[test]
    fn a_refusal_reads_as_a_sentence() {
        let refusal = Refusal::new(Reason::ReferenceToNothing, 14);
        assert_eq!(refusal.to_string(), "refused 8 at 14: a reference to nothing");
        assert_eq!(format!("{refusal:?}"), refusal.to_string());
        assert_eq!(
            format!("{:?}", Reason::NoSuchElement),
            "refused 17: no element of that number, or one of another kind"
        );
    }
}
