//! The spellings of keywords and of the fixed words after them, asked of the library's one table; `docs/KEYWORDS.md` lists the rows.
use crate::raw;
use std::sync::OnceLock;

// No spelling is longer.
const LONGEST: usize = 10;

// The spellings of a table, row by row: a row that is not there has none.
fn all(spelling: fn(usize, &mut [u8]) -> usize) -> Vec<String> {
    let mut out = [0; LONGEST];
    let mut words = Vec::new();
    loop {
        let length = spelling(words.len(), &mut out);
        if length == 0 {
            return words;
        }
        words.push(String::from_utf8_lossy(&out[..length]).into_owned());
    }
}

/// Every keyword, in the appendix's order.
pub fn keywords() -> &'static [String] {
    static WORDS: OnceLock<Vec<String>> = OnceLock::new();
    WORDS.get_or_init(|| all(raw::keyword))
}

/// The fixed words after a keyword, as the appendix comes to them.
pub fn arguments() -> &'static [String] {
    static WORDS: OnceLock<Vec<String>> = OnceLock::new();
    WORDS.get_or_init(|| all(raw::argument))
}

/// The keywords besides those of elements (`Kind::keyword`) that host/ names, each by its row.
#[derive(Clone, Copy)]
pub enum Keyword {
    V = 0,
    Vt = 1,
    Vn = 2,
    Vp = 3,
    Cstype = 4,
    Deg = 5,
    Parm = 14,
    End = 19,
}

impl Keyword {
    pub fn word(self) -> &'static str {
        &keywords()[self as usize]
    }
}

/// The fixed words besides the types (`Basis::word`) that host/ names, each by its row.
#[derive(Clone, Copy)]
pub enum Argument {
    Rat = 0,
    U = 6,
    V = 7,
    Off = 8,
}

impl Argument {
    pub fn word(self) -> &'static str {
        &arguments()[self as usize]
    }
}

#[cfg(test)]
mod tests {
    use super::*;

    #[test]
    fn every_row_has_its_spelling() {
        assert_eq!((keywords().len(), arguments().len()), (44, 9));
        assert_eq!(
            (keywords()[0].as_str(), keywords()[31].as_str(), keywords()[43].as_str()),
            ("v", "shadow_obj", "res")
        );
        assert_eq!((arguments()[0].as_str(), arguments()[8].as_str()), ("rat", "off"));
        assert_eq!(raw::keyword(31, &mut [0; LONGEST - 1]), 0);
    }

    #[test]
    fn every_name_is_that_of_its_row() {
        use Keyword::*;
        let words = [V, Vt, Vn, Vp, Cstype, Deg, Parm, End].map(Keyword::word);
        assert_eq!(words, ["v", "vt", "vn", "vp", "cstype", "deg", "parm", "end"]);
        let words = [Argument::Rat, Argument::U, Argument::V, Argument::Off].map(Argument::word);
        assert_eq!(words, ["rat", "u", "v", "off"]);
    }
}
