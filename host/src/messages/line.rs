//! The line that a refusal stands in: its keyword, its words, and what the library tells of it.
use crate::{explain, rules_of_keyword, Advice, Basis, RuleRow};

// No word is shown longer.
const LONGEST: usize = 40;

pub struct Line<'a> {
    pub text: &'a [u8],
    /// The place of the refusal.
    pub at: usize,
    pub advice: Advice,
}

// A word byte: 33 to 126 but for the backslash.
fn is_word(byte: u8) -> bool {
    matches!(byte, 33..=126) && byte != b'\\'
}

/// The words from a place on, of a line that has as many: what stands between them is blanks and joins.
pub fn words_from(text: &[u8], place: usize) -> impl Iterator<Item = &[u8]> {
    text.get(place..).unwrap_or(&[]).split(|&byte| !is_word(byte)).filter(|word| !word.is_empty())
}

pub fn shown(word: &[u8]) -> String {
    let whole = String::from_utf8_lossy(&word[..word.len().min(LONGEST)]);
    if word.len() > LONGEST {
        return format!("{whole}..");
    }
    whole.into_owned()
}

/// The types that are carried, in the order of their numbers, 1 to 4.
pub fn types() -> Vec<&'static str> {
    Basis::ALL.iter().map(|basis| basis.word()).collect()
}

impl<'a> Line<'a> {
    pub fn of(text: &'a [u8], place: usize) -> Line<'a> {
        Line { text, at: place.min(text.len()), advice: explain(text, place) }
    }

    pub fn keyword_bytes(&self) -> &'a [u8] {
        words_from(self.text, self.advice.key).next().unwrap_or(&[])
    }

    pub fn keyword(&self) -> String {
        shown(self.keyword_bytes())
    }

    /// The bytes of the word at the place.
    pub fn bytes(&self) -> &'a [u8] {
        words_from(self.text, self.at).next().unwrap_or(&[])
    }

    pub fn word(&self) -> String {
        shown(self.bytes())
    }

    /// Which word after the keyword stands at the place, from 0.
    pub fn index(&self) -> usize {
        words_from(&self.text[..self.at], self.advice.key).count().saturating_sub(1)
    }

    /// The rules of the keyword, and of the word at the place.
    pub fn rules(&self) -> RuleRow {
        rules_of_keyword(self.keyword_bytes(), self.advice.words, self.index())
    }
}
