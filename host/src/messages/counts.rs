//! 5: how many words a keyword takes, and how many follow it.
use super::forms::directions;
use super::line::Line;
use super::thousands;
use crate::words::{Argument, Keyword};
use crate::{rules_of_keyword, Form, Kind, RuleRow, MOST_BYTES};

pub fn said(line: &Line) -> String {
    let keyword = line.keyword();
    let rules = rules_of_keyword(line.keyword_bytes(), line.advice.words, 0);
    let given = thousands(line.advice.words);
    let coloured = keyword == Keyword::V.word() && matches!(line.advice.words, 6 | 7);
    let note = if coloured { " (colours are not read)" } else { "" };
    format!("{keyword} takes {}, this line has {given}{note}", taken(line, rules))
}

fn taken(line: &Line, rules: RuleRow) -> String {
    let many = |number: usize| if number == 0 { "no".to_string() } else { thousands(number) };
    if rules.multiple > 1 {
        return format!("{} words or a multiple, two numbers and a {} each", rules.multiple, Kind::Curv2.keyword());
    }
    let last = rules_of_keyword(line.keyword_bytes(), rules.least.max(1), rules.least.max(1) - 1);
    let before = rules_of_keyword(line.keyword_bytes(), rules.least.max(1), 0).form();
    let what = match (before, last.form()) {
        (Form::Smoothing, _) => return format!("a number or {}", Argument::Off.word()),
        (Form::Direction, _) => return format!("{} or more words, {} and then numbers", rules.least, directions()),
        (Form::Number, Form::Number) => "number",
        (Form::Number, _) => return format!("{} or more words, its range and then its controls", rules.least),
        (Form::Vertex | Form::Texture | Form::Corner, _) => "corner",
        (Form::Control, _) => "control",
        (Form::Degree, _) => "degree",
        (Form::Name, _) => "name",
        (Form::Type | Form::Rational, _) => return format!("a type, or {} and a type", Argument::Rat.word()),
        _ => "word",
    };
    let s = |number: usize| if number == 1 { "" } else { "s" };
    match (rules.least, rules.most) {
        (least, MOST_BYTES) => format!("{} or more {what}s", many(least)),
        (least, most) if least == most => format!("{} {what}{}", many(least), s(least)),
        (least, most) if least + 1 == most => format!("{} or {} {what}s", many(least), many(most)),
        (least, most) => format!("{} to {} {what}s", many(least), many(most)),
    }
}
