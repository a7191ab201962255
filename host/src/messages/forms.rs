//! 6, 7, 8 and 9: a word and the form that it has to have.
use super::line::{shown, types, words_from, Line};
use super::{list, thousands};
use crate::words::{Argument, Keyword};
use crate::{Decimal, Form, Kind};

pub fn malformed(line: &Line) -> String {
    let (word, keyword, rules) = (line.word(), line.keyword(), line.rules());
    match rules.form() {
        Form::Number => number(line.bytes()),
        Form::Vertex | Form::Texture | Form::Corner => corner(line, rules.form()),
        Form::Control => reference(line.bytes(), Keyword::Vp.word()),
        Form::Curve => reference(line.bytes(), Kind::Curv2.keyword()),
        Form::Direction => format!("{keyword} takes {} first, and not {word}", directions()),
        Form::Type => format!("{word} is no type: {} are", list(&types(), "and")),
        Form::Rational => format!("of two words {keyword} takes {} first, and not {word}", Argument::Rat.word()),
        Form::Degree => format!("{word} is no degree: {} to {}, in digits alone", rules.low, rules.high),
        Form::Smoothing => format!("{keyword} takes a number or {}, and not {word}", Argument::Off.word()),
        Form::Name => format!("a name has at most {} bytes, this has {}", rules.high, thousands(line.bytes().len())),
        Form::Anything => format!("{word} is malformed"),
    }
}

/// What a parm begins with.
pub fn directions() -> String {
    list(&[Argument::U.word(), Argument::V.word()], "or")
}

fn number(word: &[u8]) -> String {
    let name = shown(word);
    let has_point_for = |comma: u8| {
        let swapped: Vec<u8> = word.iter().map(|&byte| if byte == comma { b'.' } else { byte }).collect();
        word.contains(&comma) && is_decimal(&swapped)
    };
    if has_point_for(b',') {
        return format!("{name} is no number: a point, not a comma");
    }
    let mantissa = word.split(|byte| b"eE".contains(byte)).next().unwrap_or(word);
    let exponent = word.get(mantissa.len() + 1..);
    if is_decimal(mantissa) && exponent.map_or(true, |digits| is_whole(unsigned(digits))) {
        let what = if exponent.is_some() { "it or its exponent" } else { "it" };
        return format!("{name} is no number: {what} is too long");
    }
    if word.contains(&b'/') {
        return format!("{name} is no number but a corner");
    }
    format!("{name} is no number")
}

fn unsigned(word: &[u8]) -> &[u8] {
    word.strip_prefix(b"-").or(word.strip_prefix(b"+")).unwrap_or(word)
}

fn is_whole(digits: &[u8]) -> bool {
    !digits.is_empty() && digits.iter().all(u8::is_ascii_digit)
}

// Digits with at most one point, whatever their sign.
fn is_decimal(word: &[u8]) -> bool {
    let digits: Vec<u8> = unsigned(word).iter().copied().filter(|&byte| byte != b'.').collect();
    is_whole(&digits) && word.iter().filter(|&&byte| byte == b'.').count() <= 1
}

// What a reference lacks.
fn reference(part: &[u8], kind: &str) -> String {
    let name = shown(part);
    let digits = part.strip_prefix(b"-").unwrap_or(part);
    if part.starts_with(b"+") {
        return format!("{name} names no {kind}: a reference has no plus");
    }
    if is_whole(digits) {
        return format!("{name} names no {kind}: {} digits are too many", digits.len());
    }
    format!("{name} names no {kind}: a reference is a whole number")
}

// The keywords of what a corner's parts refer to.
fn part_keywords() -> [&'static str; 3] {
    [Keyword::V, Keyword::Vt, Keyword::Vn].map(Keyword::word)
}

// A corner's pattern, as v//vn of 1//2.
fn pattern(parts: &[&[u8]]) -> String {
    let named = parts.iter().zip(part_keywords());
    named.map(|(part, keyword)| if part.is_empty() { "" } else { keyword }).collect::<Vec<_>>().join("/")
}

// The patterns that a form allows.
fn patterns(form: Form) -> Vec<String> {
    let all: [&[u8]; 4] = [b"1", b"1/1", b"1//1", b"1/1/1"];
    let many = match form {
        Form::Vertex => 1,
        Form::Texture => 2,
        _ => 4,
    };
    all[..many].iter().map(|corner| pattern(&parts_of(corner))).collect()
}

fn parts_of(word: &[u8]) -> Vec<&[u8]> {
    word.split(|&byte| byte == b'/').collect()
}

fn corner(line: &Line, form: Form) -> String {
    let (word, parts) = (line.word(), parts_of(line.bytes()));
    let allowed = patterns(form);
    if parts.len() > 3 {
        return format!("{word} has {} parts, and a corner at most three", parts.len());
    }
    if parts[0].is_empty() {
        return format!("{word} has no vertex number");
    }
    if parts.last().is_some_and(|part| part.is_empty()) {
        let which =
            if parts.len() == 2 { "texture number after the slash" } else { "normal number after the last slash" };
        return format!("{word} has no {which}");
    }
    if !allowed.contains(&pattern(&parts)) {
        let allowed: Vec<&str> = allowed.iter().map(String::as_str).collect();
        return format!("{} takes corners of {}, and not {word}", line.keyword(), list(&allowed, "or"));
    }
    // What is left has a part that is no whole number, or one of too many digits.
    let named: Vec<(&[u8], &str)> =
        parts.into_iter().zip(part_keywords()).filter(|(part, _)| !part.is_empty()).collect();
    let wrong = named
        .iter()
        .find(|(part, _)| !is_whole(part.strip_prefix(b"-").unwrap_or(part)))
        .or(named.iter().max_by_key(|(part, _)| part.len()));
    let (part, kind) = wrong.copied().unwrap_or((line.bytes(), Keyword::V.word()));
    reference(part, kind)
}

pub fn out_of_range(line: &Line) -> String {
    let (word, rules) = (line.word(), line.rules());
    let (low, high) = (rules.low, rules.high);
    let units =
        |millionths: i32| Decimal(millionths).to_string().trim_end_matches('0').trim_end_matches('.').to_string();
    match rules.form() {
        Form::Degree => format!("a degree is {low} to {high}, and not {word}"),
        Form::Smoothing => format!("a smoothing number is {low} to {}, and not {word}", thousands(high as usize)),
        _ => format!("{word} is out of range: a number is {} to {}", units(low), units(high)),
    }
}

// Of a corner the first part that names nothing.
pub fn missing(line: &Line) -> String {
    let tally = line.advice.tally;
    let asked: Vec<(&[u8], &str, u32)> = match line.rules().form() {
        Form::Control => vec![(line.bytes(), Keyword::Vp.word(), tally.vp)],
        Form::Curve => vec![(line.bytes(), Kind::Curv2.keyword(), tally.curves)],
        _ => {
            let kinds = part_keywords().into_iter().zip([tally.v, tally.vt, tally.vn]);
            parts_of(line.bytes()).into_iter().zip(kinds).map(|(part, (kind, many))| (part, kind, many)).collect()
        }
    };
    for (part, kind, many) in asked {
        let digits = part.strip_prefix(b"-").unwrap_or(part);
        let number: u64 = String::from_utf8_lossy(digits).parse().unwrap_or(0);
        if !part.is_empty() && (number == 0 || number > many as u64) {
            return nothing_there(&shown(part), kind, number, many);
        }
    }
    format!("{} names nothing", line.word())
}

fn nothing_there(part: &str, kind: &str, number: u64, many: u32) -> String {
    if number == 0 {
        return format!("{part} names no {kind}: they count from 1");
    }
    let (are, many) = if many == 1 { ("is", "1".to_string()) } else { ("are", thousands(many as usize)) };
    let many = if many == "0" { "no".to_string() } else { many };
    let ended = if kind == Kind::Curv2.keyword() { " with an end" } else { "" };
    format!("there is no {kind} {part}: there {are} {many} {kind}{ended} so far")
}

// The first corner of the line is its first word of that form.
pub fn unlike(line: &Line) -> String {
    let range = (0..line.advice.words)
        .find(|&index| crate::rules_of_keyword(line.keyword_bytes(), line.advice.words, index).form() != Form::Number)
        .unwrap_or(0);
    let first = words_from(line.text, line.advice.key).nth(range + 1).unwrap_or(&[]);
    let (was, is) = (pattern(&parts_of(first)), pattern(&parts_of(line.bytes())));
    format!("{} is {is}, and the line's first corner, {}, is {was}", line.word(), shown(first))
}
