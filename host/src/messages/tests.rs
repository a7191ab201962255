use super::*;
use crate::{explain, read, rules_of_keyword, Form, RuleRow, Tally};

fn told(text: &[u8]) -> String {
    let refusal = read(text, &mut Tables::for_text(text)).unwrap_err();
    message(text, refusal).unwrap_or_default()
}

#[test]
fn each_encoding_is_named() {
    assert_eq!(
        told(b"\xEF\xBB\xBFv 0 0 0\n"),
        "a byte order mark (0xEF 0xBB 0xBF): the file has to be saved without it"
    );
    assert!(told(b"\xFF\xFEv\0 \x000\0").starts_with("the file is UTF-16, by its byte order mark"));
    assert!(told(b"v\0 \x000\0 \0").starts_with("the file is UTF-16, two bytes a letter"));
    assert_eq!(told(b"v 0 0 0\nv 0 0\0"), "0x00, a NUL");
    assert_eq!(told(b"g \xE6\n"), "0xE6: only printable ASCII stands outside of comments");
    assert_eq!(told("g æ\n".as_bytes()), "0xC3, of æ in UTF-8: only printable ASCII stands outside of comments");
    assert!(told(b"v 0 0 0\rv 0 0 0\r").starts_with("a lone CR"));
}

#[test]
fn words_are_held_against_the_rules() {
    assert_eq!(told(b"v 0 0 0 1 1 1\n"), "v takes 3 or 4 numbers, this line has 6 (colours are not read)");
    assert_eq!(told(b"s\n"), "s takes a number or off, this line has 0");
    assert_eq!(told(b"v 0,5 0 0\n"), "0,5 is no number: a point, not a comma");
    assert_eq!(told(b"v 0 0 0\nf 1 1 1/\n"), "1/ has no texture number after the slash");
    assert_eq!(told(b"v 0 0 3000\n"), "3000 is out of range: a number is -2000 to 2000");
    assert_eq!(told(b"deg 21\n"), "a degree is 1 to 20, and not 21");
    assert_eq!(told(b"s 65536\n"), "a smoothing number is 0 to 65,535, and not 65536");
}

#[test]
fn a_table_that_lacks_room_is_named() {
    let text = b"v 0 0 0\nv 0 0 0\nf 1 1 2\n";
    let mut tables = Tables::for_text(text);
    tables.v.truncate(4);
    let refusal = read(text, &mut tables).unwrap_err();
    assert_eq!((refusal.reason, refusal.place), (Reason::TableLacksRoom, 8));
    assert_eq!(lacking(text, &tables), Some("v has 4 entries, the text can need 8".into()));
    assert_eq!(lacking(text, &Tables::for_text(text)), None);
    assert_eq!(message(text, refusal), None);
}

#[test]
fn what_the_lines_before_say_is_counted() {
    let text = b"v 0 0 0\nv 1 0 0\nvp 0 0\ncstype bezier\ndeg 1\ncurv 0 1 1 2\nparm u 0 1\nv 0 0 0\n";
    let refusal = read(text, &mut Tables::for_text(text)).unwrap_err();
    let advice = explain(text, refusal.place);
    assert_eq!(advice.tally, Tally { v: 2, vt: 0, vn: 0, vp: 1, curves: 0, kind: 4, opened: 43 });
    assert_eq!((advice.key, advice.words, advice.controls), (67, 3, 2));
    assert_eq!((advice.basis, advice.degree_u, advice.u.parameters, advice.u.controls), (1, 1, 2, 2));
    assert_eq!(explain(b"", 7).tally, Tally::default());
}

#[test]
fn a_keywords_rules_are_its_row() {
    let v = rules_of_keyword(b"v", 3, 0);
    let limits = (-2_000_000_000, 2_000_000_000);
    assert_eq!(v, RuleRow { standing: 0, least: 3, most: 4, multiple: 1, form: 1, low: limits.0, high: limits.1 });
    let trim = rules_of_keyword(b"trim 0 1 1", 3, 2);
    assert_eq!((trim.standing, trim.least, trim.most, trim.multiple), (2, 3, MOST_BYTES, 3));
    assert_eq!((trim.form(), rules_of_keyword(b"curv", 4, 2).form()), (Form::Curve, Form::Vertex));
    assert_eq!(rules_of_keyword(b"no", 4, 2).form(), Form::Anything);
}

// Texts that differ from good ones by a few bytes: each refusal but 1 has its message, of one line.
#[test]
fn every_refusal_has_a_message() {
    let whole: &[u8] = b"v 0 0 0\nvt 1\nvn 0 0 1\nvp 0 0\nvp 1 0\ng a b\ns off\nf 1/1/1 1/1/1 1/1/1\ncstype bspline\ndeg 1 1\n\
        curv2 1 2\nparm u 0 0 1 1\nend\nsurf 0 1 0 1 1 1 1 -1\nparm u 0 0 1 1\nparm v 0 0 1 1\ntrim 0 1 1\nend\nl 1 \\\n 1\n";
    let bytes = b"\n \\#/-+.,0129eabmprtuv\r\x00\xC3\xA6";
    let mut seed: u32 = 2026;
    let mut next = |below: usize| {
        seed = seed.wrapping_mul(1_664_525).wrapping_add(1_013_904_223);
        (seed >> 8) as usize % below
    };
    for _ in 0..20_000 {
        let mut text = whole.to_vec();
        for _ in 0..=next(3) {
            let at = next(text.len());
            match next(3) {
                0 => text[at] = bytes[next(bytes.len())],
                1 => text.insert(at, bytes[next(bytes.len())]),
                _ => drop(text.remove(at)),
            }
        }
        if let Err(refusal) = read(&text, &mut Tables::for_text(&text)) {
            let told = message(&text, refusal).unwrap_or_default();
            assert!(!told.is_empty() && !told.contains('\n'), "{refusal}: {told:?}");
        }
    }
    for place in [0, 7, whole.len(), usize::MAX] {
        for &reason in Reason::ALL {
            message(whole, Refusal::new(reason, place));
        }
    }
}
