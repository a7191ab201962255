//! 2: the byte by its name.

// How many bytes of a file are looked at to see whether it is UTF-16.
const LOOKED_AT: usize = 64;

pub fn not_allowed(text: &[u8], place: usize) -> Option<String> {
    let byte = *text.get(place)?;
    Some(match byte {
        _ if place == 0 && text.starts_with(&[0xEF, 0xBB, 0xBF]) => {
            "a byte order mark (0xEF 0xBB 0xBF): the file has to be saved without it".into()
        }
        _ if place == 0 && (text.starts_with(&[0xFF, 0xFE]) || text.starts_with(&[0xFE, 0xFF])) => {
            "the file is UTF-16, by its byte order mark: it has to be saved as ASCII".into()
        }
        0 if every_other_is_nul(text) => "the file is UTF-16, two bytes a letter: it has to be saved as ASCII".into(),
        0 => "0x00, a NUL".into(),
        b'\r' => "a lone CR, with no LF after it: a line ends with LF or with CR LF".into(),
        b'\\' => {
            "a backslash that no line end follows: it joins the next line, and stands at its line's end alone".into()
        }
        128.. => format!("0x{byte:02X}{}: only printable ASCII stands outside of comments", letter(&text[place..])),
        _ => format!("0x{byte:02X}, a control byte: only printable ASCII stands outside of comments"),
    })
}

fn every_other_is_nul(text: &[u8]) -> bool {
    let front = &text[..text.len().min(LOOKED_AT)];
    let nul = |from: usize| front.iter().skip(from).step_by(2).all(|&byte| byte == 0);
    front.len() > 3 && (nul(0) || nul(1))
}

// The letter that the bytes begin with, if they are UTF-8.
fn letter(bytes: &[u8]) -> String {
    let front = &bytes[..bytes.len().min(4)];
    let whole = match std::str::from_utf8(front) {
        Ok(whole) => whole,
        Err(error) => std::str::from_utf8(&front[..error.valid_up_to()]).unwrap_or(""),
    };
    whole.chars().next().map_or(String::new(), |letter| format!(", of {letter} in UTF-8"))
}
