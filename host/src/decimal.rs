//! A number of units on the command line, as points are written: `0.0005` is 500 millionths.

const DECIMALS: usize = 6;

/// The number of millionths; else what is wrong with the word.
pub fn millionths(word: &str) -> Result<i32, &'static str> {
    let (sign, size) = match word.as_bytes() {
        [b'-', ..] => (-1, &word[1..]),
        [b'+', ..] => (1, &word[1..]),
        _ => (1, word),
    };
    let (whole, decimals) = size.split_once('.').unwrap_or((size, ""));
    if !format!("{whole}{decimals}").bytes().all(|b| b.is_ascii_digit()) || whole.len() + decimals.len() == 0 {
        return Err("not a number");
    }
    if decimals.len() > DECIMALS {
        return Err("more than six decimals");
    }
    let digits = format!("{whole}{decimals:0<DECIMALS$}");
    let number = digits.parse::<i64>().ok().and_then(|size| i32::try_from(sign * size).ok());
    number.ok_or("out of range, -2147.483648 to 2147.483647")
}

#[cfg(test)]
mod tests {
    use super::millionths;

    #[test]
    fn units_with_decimals_are_millionths() {
        let words = [
            ("0.0005", 500),
            ("0", 0),
            ("-0", 0),
            ("1", 1_000_000),
            ("+.5", 500_000),
            ("5.", 5_000_000),
            ("-0.000001", -1),
        ];
        for (word, number) in words {
            assert_eq!(millionths(word), Ok(number), "{word}");
        }
        assert_eq!(millionths("2147.483647"), Ok(i32::MAX));
        assert_eq!(millionths("-2147.483648"), Ok(i32::MIN));
        assert_eq!(millionths("00000000000000.000001"), Ok(1));
    }

    #[test]
    fn what_is_wrong_is_told() {
        for word in ["", ".", "-", "+.", "1e3", "0,5", "--1", "+-1", "1.2.3", " 1", "nan", "½"] {
            assert_eq!(millionths(word), Err("not a number"), "{word}");
        }
        for word in ["0.0000005", "0.0000000", "9999.1234567"] {
            assert_eq!(millionths(word), Err("more than six decimals"), "{word}");
        }
        for word in ["2147.483648", "-2147.483649", "99999999999999999999999999"] {
            assert_eq!(millionths(word), Err("out of range, -2147.483648 to 2147.483647"), "{word}");
        }
    }
}
