//! The words of a call: its options, and the others in their order.
use crate::help::Command;
use crate::{decimal, Failure};
use std::ffi::{OsStr, OsString};
use std::num::IntErrorKind;

pub struct Arguments<'a> {
    pub command: &'static Command,
    options: Vec<(&'static str, Option<&'a OsStr>)>,
    // A path is any bytes that the system takes, so it goes as it came.
    pub others: Vec<&'a OsStr>,
}

/// The options of every command.
const COMMON: [&str; 2] = ["--quiet", "--help"];

impl<'a> Arguments<'a> {
    /// Options are the words that begin with two dashes, before or after the others; after `--` there are none.
    pub fn of(words: &'a [OsString]) -> Result<Arguments<'a>, Failure> {
        let mut ahead = words.iter().take_while(|word| *word != "--");
        let name = ahead.find(|word| !is_option(word)).ok_or_else(|| Failure::Usage("no command".into()))?;
        let shown = name.to_string_lossy();
        let command = Command::of(&shown).ok_or_else(|| Failure::Usage(format!("no command {shown}")))?;
        let mut arguments = Arguments { command, options: Vec::new(), others: Vec::new() };
        let mut rest = words.iter();
        while let Some(word) = rest.next() {
            if word == "--" {
                arguments.others.extend(rest.map(OsString::as_os_str));
                break;
            } else if is_option(word) {
                let option = arguments.option(&word.to_string_lossy(), &mut rest)?;
                arguments.options.push(option);
            } else {
                arguments.others.push(word);
            }
        }
        arguments.others.remove(0);
        Ok(arguments)
    }

    // An option of the command, with the word after it where it takes one.
    fn option(
        &self,
        word: &str,
        rest: &mut std::slice::Iter<'a, OsString>,
    ) -> Result<(&'static str, Option<&'a OsStr>), Failure> {
        if let Some(common) = COMMON.iter().find(|common| **common == word) {
            return Ok((common, None));
        }
        let known = self.command.options.iter().find(|option| option.name == word);
        let option = known.ok_or_else(|| Failure::Usage(format!("no option {word} of {}", self.command.name)))?;
        let lacks = || Failure::Usage(format!("{word} lacks its {}", option.value.unwrap_or("value")));
        let value = option.value.map(|_| rest.next().map(OsString::as_os_str).ok_or_else(lacks));
        Ok((option.name, value.transpose()?))
    }

    pub fn has(&self, option: &str) -> bool {
        self.options.iter().any(|(name, _)| *name == option)
    }

    /// What stands after that option.
    pub fn value(&self, option: &str) -> Option<&'a OsStr> {
        self.options.iter().find(|(name, _)| *name == option).and_then(|(_, value)| *value)
    }

    /// What is told where the words are not those of a form.
    pub fn misused(&self) -> Failure {
        Failure::Usage(self.command.takes())
    }
}

fn is_option(word: &OsStr) -> bool {
    word.to_string_lossy().starts_with("--")
}

pub fn number(name: &str, word: &OsStr) -> Result<u32, Failure> {
    let word = word.to_string_lossy();
    word.parse().map_err(|error: std::num::ParseIntError| {
        Failure::Usage(match error.kind() {
            IntErrorKind::PosOverflow => format!("{name} is too large: {word} is over {}", u32::MAX),
            _ => format!("{name} is a whole number, and not {word}"),
        })
    })
}

pub fn millionths(name: &str, word: &OsStr) -> Result<i32, Failure> {
    let word = word.to_string_lossy();
    decimal::millionths(&word).map_err(|wrong| Failure::Usage(format!("{name} {word}: {wrong}")))
}
