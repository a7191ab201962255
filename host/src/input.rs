//! A file that is worked on: opened, read into tables, and told of.
use crate::{show, tell, Failure};
use kuhlabires::{Reason, Refusal, Tables, MOST_BYTES};
use std::ffi::OsStr;
use std::fs::File;
use std::io::{self, Read};
use std::path::Path;
use std::time::Instant;

// Files over this many bytes are told of on a terminal while they are worked on.
const LARGE: usize = 1_000_000;

pub struct Input {
    pub name: String,
    pub text: Vec<u8>,
    // Of a text that is cut off, the file's size where the system knows it.
    size: Option<u64>,
    told: bool,
}

impl Input {
    /// How many bytes there are, as a person is told.
    pub fn bytes(&self) -> String {
        match self.size {
            Some(size) => format!("{} bytes", show::thousands(size as usize)),
            None if MOST_BYTES < self.text.len() => format!("over {} bytes", show::thousands(MOST_BYTES)),
            None => format!("{} bytes", show::thousands(self.text.len())),
        }
    }
}

/// The text of a file, or of standard input for -: at most a byte more than is ever read, since what is longer is refused whatever it says.
/// Where `told`, work on it is told of on a terminal.
pub fn open(file: &OsStr, told: bool) -> Result<Input, Failure> {
    let most = MOST_BYTES as u64 + 1;
    let (mut text, mut size) = (Vec::new(), None);
    let (name, taken) = if file == "-" {
        ("standard input".into(), io::stdin().lock().take(most).read_to_end(&mut text))
    } else {
        let taken = File::open(file).and_then(|opened| {
            size =
                opened.metadata().ok().filter(|about| about.is_file() && most <= about.len()).map(|about| about.len());
            opened.take(most).read_to_end(&mut text)
        });
        (Path::new(file).display().to_string(), taken)
    };
    match taken {
        Ok(_) => Ok(Input { name, text, size, told: told && is_terminal() }),
        Err(error) => Err(Failure::Io(format!("{name}: {error}"))),
    }
}

// Whether standard error is a terminal.
fn is_terminal() -> bool {
    extern "C" {
        fn isatty(descriptor: std::os::raw::c_int) -> std::os::raw::c_int;
    }
    // SAFETY: the C library's isatty takes any number and keeps nothing.
    unsafe { isatty(2) == 1 }
}

/// Works on a text, and says so on a terminal where that may take a while.
pub fn told<T>(input: &Input, doing: &str, work: impl FnOnce() -> T) -> T {
    if !input.told || input.text.len() <= LARGE {
        return work();
    }
    tell(format_args!("{doing} {}, {} ..\n", input.name, input.bytes()));
    let start = Instant::now();
    let answer = work();
    tell(format_args!("{doing} took {:.2} s\n", start.elapsed().as_secs_f64()));
    answer
}

/// Tells of a refusal of the text.
pub fn refused(input: &Input, refusal: Refusal) -> Failure {
    let shown = show::refusal(&input.name, &input.text, refusal);
    match (refusal.reason, input.size) {
        (Reason::TextTooLong, Some(_)) => tell(format_args!("{}: {}\n", shown.trim_end(), input.bytes())),
        _ => tell(shown),
    }
    Failure::Refused
}

/// The tables of a text, or its refusal, of which nothing is told yet.
pub fn tables(input: &Input) -> Result<Tables, Refusal> {
    told(input, "reading", || Tables::read(&input.text))
}

pub fn tables_of(input: &Input) -> Result<Tables, Failure> {
    tables(input).map_err(|refusal| refused(input, refusal))
}
