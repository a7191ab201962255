//! The command `kuhlabires`: checks, tidies and samples .obj files for a person at a terminal.
mod arguments;
mod check;
mod columns;
mod commands;
mod csv;
mod decimal;
mod elements;
mod help;
mod input;
mod points;
mod schema;
mod show;

use arguments::{millionths, number, Arguments};
use kuhlabires::Weights;
use std::env;
use std::ffi::{OsStr, OsString};
use std::fmt::Display;
use std::io::{self, BufWriter, Write};
use std::path::Path;
use std::process::ExitCode;

/// Why a command ends without its answer.
pub enum Failure {
    /// The file or the call was refused; what is told was written out already.
    Refused,
    /// One of several files could not be opened, as was told already.
    Unopened,
    Usage(String),
    Io(String),
    /// Nobody reads on, as behind `| head`.
    Closed,
}

impl From<io::Error> for Failure {
    fn from(error: io::Error) -> Failure {
        match error.kind() {
            io::ErrorKind::BrokenPipe => Failure::Closed,
            _ => Failure::Io(format!("standard output: {error}")),
        }
    }
}

/// Writes to standard error. Where that cannot be written nobody can be told, and the exit status alone says how it went.
pub fn tell(message: impl Display) {
    let _ = write!(io::stderr(), "{message}");
}

fn run(words: &[OsString], out: &mut dyn Write) -> Result<(), Failure> {
    match words {
        [word] if word == "--help" || word == "-h" || word == "help" => {
            return Ok(out.write_all(help::whole().as_bytes())?)
        }
        [word] if word == "--version" => {
            return Ok(writeln!(out, "{}", concat!("kuhlabires ", env!("CARGO_PKG_VERSION")))?)
        }
        _ => (),
    }
    let arguments = Arguments::of(words)?;
    if arguments.has("--help") {
        return Ok(out.write_all(arguments.command.help().as_bytes())?);
    }
    let told = !arguments.has("--quiet");
    let open = |file: &OsStr| input::open(file, told);
    match (arguments.command.name, &arguments.others[..]) {
        ("check", files @ [_, ..]) => check::check(files, told, out),
        ("tidy", [file]) => {
            let weights = if arguments.has("--weights") { Weights::Always } else { Weights::WhenNeeded };
            commands::tidy(open(file)?, weights, out)
        }
        ("elements", [file]) => elements::elements(open(file)?, out),
        ("show", [file]) => elements::show(open(file)?, out),
        ("sweep", [file]) => commands::sweep(open(file)?, out),
        ("points", [file, ..]) => {
            let asked = points::Asked::of(&arguments)?;
            points::points(open(file)?, &asked, out)
        }
        ("tables", [file]) => {
            let folder = arguments.value("--csv").ok_or_else(|| arguments.misused())?;
            csv::tables(open(file)?, Path::new(folder))
        }
        ("polyline", [file, element, tolerance]) => {
            let (element, tolerance) = (number("ELEMENT", element)?, millionths("TOLERANCE", tolerance)?);
            commands::polyline(open(file)?, element, tolerance, out)
        }
        ("cubic", [file, element]) => {
            let element = number("ELEMENT", element)?;
            commands::cubic(open(file)?, element, out)
        }
        _ => Err(arguments.misused()),
    }
}

fn main() -> ExitCode {
    let arguments: Vec<OsString> = env::args_os().skip(1).collect();
    let mut out = BufWriter::new(io::stdout().lock());
    let ended = run(&arguments, &mut out);
    let flushed = out.flush().map_err(Failure::from);
    if let (Err(Failure::Refused | Failure::Unopened), Err(Failure::Io(message))) = (&ended, &flushed) {
        tell(format_args!("kuhlabires: {message}\n"));
    }
    match ended.and(flushed) {
        Ok(()) | Err(Failure::Closed) => ExitCode::SUCCESS,
        Err(Failure::Refused) => ExitCode::from(1),
        Err(Failure::Unopened) => ExitCode::from(2),
        Err(Failure::Usage(message)) => {
            tell(format_args!("kuhlabires: {message}; see kuhlabires --help\n"));
            ExitCode::from(2)
        }
        Err(Failure::Io(message)) => {
            tell(format_args!("kuhlabires: {message}\n"));
            ExitCode::from(2)
        }
    }
}
