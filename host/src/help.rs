//! The commands: what each takes and gives. The whole help and each command's own are printed from this one table.

/// A command, with every form of its call.
pub struct Command {
    pub name: &'static str,
    /// The words after the name, and what they give, line by line.
    forms: &'static [(&'static str, &'static str)],
    pub options: &'static [Choice],
    /// What its words mean and what it writes, beside the notes of all commands.
    notes: &'static [&'static str],
}

/// An option of a command.
pub struct Choice {
    pub name: &'static str,
    /// The word that follows it, where one does.
    pub value: Option<&'static str>,
    about: &'static str,
}

const fn choice(name: &'static str, about: &'static str) -> Choice {
    Choice { name, value: None, about }
}

const ELEMENT: &str = "ELEMENT is a number as `elements` lists it.";

pub const COMMANDS: &[Command] = &[
    Command {
        name: "check",
        forms: &[("FILE..", "whether each file is read, and what it holds; of several files, then\n\
                 how many are read, and each refusal with the first file that has it")],
        options: &[],
        notes: &[],
    },
    Command {
        name: "tidy",
        forms: &[("FILE", "its tidy text")],
        options: &[choice("--weights", "with the w of every v, 1.000000 too")],
        notes: &[],
    },
    Command { name: "elements", forms: &[("FILE", "its elements, one a line")], options: &[], notes: &[] },
    Command {
        name: "show",
        forms: &[("FILE", "the same, below each p, l and f its corners with their coordinates,\n\
                 below each surf its loops with their curves")],
        options: &[],
        notes: &[],
    },
    Command {
        name: "points",
        forms: &[
            ("FILE ELEMENT STEPS [STEPS]", "points of a curv, curv2 or surf: STEPS steps from its start to its\n\
                 end, on a surf along u, and along v as many or the second STEPS"),
            ("FILE ELEMENT --at T", "the point of a curv or curv2 at the parameter T"),
            ("FILE ELEMENT --at S T", "the point of a surf at S along u and T along v"),
            ("FILE all STEPS", "points of every curv and curv2, each after a comment with its number"),
        ],
        options: &[
            choice("--csv", "values between commas, after a line that names them"),
            choice("--json", "an array of objects"),
            choice("--parameter", "the parameter t before each point, on a surf u and v"),
            choice("--at", "one point, as above"),
        ],
        notes: &[
            ELEMENT,
            "STEPS is 1 to 65536. S and T have at most six decimals.",
            "Points are written one a line, x y z, for a curv2 u v; those of a surf row by row, u varying fastest, a blank\n\
                 line between rows.",
        ],
    },
    Command {
        name: "polyline",
        forms: &[("FILE ELEMENT TOLERANCE", "few points of a curv or curv2 where it is straight: an interval is\n\
                 halved, at most 12 times, until its middle lies that near to the chord")],
        options: &[],
        notes: &[ELEMENT, "TOLERANCE has at most six decimals, in the units of the file: 0.0005 is 500 millionths."],
    },
    Command {
        name: "cubic",
        forms: &[("FILE ELEMENT", "points of a curv or curv2 that is a cubic bezier: the 64 steps of each\n\
                 segment inside its range, each after the segment, from 0, and the step")],
        options: &[],
        notes: &[ELEMENT],
    },
    Command {
        name: "tables",
        forms: &[("FILE --csv DIR", "its tables as DIR/v.csv and so on, a record a line, after one that names\n\
                 the columns; DIR/schema.sql makes them in a database, DIR/load.sql loads\n\
                 all into a new one of SQLite: cd DIR && sqlite3 part.db < load.sql")],
        options: &[Choice { name: "--csv", value: Some("DIR"), about: "the folder; it is made where it is not there" }],
        notes: &[],
    },
    Command {
        name: "sweep",
        forms: &[("FILE", "how many v, vt, vn and vp no corner names, and which: those that the\n\
                 retention sweep drops")],
        options: &[],
        notes: &[],
    },
];

const TITLE: &str = "kuhlabires: reads, tidies and samples Wavefront .obj files";

const NOTES: &str = "\
FILE is a path, or - for standard input. After -- no word is an option, so that a FILE may begin with dashes.
Where standard error is a terminal, it is told there that a large file is worked on; with --quiet it is not.
The exit status is 0; 1 where a file or the call is refused; 2 for bad usage or a file that cannot be opened.
";

// The column at which it is said what a form gives.
const COLUMN: usize = 48;

impl Command {
    pub fn of(name: &str) -> Option<&'static Command> {
        COMMANDS.iter().find(|command| command.name == name)
    }

    /// What it takes, as bad usage is told.
    pub fn takes(&self) -> String {
        let forms: Vec<&str> = self.forms.iter().map(|(words, _)| *words).collect();
        format!("{} takes {}", self.name, forms.join(", or "))
    }

    fn rows(&self) -> String {
        let mut rows = String::new();
        for (words, about) in self.forms {
            rows += &row(&format!("    kuhlabires {} {words}", self.name), about);
        }
        for option in self.options {
            let value = option.value.map_or(String::new(), |value| format!(" {value}"));
            rows += &row(&format!("        {}{value}", option.name), option.about);
        }
        rows
    }

    /// The part of the help that is about this command.
    pub fn help(&self) -> String {
        format!("{}\n{}{NOTES}", self.rows(), lines(self.notes))
    }
}

// What is said stands from the column on, below the words where they reach that far.
fn row(words: &str, about: &str) -> String {
    let mut lines = about.lines();
    let mut shown = if words.len() < COLUMN {
        format!("{words:COLUMN$}{}\n", lines.next().unwrap_or(""))
    } else {
        format!("{words}\n")
    };
    for line in lines {
        shown += &format!("{:COLUMN$}{line}\n", "");
    }
    shown
}

fn lines(notes: &[&str]) -> String {
    notes.iter().map(|note| format!("{note}\n")).collect()
}

/// The whole help. A note of several commands stands in it once.
pub fn whole() -> String {
    let rows: String = COMMANDS.iter().map(Command::rows).collect();
    let mut notes: Vec<&str> = Vec::new();
    for note in COMMANDS.iter().flat_map(|command| command.notes) {
        if !notes.contains(note) {
            notes.push(note);
        }
    }
    let about = row("    kuhlabires COMMAND --help", "the part about one command");
    let version = row("    kuhlabires --version", "");
    format!("{TITLE}\n\n{rows}{about}{}\n\n{}{NOTES}", version.trim_end(), lines(&notes))
}

#[cfg(test)]
mod tests {
    use super::*;

    #[test]
    fn the_whole_help_has_every_commands_own() {
        for command in COMMANDS {
            assert!(whole().contains(&command.rows()), "{}", command.name);
            assert!(command.notes.iter().all(|note| whole().matches(note).count() == 1), "{}", command.name);
            assert!(command.help().contains(&format!("kuhlabires {} FILE", command.name)), "{}", command.help());
        }
    }

    #[test]
    fn no_line_is_too_wide() {
        for line in whole().lines() {
            assert!(line.len() <= 120, "{line}");
        }
    }
}
