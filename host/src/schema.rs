//! The eleven tables as a database has them: the columns of `tables`, and the SQL that makes and loads them.

/// A table and its columns, each with what SQL has to know of it. One that may lack a value does not say NOT NULL.
pub struct Table {
    pub name: &'static str,
    pub columns: &'static [(&'static str, &'static str)],
}

const NUMBER: (&str, &str) = ("number", "INTEGER PRIMARY KEY");
const BODY: (&str, &str) = ("body", "INTEGER NOT NULL REFERENCES bodies (number)");
const MILLIONTHS: &str = "DECIMAL(10, 6) NOT NULL";
const WHOLE: &str = "INTEGER NOT NULL";
const WORD: &str = "TEXT NOT NULL";

pub const V: Table =
    Table { name: "v", columns: &[NUMBER, ("x", MILLIONTHS), ("y", MILLIONTHS), ("z", MILLIONTHS), ("w", MILLIONTHS)] };
pub const VT: Table = Table { name: "vt", columns: &[NUMBER, ("u", MILLIONTHS), ("v", MILLIONTHS), ("w", MILLIONTHS)] };
pub const VN: Table = Table { name: "vn", columns: &[NUMBER, ("i", MILLIONTHS), ("j", MILLIONTHS), ("k", MILLIONTHS)] };
pub const VP: Table =
    Table { name: "vp", columns: &[NUMBER, ("given", WHOLE), ("u", MILLIONTHS), ("v", MILLIONTHS), ("w", MILLIONTHS)] };
pub const BODIES: Table = Table {
    name: "bodies",
    columns: &[NUMBER, ("type", WORD), ("rational", WHOLE), ("u_degree", WHOLE), ("v_degree", WHOLE)],
};
pub const RANGES: Table = Table {
    name: "ranges",
    columns: &[
        ("number", "INTEGER PRIMARY KEY REFERENCES bodies (number)"),
        ("u_start", MILLIONTHS),
        ("u_end", MILLIONTHS),
        ("v_start", MILLIONTHS),
        ("v_end", MILLIONTHS),
    ],
};
pub const PARAMETERS: Table =
    Table { name: "parameters", columns: &[NUMBER, BODY, ("direction", WORD), ("value", MILLIONTHS)] };
pub const ELEMENTS: Table = Table {
    name: "elements",
    columns: &[
        NUMBER,
        ("kind", WORD),
        ("body", "INTEGER REFERENCES bodies (number)"),
        ("smoothing", WHOLE),
        ("group_names", "TEXT"),
        ("material", "TEXT"),
    ],
};
pub const CORNERS: Table = Table {
    name: "corners",
    columns: &[
        NUMBER,
        ("element", "INTEGER NOT NULL REFERENCES elements (number)"),
        ("k", WHOLE),
        ("v", "INTEGER REFERENCES v (number)"),
        ("vt", "INTEGER REFERENCES vt (number)"),
        ("vn", "INTEGER REFERENCES vn (number)"),
        ("vp", "INTEGER REFERENCES vp (number)"),
    ],
};
pub const LOOPS: Table = Table {
    name: "loops",
    columns: &[NUMBER, BODY, ("begins", "TEXT"), ("curve", "INTEGER NOT NULL REFERENCES elements (number)")],
};
pub const SPANS: Table = Table {
    name: "spans",
    columns: &[
        ("number", "INTEGER PRIMARY KEY REFERENCES loops (number)"),
        ("span_start", MILLIONTHS),
        ("span_end", MILLIONTHS),
    ],
};
// Each before those that refer to it.
const ALL: [&Table; 11] = [&V, &VT, &VN, &VP, &BODIES, &RANGES, &PARAMETERS, &ELEMENTS, &CORNERS, &LOOPS, &SPANS];

impl Table {
    fn create(&self) -> String {
        let columns: Vec<String> = self.columns.iter().map(|(name, rest)| format!("    {name} {rest}")).collect();
        format!("CREATE TABLE {} (\n{}\n);\n", self.name, columns.join(",\n"))
    }

    // SQLite takes an empty value as an empty text.
    fn empties(&self) -> String {
        let may_lack = |rest: &str| !rest.contains("NOT NULL") && !rest.contains("PRIMARY KEY");
        let lacking = self.columns.iter().filter(|(_, rest)| may_lack(rest));
        lacking.map(|(column, _)| format!("UPDATE {} SET {column} = NULL WHERE {column} = '';\n", self.name)).collect()
    }
}

/// The tables with their keys.
pub fn schema() -> String {
    ALL.iter().map(|table| table.create()).collect()
}

/// What loads all tables into SQLite.
pub fn load() -> String {
    let imports: String = ALL.iter().map(|table| format!(".import --csv --skip 1 {0}.csv {0}\n", table.name)).collect();
    let empties: String = ALL.iter().map(|table| table.empties()).collect();
    let call = "-- Loads the tables into a new SQLite database, from this folder: sqlite3 part.db < load.sql\n";
    format!("{call}.bail on\n.read schema.sql\nBEGIN;\n{imports}{empties}COMMIT;\nPRAGMA foreign_key_check;\n")
}

#[cfg(test)]
mod tests {
    use super::*;

    #[test]
    fn a_table_stands_before_those_that_refer_to_it() {
        for (index, table) in ALL.iter().enumerate() {
            for (_, rest) in table.columns {
                if let Some((_, other)) = rest.split_once("REFERENCES ") {
                    let name = other.split(' ').next().unwrap();
                    assert!(ALL[..index].iter().any(|earlier| earlier.name == name), "{name}");
                }
            }
        }
    }
}
