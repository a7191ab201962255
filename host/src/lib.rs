//! Kuhlabires: a verified reader, tidier and sampler of Wavefront .obj files.
//!
//! What a call answers is proved of the library behind it, for every text, all tables and all numbers: `docs/API.md` says what each
//! promises. This crate only lends its memory and gives the answers types. Every `i32` is a number in millionths.
//!
//! A text is read into [`Tables`], which are asked: for an element, a body, a corner with an `Option`, for a point with a `Result`.
//!
//! ```
//! use kuhlabires::{Point, Reason, Tables};
//!
//! let text = b"v 0 0 0\nv 1 0 0\nv 1 .5 0\ng top left\nf -3 -2 -1\ncstype bezier\ndeg 1\ncurv 0 1 1 2\nparm u 0 1\nend\n";
//! let tables = Tables::read(text)?;
//! assert_eq!(tables.vertex(3).unwrap().y, 500_000);
//! assert!(tables.group_names(text, 1).eq(["top", "left"]));
//! assert!(tables.corners(1).map(|corner| corner.v).eq([1, 2, 3]));
//! assert_eq!(tables.point_on_curve(2, 500_000)?, Point::Space { x: 500_000, y: 0, z: 0 });
//! assert_eq!(tables.point_on_curve(1, 0), Err(Reason::NoSuchElement));
//!
//! let refusal = Tables::read(b"v 0 0 0\nf 1 1 2\n").unwrap_err();
//! assert_eq!(refusal.to_string(), "refused 8 at 14: a reference to nothing");
//! # Ok::<(), Box<dyn std::error::Error>>(())
//! ```
#![warn(missing_docs)]

mod advice;
mod messages;
mod raw;
mod records;
mod refusal;
mod sampling;
mod tables;
mod words;

pub use advice::{explain, rules_of_keyword, Advice, Along, Form, RuleRow, Tally};
pub use messages::{lacking, message, sampling_message, thousands, Asked};
pub use records::*;
pub use refusal::{position, Position, Reason, Refusal};
pub use tables::Tables;
pub use words::{arguments, keywords};

use sampling::unless_refused;

/// The longest text that is read, and the longest tidy text, in bytes.
pub const MOST_BYTES: usize = 16_777_216;

/// The most steps of a run.
pub const MOST_STEPS: u32 = 65_536;

/// The most points of a polyline: 12 halvings, and the start.
pub const MOST_POLYLINE_POINTS: usize = 4_097;

/// The steps of a segment of a cubic.
pub const CUBIC_STEPS: u32 = 64;

/// How many entries of each table the text can need: reading it into tables of at least these lengths never gives 14. All together are at
/// most 22 for each word of the text, so at most 11 for each byte and 11 more. A text over [`MOST_BYTES`] needs none: it is refused.
pub fn rooms_of(text: &[u8]) -> Rooms {
    raw::rooms(text)
}

/// Reads a text into the tables and sets their used counts. After a refusal every entry and every count is 0.
pub fn read(text: &[u8], tables: &mut Tables) -> Result<(), Refusal> {
    let answer = raw::read(text, tables);
    tables.used = answer.used;
    unless_refused(answer.refusal).map_err(|reason| Refusal::new(reason, answer.place))
}

/// Whether the tidy text has the w of a `v`, its weight, where it is 1.000000 too.
#[derive(Clone, Copy, Debug, Default, PartialEq, Eq)]
pub enum Weights {
    /// Only where it is not 1.000000.
    #[default]
    WhenNeeded,
    /// Of every `v`.
    Always,
}

/// Reads a text into the tables and writes its tidy text to the front of `out`; answers the tidy text's length.
///
/// A refusal leaves `out` as it was. After 16, the tidy text does not fit, the tables stay filled and [`Refusal::needed`] is the length that it needs;
/// after any other all is 0.
pub fn tidy(text: &[u8], weights: Weights, tables: &mut Tables, out: &mut [u8]) -> Result<usize, Refusal> {
    let number = match weights {
        Weights::WhenNeeded => 0,
        Weights::Always => 1,
    };
    let answer = raw::tidy(text, number, tables, out);
    tables.used = answer.used;
    let (place, needed) = (answer.place, answer.needed);
    unless_refused(answer.refusal).map_err(|reason| Refusal { reason, place, needed })?;
    Ok(answer.length)
}

/// The tidy text of a text, in memory of its own: 16 only where it passes 16,777,216 bytes.
pub fn tidy_text(text: &[u8], weights: Weights) -> Result<Vec<u8>, Refusal> {
    // The longest there is: with what is needed alone the text would be read twice, and memory that is not written costs nothing.
    let mut out = vec![0; MOST_BYTES];
    let length = tidy(text, weights, &mut Tables::for_text(text), &mut out)?;
    out.truncate(length);
    out.shrink_to_fit();
    Ok(out)
}

#[cfg(test)]
mod tests;
