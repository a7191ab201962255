//! The records of the tables, typed. `docs/RECORDS.md` says what each number is.
use crate::words::{arguments, keywords};
use std::fmt;

// The rows that the kinds of element, the types of body and what begins a loop begin with, in the tables of spellings.
const FIRST_KIND: usize = 8;
const FIRST_TYPE: usize = 2;
const FIRST_LOOP: usize = 15;

/// How many records of each table are used, but for the corners, which count numbers. Ranges share the bodies' count, spans the loops'.
#[repr(C)]
#[derive(Clone, Copy, Debug, Default, PartialEq, Eq)]
pub struct Used {
    /// `v` lines.
    pub v: u32,
    /// `vt` lines.
    pub vt: u32,
    /// `vn` lines.
    pub vn: u32,
    /// `vp` lines.
    pub vp: u32,
    /// Numbers of the corner table, three a corner.
    pub corners: u32,
    /// Elements.
    pub elements: u32,
    /// Bodies, and ranges.
    pub bodies: u32,
    /// Parameters.
    pub parameters: u32,
    /// Loop parts, and spans.
    pub loops: u32,
}

/// The lengths of the eleven tables, in entries: 4,096 entries hold 1,024 `v`.
#[repr(C)]
#[derive(Clone, Copy, Debug, Default, PartialEq, Eq)]
pub struct Rooms {
    /// Four a `v`.
    pub v: usize,
    /// Three a `vt`.
    pub vt: usize,
    /// Three a `vn`.
    pub vn: usize,
    /// Four a `vp`.
    pub vp: usize,
    /// Three a corner.
    pub corners: usize,
    /// Nine an element.
    pub elements: usize,
    /// Nine a body.
    pub bodies: usize,
    /// Four a body.
    pub ranges: usize,
    /// One a parameter.
    pub parameters: usize,
    /// Two a loop part.
    pub loops: usize,
    /// Two a loop part.
    pub spans: usize,
}

impl Used {
    /// How many `v`, `vt`, `vn` and `vp` are used: a sweep's list of new numbers has an entry for each.
    pub fn vertices(&self) -> usize {
        [self.v, self.vt, self.vn, self.vp].iter().map(|&count| count as usize).sum()
    }
}

/// How many records of each kind a sweep dropped.
#[repr(C)]
#[derive(Clone, Copy, Debug, Default, PartialEq, Eq)]
pub struct Dropped {
    /// Of the `v`.
    pub v: u32,
    /// Of the `vt`.
    pub vt: u32,
    /// Of the `vn`.
    pub vn: u32,
    /// Of the `vp`.
    pub vp: u32,
}

/// A corner's references, each counted from 1; 0 for none. Of a `curv2` control `v` is its vp number.
#[repr(C)]
#[derive(Clone, Copy, Debug, Default, PartialEq, Eq)]
pub struct Corner {
    /// The `v`; of a `curv2` control the `vp`.
    pub v: u32,
    /// The `vt`.
    pub vt: u32,
    /// The `vn`.
    pub vn: u32,
}

/// The kinds of element, by their keywords.
#[derive(Clone, Copy, Debug, PartialEq, Eq)]
pub enum Kind {
    /// Points.
    P,
    /// A line.
    L,
    /// A face.
    F,
    /// A curve in space.
    Curv,
    /// A curve in a surface's plane of parameters.
    Curv2,
    /// A surface.
    Surf,
}

impl Kind {
    /// Every kind, in the order of the numbers.
    pub const ALL: [Kind; 6] = [Kind::P, Kind::L, Kind::F, Kind::Curv, Kind::Curv2, Kind::Surf];

    /// The kind of that number, 1 to 6.
    pub fn of(number: u32) -> Option<Kind> {
        Kind::ALL.into_iter().find(|kind| kind.number() == number)
    }

    /// Its number in an element's record.
    pub fn number(self) -> u32 {
        self as u32 + 1
    }

    /// The keyword of its line.
    pub fn keyword(self) -> &'static str {
        &keywords()[FIRST_KIND + self as usize]
    }

    /// Whether points in runs can be asked of it.
    pub fn is_curve(self) -> bool {
        matches!(self, Kind::Curv | Kind::Curv2)
    }
}

/// The types of body.
#[derive(Clone, Copy, Debug, PartialEq, Eq)]
pub enum Basis {
    /// Bezier segments.
    Bezier,
    /// A B-spline, its knots the parameters.
    Bspline,
    /// Cardinal; not sampled.
    Cardinal,
    /// Taylor; not sampled.
    Taylor,
}

impl Basis {
    /// Every type, in the order of the numbers.
    pub const ALL: [Basis; 4] = [Basis::Bezier, Basis::Bspline, Basis::Cardinal, Basis::Taylor];

    /// The type of that number, 1 to 4.
    pub fn of(number: u32) -> Option<Basis> {
        Basis::ALL.into_iter().find(|basis| basis.number() == number)
    }

    /// Its number in a body's record.
    pub fn number(self) -> u32 {
        self as u32 + 1
    }

    /// Its word on a `cstype` line.
    pub fn word(self) -> &'static str {
        &arguments()[FIRST_TYPE + self as usize]
    }

    /// Whether points are given of its bodies, those that are not rational.
    pub fn is_sampled(self) -> bool {
        matches!(self, Basis::Bezier | Basis::Bspline)
    }
}

/// A geometric vertex, in millionths.
#[derive(Clone, Copy, Debug, PartialEq, Eq)]
pub struct Vertex {
    /// x.
    pub x: i32,
    /// y.
    pub y: i32,
    /// z.
    pub z: i32,
    /// Its weight, 1.000000 where the file gives none.
    pub w: i32,
}

/// A texture vertex, in millionths.
#[derive(Clone, Copy, Debug, PartialEq, Eq)]
pub struct TextureVertex {
    /// u.
    pub u: i32,
    /// v, 0 where the file gives none.
    pub v: i32,
    /// w, 0 where the file gives none.
    pub w: i32,
}

/// A vertex normal, in millionths.
#[derive(Clone, Copy, Debug, PartialEq, Eq)]
pub struct Normal {
    /// Along x.
    pub i: i32,
    /// Along y.
    pub j: i32,
    /// Along z.
    pub k: i32,
}

/// A parameter space vertex, in millionths; `given` says how many coordinates the file gave, 1 to 3.
#[derive(Clone, Copy, Debug, PartialEq, Eq)]
pub struct ParameterVertex {
    /// How many coordinates the file gave: a plain count.
    pub given: i32,
    /// u.
    pub u: i32,
    /// v, 0 where the file gives none.
    pub v: i32,
    /// Its weight, 1.000000 where the file gives none.
    pub w: i32,
}

/// An element's record.
#[derive(Clone, Copy, Debug, PartialEq, Eq)]
pub struct Element {
    /// Its kind.
    pub kind: Kind,
    /// Its first corner, in numbers of the corner table, from 0.
    pub first_corner: u32,
    /// How many corners it has: [`crate::Tables::corners`].
    pub corners: u32,
    /// The number of its body, from 1; 0 for none (`p`, `l`, `f`).
    pub body: u32,
    /// Its smoothing, 0 for off.
    pub smoothing: u32,
    /// Where its first group name begins in the text: [`crate::Tables::group_names`].
    pub group_place: u32,
    /// How many bytes reach to the end of its last group name; 0 for none.
    pub group_length: u32,
    /// Where its material's name begins in the text: [`crate::Tables::material`].
    pub material_place: u32,
    /// How many bytes that name has; 0 for none.
    pub material_length: u32,
}

/// A body's record with its range, in millionths. A curve's v entries are 0.
#[derive(Clone, Copy, Debug, PartialEq, Eq)]
pub struct Body {
    /// Its type.
    pub basis: Basis,
    /// Whether it is rational.
    pub rational: bool,
    /// Its degree along u.
    pub u_degree: u32,
    /// Its degree along v.
    pub v_degree: u32,
    /// Its first parameter, from 0: first those along u, then those along v.
    pub first_parameter: u32,
    /// How many parameters it has along u.
    pub u_parameters: u32,
    /// How many along v.
    pub v_parameters: u32,
    /// Its first loop part, from 0.
    pub first_loop_part: u32,
    /// How many loop parts it has.
    pub loop_parts: u32,
    /// Where its range along u starts.
    pub u_start: i32,
    /// Where that ends.
    pub u_end: i32,
    /// Where its range along v starts.
    pub v_start: i32,
    /// Where that ends.
    pub v_end: i32,
}

/// What begins with a loop part.
#[derive(Clone, Copy, Debug, PartialEq, Eq)]
pub enum Begins {
    /// The loop goes on.
    Nothing,
    /// A loop of a `trim` line.
    Trim,
    /// A loop of a `hole` line.
    Hole,
}

impl Begins {
    /// The keyword of the line that begins; none where the loop goes on.
    pub fn keyword(self) -> Option<&'static str> {
        (self as usize).checked_sub(1).map(|row| keywords()[FIRST_LOOP + row].as_str())
    }
}

/// A part of a trimming loop: the number of its `curv2`, counted over the `curv2` alone, and its two numbers in millionths.
#[derive(Clone, Copy, Debug, PartialEq, Eq)]
pub struct LoopPart {
    /// What begins with it.
    pub begins: Begins,
    /// Its `curv2`, from 1: [`crate::Tables::curv2_element`] is its element.
    pub curve: u32,
    /// Where on the curve it starts.
    pub from: i32,
    /// Where on the curve it ends.
    pub to: i32,
}

/// A point, in millionths: of a `curv` or a `surf` in space, of a `curv2` in the plane.
#[derive(Clone, Copy, Debug, PartialEq, Eq)]
pub enum Point {
    /// Of a `curv` or a `surf`.
    Space {
        /// x.
        x: i32,
        /// y.
        y: i32,
        /// z.
        z: i32,
    },
    /// Of a `curv2`.
    Plane {
        /// u.
        u: i32,
        /// v.
        v: i32,
    },
}

impl Point {
    // Each coordinate of the two points by the choice given, which is `min` or `max`.
    pub(crate) fn each(self, other: Point, choice: fn(i32, i32) -> i32) -> Point {
        match (self, other) {
            (Point::Space { x, y, z }, Point::Space { x: a, y: b, z: c }) => {
                Point::Space { x: choice(x, a), y: choice(y, b), z: choice(z, c) }
            }
            (Point::Plane { u, v }, Point::Plane { u: a, v: b }) => Point::Plane { u: choice(u, a), v: choice(v, b) },
            _ => self,
        }
    }
}

/// The least and the greatest coordinates of an element's controls: every point of a curve or a surface lies between them.
#[derive(Clone, Copy, Debug, PartialEq, Eq)]
pub struct Outline {
    /// The least.
    pub least: Point,
    /// The greatest.
    pub greatest: Point,
}

/// A number in millionths, written with six places.
#[derive(Clone, Copy, Debug, PartialEq, Eq)]
pub struct Decimal(pub i32);

impl fmt::Display for Decimal {
    fn fmt(&self, f: &mut fmt::Formatter<'_>) -> fmt::Result {
        let sign = if self.0 < 0 { "-" } else { "" };
        let whole = self.0.unsigned_abs();
        write!(f, "{sign}{}.{:06}", whole / 1_000_000, whole % 1_000_000)
    }
}

impl fmt::Display for Point {
    fn fmt(&self, f: &mut fmt::Formatter<'_>) -> fmt::Result {
        match *self {
            Point::Space { x, y, z } => write!(f, "{} {} {}", Decimal(x), Decimal(y), Decimal(z)),
            Point::Plane { u, v } => write!(f, "{} {}", Decimal(u), Decimal(v)),
        }
    }
}

#[cfg(test)]
mod tests {
    use super::*;

    #[test]
    fn numbers_of_kinds_and_types_are_those_of_the_records() {
        let kinds: Vec<_> = Kind::ALL.iter().map(|kind| (kind.keyword(), kind.number())).collect();
        assert_eq!(kinds, [("p", 1), ("l", 2), ("f", 3), ("curv", 4), ("curv2", 5), ("surf", 6)]);
        let types: Vec<_> = Basis::ALL.iter().map(|basis| (basis.word(), basis.number())).collect();
        assert_eq!(types, [("bezier", 1), ("bspline", 2), ("cardinal", 3), ("taylor", 4)]);
        assert_eq!(Kind::of(0), None);
        assert_eq!(Kind::of(5), Some(Kind::Curv2));
        assert_eq!(Basis::of(7), None);
        let begins = [Begins::Nothing, Begins::Trim, Begins::Hole].map(Begins::keyword);
        assert_eq!(begins, [None, Some("trim"), Some("hole")]);
    }

    #[test]
    fn decimals_have_six_places() {
        assert_eq!(Decimal(1_500_000).to_string(), "1.500000");
        assert_eq!(Decimal(-1).to_string(), "-0.000001");
        assert_eq!(Decimal(0).to_string(), "0.000000");
        assert_eq!(Decimal(i32::MIN).to_string(), "-2147.483648");
        assert_eq!(Point::Plane { u: 1, v: -2_000_000 }.to_string(), "0.000001 -2.000000");
    }
}
