//! What is told of a refusal besides its number and place, asked of the library: `crates/read_advice` of the archive.
use crate::raw;

/// How many there are so far of what a word may refer to, and the open body.
#[repr(C)]
#[derive(Clone, Copy, Debug, Default, PartialEq, Eq)]
pub struct Tally {
    /// How many `v`.
    pub v: u32,
    /// How many `vt`.
    pub vt: u32,
    /// How many `vn`.
    pub vn: u32,
    /// How many `vp`.
    pub vp: u32,
    /// How many `curv2`, each from its end on.
    pub curves: u32,
    /// The kind of the open body's element, 0 where none is open.
    pub kind: u32,
    /// The place of its keyword.
    pub opened: usize,
}

/// The parameters along one direction of the open body, of its last `parm`.
#[repr(C)]
#[derive(Clone, Copy, Debug, Default, PartialEq, Eq)]
pub struct Along {
    /// Where its numbers start, 0 where there is none.
    pub place: usize,
    /// How many they are.
    pub parameters: u32,
    /// How many controls the type asks for them.
    pub controls: usize,
    /// 1 where a bspline's are enough.
    pub enough: u32,
    /// The number, from 1, of the first parameter that may not stand after the one before it, 0 where all may.
    pub wrong: u32,
    /// The start of the widest range.
    pub low: i32,
    /// Its end.
    pub high: i32,
    /// The start of the range.
    pub start: i32,
    /// Its end.
    pub end: i32,
    /// 1 where all are in order and the range stands within the widest.
    pub fits: u32,
}

/// What is told of a place.
#[repr(C)]
#[derive(Clone, Copy, Debug, Default, PartialEq, Eq)]
pub struct Advice {
    /// The place of the keyword of the line that holds the place.
    pub key: usize,
    /// How many words follow it.
    pub words: usize,
    /// What the lines before say.
    pub tally: Tally,
    /// The type in force, 1 to 4, 0 for none.
    pub basis: u32,
    /// The degree in force along u, 0 for none.
    pub degree_u: u32,
    /// Along v.
    pub degree_v: u32,
    /// How many controls the open body has.
    pub controls: usize,
    /// Its parameters along u.
    pub u: Along,
    /// Along v.
    pub v: Along,
}

/// A keyword's rules, and those of one word after it.
#[repr(C)]
#[derive(Clone, Copy, Debug, Default, PartialEq, Eq)]
pub struct RuleRow {
    /// Where the statement may stand: 0 outside a body, 1 in one, 2 in a surface's, 3 as a parm.
    pub standing: u32,
    /// How many words follow the keyword at least.
    pub least: usize,
    /// At most; [`crate::MOST_BYTES`] for any number.
    pub most: usize,
    /// A multiple of how many.
    pub multiple: usize,
    /// The number of the form of the word asked for: [`RuleRow::form`].
    pub form: u32,
    /// The least value that it may have, of a name how many bytes.
    pub low: i32,
    /// The greatest.
    pub high: i32,
}

/// What a word has to be.
#[derive(Clone, Copy, Debug, PartialEq, Eq)]
pub enum Form {
    /// Any word.
    Anything,
    /// A number.
    Number,
    /// v alone.
    Vertex,
    /// v or v/vt.
    Texture,
    /// v, v/vt, v//vn or v/vt/vn.
    Corner,
    /// A vp.
    Control,
    /// A curv2.
    Curve,
    /// u or v.
    Direction,
    /// A type.
    Type,
    /// rat.
    Rational,
    /// A degree.
    Degree,
    /// A smoothing number, or off.
    Smoothing,
    /// A name.
    Name,
}

impl RuleRow {
    /// The form of the word asked for.
    pub fn form(&self) -> Form {
        use Form::*;
        let forms = [
            Anything, Number, Vertex, Texture, Corner, Control, Curve, Direction, Type, Rational, Degree, Smoothing,
            Name,
        ];
        forms.get(self.form as usize).copied().unwrap_or(Anything)
    }
}

/// What is told of the place of a refusal of reading or tidying the text; of any place what the lines before its own say.
pub fn explain(text: &[u8], place: usize) -> Advice {
    raw::explain(text, place)
}

/// The rules of the keyword that the bytes begin with, and the form of word `index`, from 0, of `words` after it. Of what is no keyword of a
/// stored statement any number of words, of any form.
pub fn rules_of_keyword(keyword: &[u8], words: usize, index: usize) -> RuleRow {
    raw::rules_of_keyword(keyword, words, index)
}
