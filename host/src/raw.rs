//! The boundary as the archive has it: `src/lib.rt` of `crates/kuhlabires`, `crates/c_records`, `crates/c_tables`, `crates/keyword_rules`, `crates/read_advice` and `crates/read_rooms`, and `include/kuhlabires.h`, say the same. A slice is a pointer, then a length.
use crate::{Advice, Corner, Dropped, Rooms, RuleRow, Tables, Used};

#[repr(C)]
pub struct Reading {
    pub refusal: u32,
    pub place: usize,
    pub used: Used,
}

#[repr(C)]
pub struct Tidying {
    pub refusal: u32,
    pub place: usize,
    pub length: usize,
    pub needed: usize,
    pub used: Used,
}

#[repr(C)]
pub struct Point {
    pub refusal: u32,
    pub axes: u32,
    pub x: i32,
    pub y: i32,
    pub z: i32,
}

#[repr(C)]
pub struct Run {
    pub refusal: u32,
    pub numbers: usize,
}

#[repr(C)]
pub struct Polyline {
    pub refusal: u32,
    pub points: u32,
}

#[repr(C)]
pub struct Swept {
    pub refusal: u32,
    pub used: Used,
    pub dropped: Dropped,
}

#[repr(C)]
pub struct Element {
    pub kind: u32,
    pub first_corner: u32,
    pub corners: u32,
    pub body: u32,
    pub smoothing: u32,
    pub group_place: u32,
    pub group_length: u32,
    pub material_place: u32,
    pub material_length: u32,
}

#[repr(C)]
pub struct Body {
    pub basis: u32,
    pub rational: u32,
    pub u_degree: u32,
    pub v_degree: u32,
    pub first_parameter: u32,
    pub u_parameters: u32,
    pub v_parameters: u32,
    pub first_loop_part: u32,
    pub loop_parts: u32,
    pub u_start: i32,
    pub u_end: i32,
    pub v_start: i32,
    pub v_end: i32,
}

#[repr(C)]
pub struct Part {
    pub place: usize,
    pub length: usize,
}

// The eleven tables stand in every signature alike: to be filled, and to be read.
macro_rules! boundary {
    ($($name:ident($($before:ident: $b:ty),*; $signed:ty, $unsigned:ty; $($after:ident: $a:ty),*) -> $answer:ty;)*) => {
        extern "C" {
            $(pub fn $name(
                $($before: $b,)*
                v: $signed, v_length: usize,
                vt: $signed, vt_length: usize,
                vn: $signed, vn_length: usize,
                vp: $signed, vp_length: usize,
                corners: $unsigned, corners_length: usize,
                elements: $unsigned, elements_length: usize,
                bodies: $unsigned, bodies_length: usize,
                ranges: $signed, ranges_length: usize,
                parameters: $signed, parameters_length: usize,
                loops: $unsigned, loops_length: usize,
                spans: $signed, spans_length: usize,
                $($after: $a,)*
            ) -> $answer;)*
        }
    };
}

boundary! {
    kuhlabires_read(text: *const u8, text_length: usize; *mut i32, *mut u32;) -> Reading;
    kuhlabires_tidy(text: *const u8, text_length: usize, weights: u32; *mut i32, *mut u32; out: *mut u8, out_length: usize) -> Tidying;
    kuhlabires_point_on_curve(used: Used; *const i32, *const u32; element: u32, t: i32) -> Point;
    kuhlabires_cubic_at(used: Used; *const i32, *const u32; element: u32, segment: u32, j: u32) -> Point;
    kuhlabires_point_on_surface(used: Used; *const i32, *const u32; element: u32, s: i32, t: i32) -> Point;
    kuhlabires_run_on_curve(
        used: Used; *const i32, *const u32;
        element: u32, steps: u32, points: *mut i32, points_length: usize, at: usize
    ) -> Run;
    kuhlabires_polyline(
        used: Used; *const i32, *const u32;
        element: u32, tolerance: i32, points: *mut i32, points_length: usize, at: usize
    ) -> Polyline;
    kuhlabires_sweep(used: Used; *mut i32, *mut u32; numbers: *mut u32, numbers_length: usize) -> Swept;
}

extern "C" {
    pub fn kuhlabires_rooms(text: *const u8, text_length: usize) -> Rooms;

    pub fn kuhlabires_keyword(row: usize, out: *mut u8, out_length: usize) -> usize;

    pub fn kuhlabires_argument(row: usize, out: *mut u8, out_length: usize) -> usize;

    pub fn kuhlabires_element_of(used: Used, elements: *const u32, elements_length: usize, element: u32) -> Element;

    pub fn kuhlabires_body_of(
        used: Used,
        bodies: *const u32,
        bodies_length: usize,
        ranges: *const i32,
        ranges_length: usize,
        body: u32,
    ) -> Body;

    pub fn kuhlabires_curv2_element(used: Used, elements: *const u32, elements_length: usize, curve: u32) -> u32;

    pub fn kuhlabires_corner_of(
        used: Used,
        elements: *const u32,
        elements_length: usize,
        corners: *const u32,
        corners_length: usize,
        element: u32,
        k: u32,
    ) -> Corner;

    pub fn kuhlabires_explain(text: *const u8, text_length: usize, place: usize) -> Advice;

    pub fn kuhlabires_rules(keyword: *const u8, keyword_length: usize, words: usize, index: usize) -> RuleRow;
}

macro_rules! names {
    ($($name:ident),*) => {
        extern "C" {
            $(
                pub fn $name(
                    text: *const u8,
                    text_length: usize,
                    used: Used,
                    elements: *const u32,
                    elements_length: usize,
                    element: u32,
                ) -> Part;
            )*
        }
    };
}

names!(kuhlabires_group_of, kuhlabires_material_of);

/// Calls a function of the boundary with the tables lent as `as_ptr` or `as_mut_ptr` says.
macro_rules! with_tables {
    ($lend:ident, $tables:expr, $name:ident($($before:expr),*; $($after:expr),*)) => {{
        let lent = $tables;
        // SAFETY: every pointer comes from a slice that is borrowed for the call, with that slice's length; what is
        // written is borrowed mutably; and the function takes any contents and any numbers.
        unsafe {
            crate::raw::$name(
                $($before,)*
                lent.v.$lend(), lent.v.len(),
                lent.vt.$lend(), lent.vt.len(),
                lent.vn.$lend(), lent.vn.len(),
                lent.vp.$lend(), lent.vp.len(),
                lent.corners.$lend(), lent.corners.len(),
                lent.elements.$lend(), lent.elements.len(),
                lent.bodies.$lend(), lent.bodies.len(),
                lent.ranges.$lend(), lent.ranges.len(),
                lent.parameters.$lend(), lent.parameters.len(),
                lent.loops.$lend(), lent.loops.len(),
                lent.spans.$lend(), lent.spans.len(),
                $($after,)*
            )
        }
    }};
}

pub fn rooms(text: &[u8]) -> Rooms {
    // SAFETY: as in `with_tables`.
    unsafe { kuhlabires_rooms(text.as_ptr(), text.len()) }
}

pub fn keyword(row: usize, out: &mut [u8]) -> usize {
    // SAFETY: as in `with_tables`.
    unsafe { kuhlabires_keyword(row, out.as_mut_ptr(), out.len()) }
}

pub fn argument(row: usize, out: &mut [u8]) -> usize {
    // SAFETY: as in `with_tables`.
    unsafe { kuhlabires_argument(row, out.as_mut_ptr(), out.len()) }
}

pub fn read(text: &[u8], tables: &mut Tables) -> Reading {
    with_tables!(as_mut_ptr, tables, kuhlabires_read(text.as_ptr(), text.len();))
}

pub fn tidy(text: &[u8], weights: u32, tables: &mut Tables, out: &mut [u8]) -> Tidying {
    with_tables!(as_mut_ptr, tables, kuhlabires_tidy(text.as_ptr(), text.len(), weights; out.as_mut_ptr(), out.len()))
}

pub fn point_on_curve(tables: &Tables, element: u32, t: i32) -> Point {
    with_tables!(as_ptr, tables, kuhlabires_point_on_curve(tables.used; element, t))
}

pub fn cubic_at(tables: &Tables, element: u32, segment: u32, j: u32) -> Point {
    with_tables!(as_ptr, tables, kuhlabires_cubic_at(tables.used; element, segment, j))
}

pub fn point_on_surface(tables: &Tables, element: u32, s: i32, t: i32) -> Point {
    with_tables!(as_ptr, tables, kuhlabires_point_on_surface(tables.used; element, s, t))
}

pub fn run_on_curve(tables: &Tables, element: u32, steps: u32, points: &mut [i32], at: usize) -> Run {
    with_tables!(
        as_ptr,
        tables,
        kuhlabires_run_on_curve(tables.used; element, steps, points.as_mut_ptr(), points.len(), at)
    )
}

pub fn polyline(tables: &Tables, element: u32, tolerance: i32, points: &mut [i32], at: usize) -> Polyline {
    with_tables!(
        as_ptr,
        tables,
        kuhlabires_polyline(tables.used; element, tolerance, points.as_mut_ptr(), points.len(), at)
    )
}

pub fn sweep(tables: &mut Tables, numbers: &mut [u32]) -> Swept {
    let used = tables.used;
    with_tables!(as_mut_ptr, tables, kuhlabires_sweep(used; numbers.as_mut_ptr(), numbers.len()))
}

pub fn element_of(tables: &Tables, element: u32) -> Element {
    let elements = &tables.elements;
    // SAFETY: as in `with_tables`.
    unsafe { kuhlabires_element_of(tables.used, elements.as_ptr(), elements.len(), element) }
}

pub fn body_of(tables: &Tables, body: u32) -> Body {
    let (bodies, ranges) = (&tables.bodies, &tables.ranges);
    // SAFETY: as in `with_tables`.
    unsafe { kuhlabires_body_of(tables.used, bodies.as_ptr(), bodies.len(), ranges.as_ptr(), ranges.len(), body) }
}

pub fn curv2_element(tables: &Tables, curve: u32) -> u32 {
    let elements = &tables.elements;
    // SAFETY: as in `with_tables`.
    unsafe { kuhlabires_curv2_element(tables.used, elements.as_ptr(), elements.len(), curve) }
}

pub fn corner_of(tables: &Tables, element: u32, k: u32) -> Corner {
    let (elements, corners) = (&tables.elements, &tables.corners);
    // SAFETY: as in `with_tables`.
    unsafe {
        kuhlabires_corner_of(
            tables.used,
            elements.as_ptr(),
            elements.len(),
            corners.as_ptr(),
            corners.len(),
            element,
            k,
        )
    }
}

pub fn group_of(text: &[u8], tables: &Tables, element: u32) -> Part {
    let elements = &tables.elements;
    // SAFETY: as in `with_tables`.
    unsafe { kuhlabires_group_of(text.as_ptr(), text.len(), tables.used, elements.as_ptr(), elements.len(), element) }
}

pub fn material_of(text: &[u8], tables: &Tables, element: u32) -> Part {
    let elements = &tables.elements;
    // SAFETY: as in `with_tables`.
    unsafe {
        kuhlabires_material_of(text.as_ptr(), text.len(), tables.used, elements.as_ptr(), elements.len(), element)
    }
}

pub fn explain(text: &[u8], place: usize) -> Advice {
    // SAFETY: as in `with_tables`.
    unsafe { kuhlabires_explain(text.as_ptr(), text.len(), place) }
}

pub fn rules_of_keyword(keyword: &[u8], words: usize, index: usize) -> RuleRow {
    // SAFETY: as in `with_tables`.
    unsafe { kuhlabires_rules(keyword.as_ptr(), keyword.len(), words, index) }
}
