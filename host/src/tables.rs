//! The eleven tables, in memory of the caller's own size.
use crate::records::*;
use crate::{raw, read, rooms_of, Refusal};

/// The eleven tables and how many of their records are used. Reading fills them; all else but the sweep only looks.
///
/// Every field is open, since every function takes tables with any contents: records that break the rules are refused with 15.
#[derive(Clone, Debug, Default, PartialEq, Eq)]
pub struct Tables {
    /// How many records of each table are used.
    pub used: Used,
    /// x, y, z, w of each `v`.
    pub v: Vec<i32>,
    /// u, v, w of each `vt`.
    pub vt: Vec<i32>,
    /// i, j, k of each `vn`.
    pub vn: Vec<i32>,
    /// How many were given, u, v, w of each `vp`.
    pub vp: Vec<i32>,
    /// v, vt, vn of each corner, element by element.
    pub corners: Vec<u32>,
    /// Nine numbers an element: see [`Element`].
    pub elements: Vec<u32>,
    /// Nine numbers a body: see [`Body`].
    pub bodies: Vec<u32>,
    /// Four numbers a body: its range along u, then along v.
    pub ranges: Vec<i32>,
    /// The parameters of each body, along u, then along v.
    pub parameters: Vec<i32>,
    /// Two numbers a loop part: what begins with it, and its `curv2`.
    pub loops: Vec<u32>,
    /// Two numbers a loop part: from where to where.
    pub spans: Vec<i32>,
}

impl Tables {
    /// Tables of these lengths, in entries, all zeros.
    pub fn with_rooms(rooms: &Rooms) -> Tables {
        Tables {
            used: Used::default(),
            v: vec![0; rooms.v],
            vt: vec![0; rooms.vt],
            vn: vec![0; rooms.vn],
            vp: vec![0; rooms.vp],
            corners: vec![0; rooms.corners],
            elements: vec![0; rooms.elements],
            bodies: vec![0; rooms.bodies],
            ranges: vec![0; rooms.ranges],
            parameters: vec![0; rooms.parameters],
            loops: vec![0; rooms.loops],
            spans: vec![0; rooms.spans],
        }
    }

    /// Tables with room for everything that the text can hold: reading it into them never gives 14.
    pub fn for_text(text: &[u8]) -> Tables {
        Tables::with_rooms(&rooms_of(text))
    }

    /// The tables of a text, in memory of their own, or why and where it was refused.
    pub fn read(text: &[u8]) -> Result<Tables, Refusal> {
        let mut tables = Tables::for_text(text);
        read(text, &mut tables).map(|()| tables)
    }

    /// The vertex of that number, from 1.
    pub fn vertex(&self, number: u32) -> Option<Vertex> {
        let [x, y, z, w] = record(&self.v, self.used.v, number)?;
        Some(Vertex { x, y, z, w })
    }

    /// The texture vertex of that number, from 1.
    pub fn texture_vertex(&self, number: u32) -> Option<TextureVertex> {
        let [u, v, w] = record(&self.vt, self.used.vt, number)?;
        Some(TextureVertex { u, v, w })
    }

    /// The normal of that number, from 1.
    pub fn normal(&self, number: u32) -> Option<Normal> {
        let [i, j, k] = record(&self.vn, self.used.vn, number)?;
        Some(Normal { i, j, k })
    }

    /// The parameter space vertex of that number, from 1.
    pub fn parameter_vertex(&self, number: u32) -> Option<ParameterVertex> {
        let [given, u, v, w] = record(&self.vp, self.used.vp, number)?;
        Some(ParameterVertex { given, u, v, w })
    }

    /// The element of that number, from 1 over all elements; `None` too for one that has no kind.
    pub fn element(&self, number: u32) -> Option<Element> {
        let found = raw::element_of(self, number);
        Some(Element {
            kind: Kind::of(found.kind)?,
            first_corner: found.first_corner,
            corners: found.corners,
            body: found.body,
            smoothing: found.smoothing,
            group_place: found.group_place,
            group_length: found.group_length,
            material_place: found.material_place,
            material_length: found.material_length,
        })
    }

    /// All elements with their numbers.
    pub fn elements(&self) -> impl Iterator<Item = (u32, Element)> + '_ {
        (1..=self.used.elements).map_while(|number| Some((number, self.element(number)?)))
    }

    /// Corner `k`, from 0, of the element of that number.
    pub fn corner(&self, element: u32, k: u32) -> Option<Corner> {
        Some(raw::corner_of(self, element, k)).filter(|corner| corner.v != 0)
    }

    /// The corners of the element of that number, in their order; none for no such element.
    pub fn corners(&self, element: u32) -> impl Iterator<Item = Corner> + '_ {
        let many = self.element(element).map_or(0, |found| found.corners);
        (0..many).map_while(move |k| self.corner(element, k))
    }

    /// The group names of the element of that number, in the text that was read.
    pub fn group_names<'a>(&self, text: &'a [u8], element: u32) -> impl Iterator<Item = &'a str> {
        names(text, raw::group_of(text, self, element))
    }

    /// The name of its material, in the text that was read; `None` where none is set.
    pub fn material<'a>(&self, text: &'a [u8], element: u32) -> Option<&'a str> {
        names(text, raw::material_of(text, self, element)).next()
    }

    /// The outline of the controls of the `curv`, `curv2` or `surf` of that number; `None` for any other element, and where a control is not there.
    pub fn outline(&self, number: u32) -> Option<Outline> {
        let element = self.element(number).filter(|found| found.kind.is_curve() || found.kind == Kind::Surf)?;
        let control = |k: u32| {
            let v = self.corner(number, k)?.v;
            if element.kind == Kind::Curv2 {
                self.parameter_vertex(v).map(|p| Point::Plane { u: p.u, v: p.v })
            } else {
                self.vertex(v).map(|p| Point::Space { x: p.x, y: p.y, z: p.z })
            }
        };
        let first = control(0)?;
        (1..element.corners).try_fold(Outline { least: first, greatest: first }, |outline, k| {
            let point = control(k)?;
            Some(Outline {
                least: outline.least.each(point, i32::min),
                greatest: outline.greatest.each(point, i32::max),
            })
        })
    }

    /// The body of that number, from 1, with its range, as an element names it; `None` too for one that has no type.
    pub fn body(&self, number: u32) -> Option<Body> {
        let found = raw::body_of(self, number);
        Some(Body {
            basis: Basis::of(found.basis)?,
            rational: found.rational != 0,
            u_degree: found.u_degree,
            v_degree: found.v_degree,
            first_parameter: found.first_parameter,
            u_parameters: found.u_parameters,
            v_parameters: found.v_parameters,
            first_loop_part: found.first_loop_part,
            loop_parts: found.loop_parts,
            u_start: found.u_start,
            u_end: found.u_end,
            v_start: found.v_start,
            v_end: found.v_end,
        })
    }

    /// All bodies with their numbers.
    pub fn bodies(&self) -> impl Iterator<Item = (u32, Body)> + '_ {
        (1..=self.used.bodies).map_while(|number| Some((number, self.body(number)?)))
    }

    /// A body's parameters along u, in millionths.
    pub fn u_parameters(&self, body: &Body) -> impl Iterator<Item = i32> + '_ {
        run(&self.parameters, body.first_parameter as usize, body.u_parameters)
    }

    /// A body's parameters along v, in millionths; none of a curve.
    pub fn v_parameters(&self, body: &Body) -> impl Iterator<Item = i32> + '_ {
        run(&self.parameters, body.first_parameter as usize + body.u_parameters as usize, body.v_parameters)
    }

    /// The loop part of that index, from 0.
    pub fn loop_part(&self, index: u32) -> Option<LoopPart> {
        let number = index.checked_add(1)?;
        let [begins, curve] = record(&self.loops, self.used.loops, number)?;
        let [from, to] = record(&self.spans, self.used.loops, number)?;
        let begins = match begins {
            1 => Begins::Trim,
            2 => Begins::Hole,
            _ => Begins::Nothing,
        };
        Some(LoopPart { begins, curve, from, to })
    }

    /// The loop parts of a body.
    pub fn loop_parts(&self, body: &Body) -> impl Iterator<Item = LoopPart> + '_ {
        let first = body.first_loop_part;
        (first..first.saturating_add(body.loop_parts)).map_while(|index| self.loop_part(index))
    }

    /// The number of the element that is the `curv2` of that number, which counts the `curv2` alone, as a loop part's curve does.
    pub fn curv2_element(&self, number: u32) -> Option<u32> {
        Some(raw::curv2_element(self, number)).filter(|&element| element != 0)
    }

    /// The numbers of all `curv2` elements, in order: what `curv2_element` answers of 1, 2, 3 ..
    pub fn curv2_elements(&self) -> Vec<u32> {
        self.elements().filter(|(_, element)| element.kind == Kind::Curv2).map(|(number, _)| number).collect()
    }

    pub(crate) fn is_in_plane(&self, element: u32) -> bool {
        self.element(element).is_some_and(|found| found.kind == Kind::Curv2)
    }
}

// The names in a part of the text, whatever joins and blanks stand between them: a name has the bytes 33 to 126, and a backslash joins lines.
fn names(text: &[u8], part: raw::Part) -> impl Iterator<Item = &str> {
    let part = &text[part.place..part.place + part.length];
    let words = part.split(|b| !matches!(b, 33..=126) || *b == b'\\');
    words.filter(|word| !word.is_empty()).filter_map(|word| std::str::from_utf8(word).ok())
}

// So many entries from that one on; none where they pass the table's end.
fn run(table: &[i32], first: usize, many: u32) -> impl Iterator<Item = i32> + '_ {
    table.get(first..first + many as usize).unwrap_or(&[]).iter().copied()
}

// The record of that number, from 1, where it is used and stands whole in the table.
fn record<T: Copy, const WIDTH: usize>(table: &[T], used: u32, number: u32) -> Option<[T; WIDTH]> {
    if number < 1 || used < number {
        return None;
    }
    let at = WIDTH.checked_mul(number as usize - 1)?;
    table.get(at..at.checked_add(WIDTH)?)?.try_into().ok()
}

#[cfg(test)]
mod tests {
    use super::*;

    #[test]
    fn a_record_is_handed_out_where_it_is_used_and_whole() {
        let table = [1, 2, 3, 4, 5, 6];
        assert_eq!(record::<_, 2>(&table, 3, 3), Some([5, 6]));
        assert_eq!(record::<_, 2>(&table, 2, 3), None);
        assert_eq!(record::<_, 2>(&table, 9, 4), None);
        assert_eq!(record::<_, 2>(&table, 9, 0), None);
        assert_eq!(record::<_, 4>(&table, 9, 2), None);
    }

    #[test]
    fn names_are_words() {
        let of =
            |text: &'static [u8]| -> Vec<&str> { names(text, raw::Part { place: 0, length: text.len() }).collect() };
        assert_eq!(of(b"rail \\\n\ttop"), ["rail", "top"]);
        assert_eq!(of(b"oak\\\r\n\xff,7"), ["oak", ",7"]);
        assert!(of(b"").is_empty());
    }

    #[test]
    fn parameters_past_the_end_are_none() {
        assert!(run(&[1, 2, 3], 1, 2).eq([2, 3]));
        assert_eq!(run(&[1, 2, 3], 2, 2).count(), 0);
        assert_eq!(run(&[], u32::MAX as usize, u32::MAX).count(), 0);
    }

    #[test]
    fn loop_parts_count_from_0() {
        let tables = Tables {
            used: Used { loops: 1, ..Used::default() },
            loops: vec![2, 7],
            spans: vec![-5, 5],
            ..Tables::default()
        };
        assert_eq!(tables.loop_part(0), Some(LoopPart { begins: Begins::Hole, curve: 7, from: -5, to: 5 }));
        assert_eq!(tables.loop_part(1), None);
    }
}
