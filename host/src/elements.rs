//! `elements` and `show`: the elements of a file, one by one.
use crate::input::{tables_of, Input};
use crate::Failure;
use kuhlabires::{keywords, Body, Corner, Decimal, Element, Kind, Outline, Tables};
use std::io::{self, Write};

pub fn elements(input: Input, out: &mut dyn Write) -> Result<(), Failure> {
    let tables = tables_of(&input)?;
    for (number, element) in tables.elements() {
        write_element(&input, &tables, number, element, out)?;
    }
    Ok(())
}

/// The elements, below each p, l and f its corners, and below each surface its loops.
pub fn show(input: Input, out: &mut dyn Write) -> Result<(), Failure> {
    let tables = tables_of(&input)?;
    let curves = tables.curv2_elements();
    for (number, element) in tables.elements() {
        write_element(&input, &tables, number, element, out)?;
        if let Kind::P | Kind::L | Kind::F = element.kind {
            for corner in tables.corners(number) {
                write_corner(&tables, corner, out)?;
            }
        }
        if let Some(body) = tables.body(element.body) {
            write_loops(&tables, body, &curves, out)?;
        }
    }
    Ok(())
}

// Each vertex that the corner names: its number and its coordinates.
fn write_corner(tables: &Tables, corner: Corner, out: &mut dyn Write) -> io::Result<()> {
    let v = tables.vertex(corner.v).map(|v| (corner.v, [v.x, v.y, v.z]));
    let vt = tables.texture_vertex(corner.vt).map(|vt| (corner.vt, [vt.u, vt.v, vt.w]));
    let vn = tables.normal(corner.vn).map(|vn| (corner.vn, [vn.i, vn.j, vn.k]));
    let mut before = "    ";
    // The first keywords are those of vertices.
    for (keyword, named) in keywords().iter().zip([v, vt, vn]) {
        if let Some((number, [a, b, c])) = named {
            write!(out, "{before}{keyword} {number}: {} {} {}", Decimal(a), Decimal(b), Decimal(c))?;
            before = ", ";
        }
    }
    writeln!(out)
}

fn write_loops(tables: &Tables, body: Body, curves: &[u32], out: &mut dyn Write) -> io::Result<()> {
    for part in tables.loop_parts(&body) {
        let curve = part.curve.checked_sub(1).and_then(|index| curves.get(index as usize));
        let curve = curve.map_or("no element".into(), |element| format!("element {element}"));
        let word = part.begins.keyword().unwrap_or("and");
        writeln!(out, "    {word} from {} to {} of {curve}", Decimal(part.from), Decimal(part.to))?;
    }
    Ok(())
}

fn write_element(input: &Input, tables: &Tables, number: u32, element: Element, out: &mut dyn Write) -> io::Result<()> {
    write!(out, "{number} {}, {}", element.kind.keyword(), counted(element.corners, "corner"))?;
    if let Some(body) = tables.body(element.body) {
        write!(out, ", {}", body_of(element, body))?;
    }
    if let Some(Outline { least, greatest }) = tables.outline(number) {
        write!(out, ", controls from {least} to {greatest}")?;
    }
    if element.smoothing != 0 {
        write!(out, ", smoothing {}", element.smoothing)?;
    }
    let group: Vec<&str> = tables.group_names(&input.text, number).collect();
    if !group.is_empty() {
        write!(out, ", group {}", group.join(" "))?;
    }
    if let Some(material) = tables.material(&input.text, number) {
        write!(out, ", material {material}")?;
    }
    writeln!(out)
}

fn counted(many: u32, what: &str) -> String {
    let s = if many == 1 { "" } else { "s" };
    format!("{many} {what}{s}")
}

fn body_of(element: Element, body: Body) -> String {
    let rational = if body.rational { "rational " } else { "" };
    let mut shown = format!("{rational}{} of degree {}", body.basis.word(), body.u_degree);
    if element.kind == Kind::Surf {
        shown += &format!(" by {}", body.v_degree);
    }
    shown += &format!(", from {} to {}", Decimal(body.u_start), Decimal(body.u_end));
    if element.kind == Kind::Surf {
        shown += &format!(" by {} to {}", Decimal(body.v_start), Decimal(body.v_end));
    }
    if body.loop_parts > 0 {
        shown += &format!(", {}", counted(body.loop_parts, "loop part"));
    }
    shown
}
