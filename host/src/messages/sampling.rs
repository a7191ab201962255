//! 15 and 17 to 19: why an element is not sampled as asked.
use super::list;
use crate::{Basis, Decimal, Kind, Reason, Tables, MOST_STEPS};

/// What was asked of an element.
#[derive(Clone, Copy, Debug, PartialEq, Eq)]
pub enum Asked {
    /// Points in steps: along u, and of a surf along v too.
    Steps(u32, u32),
    /// The point at a parameter, of a surf at two.
    At(i32, Option<i32>),
    /// A polyline of that tolerance.
    Polyline(i32),
    /// The points of a cubic in 64ths.
    Cubic,
}

/// What sampling found with the refusal, and what was expected. None where its words say all.
pub fn sampling_message(tables: &Tables, element: u32, asked: Asked, reason: Reason) -> Option<String> {
    match reason {
        Reason::NoSuchElement => Some(no_such(tables, element, asked)),
        Reason::NotSampled => other_type(tables, element, asked),
        Reason::ParameterOutside => out_of_range(tables, element, asked),
        _ => None,
    }
}

fn no_such(tables: &Tables, element: u32, asked: Asked) -> String {
    let Some(kind) = tables.element(element).map(|found| found.kind) else {
        let many = tables.used.elements;
        let have = if many == 1 { "is 1 element".into() } else { format!("are {many} elements") };
        return format!("there is no element {element}: there {have}");
    };
    let curves = [Kind::Curv.keyword(), Kind::Curv2.keyword()];
    let all = [Kind::Curv.keyword(), Kind::Curv2.keyword(), Kind::Surf.keyword()];
    let wanted =
        if matches!(asked, Asked::Polyline(_) | Asked::Cubic) { list(&curves, "or") } else { list(&all, "or") };
    format!("element {element} is a {}, and not a {wanted}", kind.keyword())
}

fn other_type(tables: &Tables, element: u32, asked: Asked) -> Option<String> {
    let body = tables.element(element).and_then(|found| tables.body(found.body))?;
    let basis = body.basis;
    if body.rational {
        return Some(format!("element {element} is rational"));
    }
    if asked == Asked::Cubic && basis.is_sampled() {
        let degree = body.u_degree;
        return Some(format!(
            "element {element} is a {} of degree {degree}, and not a {} of degree 3",
            basis.word(),
            Basis::Bezier.word()
        ));
    }
    Some(format!("element {element} is a {}", basis.word()))
}

fn out_of_range(tables: &Tables, element: u32, asked: Asked) -> Option<String> {
    let body = tables.element(element).and_then(|found| tables.body(found.body))?;
    match asked {
        Asked::Steps(..) => Some(format!("a run has 1 to {MOST_STEPS} steps")),
        Asked::Polyline(tolerance) => Some(format!("the tolerance {} is below 0", Decimal(tolerance))),
        Asked::Cubic => None,
        Asked::At(t, None) => Some(outside("", t, body.u_start, body.u_end)),
        Asked::At(s, Some(_)) if s < body.u_start || body.u_end < s => {
            Some(outside(" along u", s, body.u_start, body.u_end))
        }
        Asked::At(_, Some(t)) => Some(outside(" along v", t, body.v_start, body.v_end)),
    }
}

fn outside(direction: &str, t: i32, start: i32, end: i32) -> String {
    format!("{} is outside the range{direction}, {} to {}", Decimal(t), Decimal(start), Decimal(end))
}
