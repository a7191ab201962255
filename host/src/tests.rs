//! The wrappers against answers worked out by hand; the texts of `examples/` and what the second program makes of them are in `check.sh`.
use super::*;

const CURVE: &[u8] = b"v 0 0 0\nv 1 0 0\nv 2 0 0\nv 3 0 0\ncstype bezier\ndeg 3\ng rail top\nusemtl oak\ncurv 0 1 1 2 3 4\nparm u 0 1\nend\n";
const SURFACE: &[u8] =
    b"v 0 0 0\nv 2 0 0\nv 0 2 0\nv 2 2 4\ncstype bezier\ndeg 1 1\nsurf 0 1 0 1 1 2 3 4\nparm u 0 1\nparm v 0 1\nend\n";

fn read_whole(text: &[u8]) -> Tables {
    let mut tables = Tables::for_text(text);
    read(text, &mut tables).unwrap();
    tables
}

#[test]
fn a_curve_is_read_asked_and_sampled() {
    let tables = read_whole(CURVE);
    assert_eq!(tables.used, Used { v: 4, corners: 12, elements: 1, bodies: 1, parameters: 2, ..Used::default() });
    assert_eq!(tables.corner(1, 3), Some(Corner { v: 4, vt: 0, vn: 0 }));
    assert_eq!(tables.corner(1, 4), None);
    assert!(tables.group_names(CURVE, 1).eq(["rail", "top"]));
    assert_eq!(tables.material(CURVE, 1), Some("oak"));
    assert_eq!((tables.group_names(CURVE, 2).count(), tables.material(CURVE, 2)), (0, None));
    assert_eq!(tables.group_names(&CURVE[..9], 1).count(), 0);
    let element = tables.element(1).unwrap();
    assert_eq!((element.kind, element.corners, element.body), (Kind::Curv, 4, 1));
    let body = tables.body(1).unwrap();
    assert_eq!((body.basis, body.u_degree, body.u_start, body.u_end), (Basis::Bezier, 3, 0, 1_000_000));
    assert_eq!(tables.point_on_curve(1, 500_000), Ok(Point::Space { x: 1_500_000, y: 0, z: 0 }));
}

#[test]
fn what_an_element_has_is_asked_in_turn() {
    let text =
        b"v 0 0 0\nv 1 0 0\nv 1 1 0\nvp 0 0\nvp 1 1\nf 1 2 3\ncstype bezier\ndeg 1\ncurv2 1 2\nparm u 0 1\nend\n\
        deg 1 1\nsurf 0 1 0 2 1 2 3 3\nparm u 0 1\nparm v 0 2\ntrim 0 1 1\nend\ndeg 1\ncurv2 2 1\nparm u 3 4\nend\n";
    let tables = Tables::read(text).unwrap();
    assert!(tables.elements().map(|(_, element)| element.kind).eq([Kind::F, Kind::Curv2, Kind::Surf, Kind::Curv2]));
    assert!(tables.corners(1).map(|corner| corner.v).eq([1, 2, 3]));
    assert_eq!((tables.corners(0).count(), tables.corners(5).count()), (0, 0));
    let surf = tables.body(tables.element(3).unwrap().body).unwrap();
    assert!(tables.u_parameters(&surf).eq([0, 1_000_000]));
    assert!(tables.v_parameters(&surf).eq([0, 2_000_000]));
    assert!(tables.bodies().map(|(number, body)| (number, body.v_degree)).eq([(1, 0), (2, 1), (3, 0)]));
    let part = tables.loop_parts(&surf).next().unwrap();
    assert_eq!((part.begins, tables.curv2_element(part.curve)), (Begins::Trim, Some(2)));
    assert_eq!([0, 1, 2, 3].map(|number| tables.curv2_element(number)), [None, Some(2), Some(4), None]);
    assert_eq!(tables.curv2_elements(), [2, 4]);
}

#[test]
fn runs_and_polylines_are_points() {
    let tables = read_whole(CURVE);
    let at = |x| Point::Space { x, y: 0, z: 0 };
    assert_eq!(tables.run_on_curve(1, 2), Ok(vec![at(0), at(1_500_000), at(3_000_000)]));
    assert_eq!(tables.polyline(1, 0), Ok(vec![at(0), at(3_000_000)]));
    for steps in [0, MOST_STEPS + 1, u32::MAX] {
        assert_eq!(tables.run_on_curve(1, steps), Err(Reason::ParameterOutside));
    }
    assert_eq!(tables.run_on_curve(1, MOST_STEPS).unwrap().len(), MOST_STEPS as usize + 1);
    let plane = read_whole(b"vp 0 0\nvp 1 -1\ncstype bezier\ndeg 1\ncurv2 1 2\nparm u 0 1\nend\n");
    let ends = vec![Point::Plane { u: 0, v: 0 }, Point::Plane { u: 1_000_000, v: -1_000_000 }];
    assert_eq!((plane.run_on_curve(1, 1), plane.polyline(1, 0)), (Ok(ends.clone()), Ok(ends)));
    assert_eq!(plane.polyline(1, -1), Err(Reason::ParameterOutside));
}

#[test]
fn a_run_fills_its_part_alone() {
    let tables = read_whole(CURVE);
    let mut points = [7; 11];
    assert_eq!(tables.run_into(1, 2, &mut points, 1), Ok(9));
    assert_eq!(points, [7, 0, 0, 0, 1_500_000, 0, 0, 3_000_000, 0, 0, 7]);
    let before = points;
    assert_eq!(tables.run_into(1, 2, &mut points, 3), Err(Reason::OutputLacksRoom));
    assert_eq!(tables.run_into(1, 0, &mut points, 0), Err(Reason::ParameterOutside));
    assert_eq!(tables.run_into(2, 1, &mut points, 0), Err(Reason::NoSuchElement));
    assert_eq!(points, before);
}

#[test]
fn a_polyline_fills_its_part_alone() {
    let tables = read_whole(b"v 0 0 0\nv 4 4 0\nv 8 0 0\ncstype bezier\ndeg 1\ncurv -3 5 1 2 3\nparm u -3 1 5\nend\n");
    let mut points = [7; 11];
    assert_eq!(tables.polyline_into(1, 3_999_999, &mut points, 1), Ok(3));
    assert_eq!(points, [7, 0, 0, 0, 4_000_000, 4_000_000, 0, 8_000_000, 0, 0, 7]);
    assert_eq!(tables.polyline_into(1, 4_000_000, &mut points, 5), Ok(2));
    let before = points;
    for (element, tolerance, at, number) in [(1, 0, 3, 16), (1, -1, 0, 19), (2, 0, 0, 17), (1, 0, usize::MAX, 16)] {
        assert_eq!(tables.polyline_into(element, tolerance, &mut points, at), Err(Reason::of(number).unwrap()));
    }
    assert_eq!(points, before);
}

#[test]
fn a_cubic_is_sampled_in_steps() {
    let tables = read_whole(CURVE);
    for j in 0..=CUBIC_STEPS {
        assert_eq!(tables.cubic_at(1, 0, j), Ok(Point::Space { x: 46_875 * j as i32, y: 0, z: 0 }));
    }
    assert_eq!(tables.cubic_at(1, 0, 65), Err(Reason::ParameterOutside));
    assert_eq!(tables.cubic_at(1, 1, 0), Err(Reason::ParameterOutside));
    assert_eq!(tables.cubic_at(2, 0, 0), Err(Reason::NoSuchElement));
    assert_eq!(read_whole(SURFACE).cubic_at(1, 0, 0), Err(Reason::NoSuchElement));
}

#[test]
fn a_surface_is_sampled() {
    let tables = read_whole(SURFACE);
    assert_eq!(
        tables.point_on_surface(1, 500_000, 500_000),
        Ok(Point::Space { x: 1_000_000, y: 1_000_000, z: 1_000_000 })
    );
    assert_eq!(tables.point_on_surface(1, 0, 1_000_001), Err(Reason::ParameterOutside));
    assert_eq!(tables.point_on_curve(1, 0), Err(Reason::NoSuchElement));
}

#[test]
fn broken_tables_are_refused_with_15() {
    let mut tables = read_whole(CURVE);
    tables.corners[0] = 99;
    assert_eq!(tables.point_on_curve(1, 0), Err(Reason::RecordsBreakRules));
    tables.corners.clear();
    assert_eq!(tables.corner(1, 0), None);
    assert_eq!(tables.point_on_curve(1, 0), Err(Reason::RecordsBreakRules));
}

#[test]
fn a_refusal_leaves_zeros() {
    let text = b"v 0 0 0\nf 1 1 2\n";
    let mut tables = read_whole(CURVE);
    assert_eq!(read(text, &mut tables), Err(Refusal::new(Reason::ReferenceToNothing, 14)));
    assert_eq!(tables.used, Used::default());
    assert!(tables.v.iter().all(|&n| n == 0) && tables.elements.iter().all(|&n| n == 0));
}

#[test]
fn room_is_counted_in_entries() {
    let rooms = Rooms { v: 7, ..Rooms::default() };
    let mut tables = Tables::with_rooms(&rooms);
    assert_eq!(read(b"v 1 2 3\n", &mut tables), Ok(()));
    assert_eq!(tables.v, [1_000_000, 2_000_000, 3_000_000, 1_000_000, 0, 0, 0]);
    assert_eq!(read(b"v 1 2 3\nv 1 2 3\n", &mut tables), Err(Refusal::new(Reason::TableLacksRoom, 8)));
}

fn total(rooms: Rooms) -> usize {
    let Rooms { v, vt, vn, vp, corners, elements, bodies, ranges, parameters, loops, spans } = rooms;
    v + vt + vn + vp + corners + elements + bodies + ranges + parameters + loops + spans
}

#[test]
fn room_is_counted_by_lines() {
    let mesh = b"v 0 0 0\r\n  vt 1\n# v 1 2 3\nvn 0 0 1\nf 1/1/1 1/1/1 1/1/1 # and no more\nvx 1\n# a \\\nvp 1\n";
    let wanted = Rooms { v: 4, vt: 3, vn: 3, vp: 4, elements: 9, corners: 9, ..Rooms::default() };
    assert_eq!(rooms_of(mesh), wanted);
    let joined =
        b"\\\nf 1 2 \\\n 3 \\\r\n 4\ncurv 0 1 1 2\nparm \\\n u 0 1 \\\n 2 3\nend\ntrim 0 1 1 1 2 1\nhole 0 1 1\n";
    let wanted = Rooms {
        elements: 18,
        corners: 18,
        bodies: 9,
        ranges: 4,
        parameters: 4,
        loops: 6,
        spans: 6,
        ..Rooms::default()
    };
    assert_eq!(rooms_of(joined), wanted);
    assert_eq!(rooms_of(b"v 1 2 3\nv 1\x7f\nv 1 2 3\n"), Rooms { v: 4, ..Rooms::default() });
    assert_eq!(rooms_of(&vec![b'v'; MOST_BYTES + 1]), Rooms::default());
}

#[test]
fn no_text_asks_for_much() {
    for block in ["f\\\n", "surf\n", "p\n", "f 1 1 1\n", "curv2 1 1\n", "p 1 1 1 1 1 1 1 1\n"] {
        let text = block.repeat(200_000);
        assert!(total(rooms_of(text.as_bytes())) <= 11 * (text.len() + 1), "{block}");
    }
    assert_eq!(total(rooms_of(&b"f\\\n".repeat(200_000))), 9 + 3 * 199_999);
}

#[test]
fn the_empty_text_is_read() {
    assert_eq!(read_whole(b""), Tables::default());
}

#[test]
fn a_text_is_tidied() {
    let text = b"# plate\nv 0 0 0\nv 1.5 0 0\nv 1.5 .25 0\ng top\nf -3 -2 -1\n";
    let short =
        b"v 0.000000 0.000000 0.000000\nv 1.500000 0.000000 0.000000\nv 1.500000 0.250000 0.000000\ng top\nf 1 2 3\n";
    let long = b"v 0.000000 0.000000 0.000000 1.000000\nv 1.500000 0.000000 0.000000 1.000000\nv 1.500000 0.250000 0.000000 1.000000\ng top\nf 1 2 3\n";
    for from in [&text[..], short, long] {
        assert_eq!(tidy_text(from, Weights::WhenNeeded).as_deref(), Ok(&short[..]));
        assert_eq!(tidy_text(from, Weights::Always).as_deref(), Ok(&long[..]));
    }
    assert_eq!(Weights::default(), Weights::WhenNeeded);
    assert_eq!(tidy_text(b"f 1 1 1\n", Weights::WhenNeeded), Err(Refusal::new(Reason::ReferenceToNothing, 2)));
}

#[test]
fn a_tidy_text_without_room_leaves_the_buffer() {
    let mut tables = Tables::for_text(CURVE);
    let mut out = [9; 4];
    let needed = tidy_text(CURVE, Weights::WhenNeeded).unwrap().len();
    let refusal = Refusal { reason: Reason::OutputLacksRoom, place: 0, needed };
    assert_eq!(tidy(CURVE, Weights::WhenNeeded, &mut tables, &mut out), Err(refusal));
    assert_eq!(out, [9; 4]);
    assert_eq!(tables, read_whole(CURVE));
}

#[test]
fn the_room_of_a_tidy_text_is_that_of_the_form_chosen() {
    let text = b"v 1 2 3\n";
    let mut out = [9; 29];
    assert_eq!(
        tidy(text, Weights::Always, &mut Tables::for_text(text), &mut out),
        Err(Refusal { reason: Reason::OutputLacksRoom, place: 0, needed: 38 })
    );
    assert_eq!(out, [9; 29]);
    assert_eq!(tidy(text, Weights::WhenNeeded, &mut Tables::for_text(text), &mut out), Ok(29));
    assert_eq!(&out, b"v 1.000000 2.000000 3.000000\n");
}

#[test]
fn a_tidy_text_over_the_limit_needs_more_than_there_is() {
    let text = b"v 1 2 3 4\n".repeat(MOST_BYTES / 37);
    let refusal = tidy_text(&text, Weights::WhenNeeded).unwrap_err();
    assert_eq!((refusal.reason, refusal.needed), (Reason::OutputLacksRoom, MOST_BYTES + 1));
}

// A number that is no choice counts as 0.
#[test]
fn any_other_number_leaves_the_weights_off() {
    let text = b"v 1 2 3\nv 1 2 3 4\n";
    for number in [0, 2, u32::MAX] {
        let mut out = [9; 99];
        let answer = raw::tidy(text, number, &mut Tables::for_text(text), &mut out);
        assert_eq!(&out[..answer.length], b"v 1.000000 2.000000 3.000000\nv 1.000000 2.000000 3.000000 4.000000\n");
    }
}

#[test]
fn a_sweep_drops_what_no_corner_names() {
    let text =
        b"v 9 9 9\nv 0 0 0\nv 9 9 9\nv 1 0 0\nv 1 1 0\nvt 7\nvt 8\nvn 0 0 1\ng top\nf 2//1 4//1 5//1\nl 4/2 5/2\n";
    let mut tables = read_whole(text);
    let before = tables.clone();
    let mut numbers = [77; 10];
    assert_eq!(tables.sweep(&mut numbers[..7]), Err(Reason::OutputLacksRoom));
    assert_eq!((&tables, numbers), (&before, [77; 10]));
    assert_eq!(tables.sweep(&mut numbers), Ok(Dropped { v: 2, vt: 1, vn: 0, vp: 0 }));
    assert_eq!(numbers, [0, 1, 0, 2, 3, 0, 1, 1, 77, 77]);
    assert_eq!((tables.used.v, tables.used.vt, tables.used.vn), (3, 1, 1));
    assert_eq!(tables.corner(1, 2), Some(Corner { v: 3, vt: 0, vn: 1 }));
    assert_eq!(tables.corner(2, 0), Some(Corner { v: 2, vt: 1, vn: 0 }));
    assert_eq!(tables.vertex(3), before.vertex(5));
    assert_eq!(tables.v[12..], [0; 8]);
    assert!(tables.group_names(text, 1).eq(["top"]));
    let after = tables.clone();
    assert_eq!(tables.sweep(&mut numbers), Ok(Dropped::default()));
    assert_eq!((&tables, &numbers[..5]), (&after, &[1, 2, 3, 1, 1][..]));
    tables.elements[1] = 3;
    assert_eq!(tables.sweep(&mut numbers), Err(Reason::RecordsBreakRules));
}
