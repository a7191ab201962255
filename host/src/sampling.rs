//! Points of curves and surfaces, asked of the tables; and the sweep. A refusal has no place in the text: it is a [`Reason`] alone.
use crate::raw;
use crate::records::{Dropped, Point};
use crate::refusal::Reason;
use crate::tables::Tables;
use crate::{MOST_POLYLINE_POINTS, MOST_STEPS};

impl Tables {
    /// The point at `t` of the `curv` or `curv2` of that number, from 1 over all elements. Refuses 17, 15, 18, 19, in this order.
    pub fn point_on_curve(&self, element: u32, t: i32) -> Result<Point, Reason> {
        point(raw::point_on_curve(self, element, t))
    }

    /// The point at `j`/64 of a segment of the `curv` or `curv2` of that number, a cubic Bezier; segments count from 0. From one table of weights:
    /// each coordinate is within half a millionth of the exact value. Refuses 17, 15, 18, 19, in this order: 18 also for another type or degree,
    /// 19 for `j` over 64, no such segment, or a step outside the range.
    pub fn cubic_at(&self, element: u32, segment: u32, j: u32) -> Result<Point, Reason> {
        point(raw::cubic_at(self, element, segment, j))
    }

    /// The point at `s` along u and `t` along v of the `surf` of that number. Refuses 17, 15, 18, 19, in this order.
    pub fn point_on_surface(&self, element: u32, s: i32, t: i32) -> Result<Point, Reason> {
        point(raw::point_on_surface(self, element, s, t))
    }

    /// A run of `steps` steps, 1 to 65,536, on the `curv` or `curv2` of that number: `steps + 1` points, point `j` at
    /// start + floor(`j` (end - start) / `steps`). Refuses 17, 15, 18, 19, in this order.
    pub fn run_on_curve(&self, element: u32, steps: u32) -> Result<Vec<Point>, Reason> {
        let points = steps.min(MOST_STEPS) as usize + 1;
        let mut numbers = vec![0; 3 * points];
        let written = self.run_into(element, steps, &mut numbers, 0)?;
        Ok(points_of(&numbers[..written], written / points))
    }

    /// The same, its numbers written to `points` from entry `at` on, three a point, of a `curv2` two; answers how many. Refuses 16 too, where they
    /// have no room. A refusal leaves `points` as it was.
    pub fn run_into(&self, element: u32, steps: u32, points: &mut [i32], at: usize) -> Result<usize, Reason> {
        let answer = raw::run_on_curve(self, element, steps, points, at);
        unless_refused(answer.refusal)?;
        Ok(answer.numbers)
    }

    /// The polyline of the `curv` or `curv2` of that number: few points where it is straight. The range is halved, at most 12 times, until twice
    /// the sampled middle of an interval is within twice the tolerance of the sum of its end points on each axis, or the interval is one millionth
    /// long. Its points go from start to end. Refuses 17, 15, 18, 19 (a negative tolerance), in this order.
    ///
    /// Only the middle of an interval is looked at: a curve that swings to both sides of a chord and crosses it there passes for straight.
    pub fn polyline(&self, element: u32, tolerance: i32) -> Result<Vec<Point>, Reason> {
        let mut numbers = vec![0; 3 * MOST_POLYLINE_POINTS];
        let points = self.polyline_into(element, tolerance, &mut numbers, 0)?;
        let axes = if self.is_in_plane(element) { 2 } else { 3 };
        Ok(points_of(&numbers[..axes * points], axes))
    }

    /// The same, its numbers written to `points` from entry `at` on, three a point, of a `curv2` two; answers how many points. Refuses 16 too,
    /// where they have no room. A refusal leaves `points` as it was.
    pub fn polyline_into(&self, element: u32, tolerance: i32, points: &mut [i32], at: usize) -> Result<usize, Reason> {
        let answer = raw::polyline(self, element, tolerance, points, at);
        unless_refused(answer.refusal)?;
        Ok(answer.points as usize)
    }

    /// Removes every `v`, `vt`, `vn` and `vp` that no corner names, closes the gaps and renumbers the corners; answers how many of each kind were
    /// dropped, and sets the used counts. Every element shows the same coordinates, names and loops as before. The front of `numbers` gets, for
    /// each old record, all `v`, then `vt`, `vn`, `vp`, its new number, or 0 where it was dropped: [`crate::Used::vertices`] entries.
    ///
    /// A refusal changes nothing: 15 where any record breaks a rule, or runs do not follow on as reading lays them; 16 where `numbers` lacks room.
    pub fn sweep(&mut self, numbers: &mut [u32]) -> Result<Dropped, Reason> {
        let answer = raw::sweep(self, numbers);
        unless_refused(answer.refusal)?;
        self.used = answer.used;
        Ok(answer.dropped)
    }
}

/// The library answers 0 where nothing is refused, and else 1 to 19.
pub(crate) fn unless_refused(number: u32) -> Result<(), Reason> {
    match Reason::of(number) {
        None => Ok(()),
        Some(reason) => Err(reason),
    }
}

fn point(answer: raw::Point) -> Result<Point, Reason> {
    unless_refused(answer.refusal)?;
    let raw::Point { x, y, z, .. } = answer;
    Ok(if answer.axes == 2 { Point::Plane { u: x, v: y } } else { Point::Space { x, y, z } })
}

fn points_of(numbers: &[i32], axes: usize) -> Vec<Point> {
    let each = numbers.chunks_exact(axes).map(|point| match *point {
        [u, v] => Point::Plane { u, v },
        _ => Point::Space { x: point[0], y: point[1], z: point[2] },
    });
    each.collect()
}
