//! K4 of document 02, which the crate does not have: how the coordinates of a crossing come out, and
//! which corners of a join are crossings. Worked out over 128 bits from the ends of the lines.

use crate::{
    geometry::Point,
    primitives::{
        common::{JoinKind, LineSide, StrokeOffset},
        line::door::extents,
        IntersectionParams, Line,
    },
};

/// A letter for each coordinate of the crossing of two lines that are not parallel: E a whole number,
/// H half way between two, R neither.
pub fn divisions(first: &Line, second: &Line) -> String {
    let [(ax, ay), (bx, by)] = ends(first);
    let [(cx, cy), (dx, dy)] = ends(second);
    let (of_first, of_second) = (ax * by - ay * bx, cx * dy - cy * dx);
    let divisor = (ax - bx) * (cy - dy) - (ay - by) * (cx - dx);
    let x = of_first * (cx - dx) - (ax - bx) * of_second;
    let y = of_first * (cy - dy) - (ay - by) * of_second;
    [x, y].map(|numerator| letter(numerator, divisor)).into_iter().collect()
}

fn ends(line: &Line) -> [(i128, i128); 2] {
    [line.start, line.end].map(|point| (point.x as i128, point.y as i128))
}

fn letter(numerator: i128, divisor: i128) -> char {
    match numerator.rem_euclid(divisor.abs()) {
        0 => 'E',
        rest if 2 * rest == divisor.abs() => 'H',
        _ => 'R',
    }
}

/// Of the left and of the right corners of a join of a-b and b-c the letters of the crossing that they
/// are, or `-`: a miter uses both crossings, a bevel that of its inner side, unless the edges run nearly
/// alike.
pub fn words(kind: &JoinKind, [a, b, c]: [Point; 3], width: i32, offset: StrokeOffset) -> String {
    let (on_left, on_right) = match kind {
        JoinKind::Miter => (true, true),
        JoinKind::Bevel { outer_side } => (*outer_side == LineSide::Right, *outer_side == LineSide::Left),
        _ => (false, false),
    };
    if !on_left && !on_right {
        return "- -".into();
    }
    let (left, right) = extents(&Line::new(a, b), width as u32, offset);
    let (next_left, next_right) = extents(&Line::new(b, c), width as u32, offset);
    format!("{} {}", origin(on_left, &next_left, &left), origin(on_right, &next_right, &right))
}

fn origin(is_used: bool, second: &Line, first: &Line) -> String {
    if is_used && !IntersectionParams::from_lines(second, first).nearly_colinear_has_error() {
        divisions(second, first)
    } else {
        "-".into()
    }
}
