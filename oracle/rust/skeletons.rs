//! Looks for skeletons from width 2 on: joins whose two corners `first_edge_end` are one point z,
//! with strokes on both sides of their line. Edges are taken for endless lines here, and points are
//! seen from the bend: edges move with their leg. How a half is rounded does not, which is why the
//! border of a cell counts below.
//!
//! Where a route starts, both edges of its first leg then start in one point.
//!
//! At a bend: the cell of a point is the square of side 1 around it, its border included, and what is
//! rounded to the point lies in it. Either z is the end of an edge of the first leg, and then the other
//! edge meets the cell of that end. Or both corners are rounded crossings, so that both edges of the
//! first leg and both of the second meet the cell of z; then z is the tip of a miter that is kept (of
//! one that is cut the end of an edge is taken), and lies within 2·width of the bend. At width 2 the
//! right edges are the legs, whose crossing and ends are the bend, and so is z. So each leg can be tried
//! alone, and inside the limits there are only so many; where both kinds of legs are found they are
//! tried together.

use crate::{
    geometry::Point,
    primitives::{common::StrokeOffset, line, Line},
};
use std::collections::{BTreeMap, BTreeSet};

/// The longest leg between points within 511, on each axis.
const LEG: i32 = 1022;

/// The left and the right edge of a leg, and the leg.
#[derive(Clone, Copy)]
struct Edges {
    left: Line,
    right: Line,
    leg: Point,
}

/// Edges by the points z that they have in common, as x and y.
type ByPoint = BTreeMap<(i32, i32), Vec<Edges>>;

/// A line for each width: how many legs have edges that start or end in one point, or, from width 3 on, an
/// edge that comes to the end of the other; the legs with a point z at their end, and at their start; and
/// how many of the former make a skeleton with one of the latter.
pub fn print() {
    assert!(i32::BITS == 64, "the variant `wide` counts in 64 bits, and thresholds need them");
    for width in 2..=64 {
        let (mut close, mut ends, mut starts) = (0, ByPoint::new(), ByPoint::new());
        for leg in legs() {
            let (left, right) =
                line::door::extents(&Line::new(Point::zero(), leg), width, StrokeOffset::None);
            let edges = Edges { left, right, leg };
            assert!(width > 2 || right == Line::new(Point::zero(), leg));
            close += usize::from(is_close(&edges, width as i32));
            collect(&mut starts, edges, width as i32);
            collect(&mut ends, seen_from_end(&edges), width as i32);
        }
        let bends = ends.iter().map(|(z, first)| bends_at(*z, first, starts.get(z))).sum::<usize>();
        println!(
            "width {width}: {close} close, {} at an end, {} at a start, {bends} bends",
            told(&ends),
            told(&starts)
        );
    }
}

fn legs() -> impl Iterator<Item = Point> {
    (-LEG..=LEG).flat_map(|x| (-LEG..=LEG).map(move |y| Point::new(x, y)))
}

/// The legs, or how many where they are more than four.
fn told(found: &ByPoint) -> String {
    let legs: BTreeSet<_> = found.values().flatten().map(|edges| (edges.leg.x, edges.leg.y)).collect();
    if legs.len() > 4 {
        format!("{} legs", legs.len())
    } else {
        format!("{legs:?}")
    }
}

fn seen_from_end(edges: &Edges) -> Edges {
    let Edges { left, right, leg } = *edges;
    let moved = |line: Line| Line::new(line.start - leg, line.end - leg);
    Edges { left: moved(left), right: moved(right), leg }
}

/// Whether both edges start in one point, or the end of one can be both corners. An edge of no length
/// makes a bend Colinear: then both are ends, and must differ. At width 2 one edge ends in the bend,
/// which is then the only z; many left edges come to its cell, and `common` gathers them all.
fn is_close(edges: &Edges, width: i32) -> bool {
    let Edges { left, right, .. } = edges;
    let is_met = || meets(right, left.end) || meets(left, right.end);
    left.start == right.start
        || left.end == right.end
        || width > 2 && has_length(edges) && is_met()
}

fn has_length(edges: &Edges) -> bool {
    edges.left.start != edges.left.end && edges.right.start != edges.right.end
}

fn collect(found: &mut ByPoint, edges: Edges, width: i32) {
    for z in common(&edges, width) {
        found.entry((z.x, z.y)).or_default().push(edges);
    }
}

fn cross(a: Point, b: Point) -> i32 {
    a.x * b.y - a.y * b.x
}

/// Whether the line comes to the cell of the point.
fn meets(line: &Line, point: Point) -> bool {
    let delta = line.end - line.start;
    2 * cross(point - line.start, delta).abs() <= delta.x.abs() + delta.y.abs()
}

/// The points whose cells both edges meet, and that may be a corner.
fn common(edges: &Edges, width: i32) -> Vec<Point> {
    let reach = if width == 2 { 0 } else { 2 * width };
    if !has_length(edges) || are_apart(edges) {
        return Vec::new();
    }
    let is_near = |z: &Point| z.x * z.x + z.y * z.y <= reach * reach;
    let candidates = (-reach..=reach).flat_map(|along| beside(&edges.left, along));
    candidates
        .filter(|z| is_near(z) && meets(&edges.left, *z) && meets(&edges.right, *z))
        .collect()
}

/// Whether the edges are parallel, and no cell is wide enough for both.
fn are_apart(edges: &Edges) -> bool {
    let Edges { left, right, .. } = edges;
    let (a, b) = (left.end - left.start, right.end - right.start);
    cross(a, b) == 0 && cross(left.start - right.start, a).abs() > a.x.abs() + a.y.abs()
}

/// The points at a place of the axis along which a line runs whose cells it may meet.
fn beside(line: &Line, along: i32) -> [Point; 4] {
    let Line { start, end } = *line;
    let delta = end - start;
    if delta.x.abs() >= delta.y.abs() {
        let y = start.y + ((along - start.x) * delta.y).div_euclid(delta.x);
        [-1, 0, 1, 2].map(|more| Point::new(along, y + more))
    } else {
        let x = start.x + ((along - start.y) * delta.x).div_euclid(delta.y);
        [-1, 0, 1, 2].map(|more| Point::new(x + more, along))
    }
}

/// How many of the first legs make a skeleton at z with some second leg. Of second legs whose edges are
/// the same endless lines one is enough.
fn bends_at(z: (i32, i32), first: &[Edges], second: Option<&Vec<Edges>>) -> usize {
    let z = Point::new(z.0, z.1);
    let lines: BTreeMap<_, _> = second
        .into_iter()
        .flatten()
        .map(|edges| ((endless(&edges.left), endless(&edges.right)), edges))
        .collect();
    let is_skeleton = |a: &Edges, b: &Edges| {
        cross_at(&a.left, &b.left, z) && cross_at(&a.right, &b.right, z)
    };
    first.iter().filter(|a| lines.values().any(|b| is_skeleton(a, b))).count()
}

/// A line by the equation of its points, in the lowest whole numbers, the first not negative.
fn endless(line: &Line) -> (i32, i32, i32) {
    let delta = line.end - line.start;
    let (a, b, c) = (delta.y, -delta.x, cross(line.start, delta));
    let divisor = divisor(divisor(a.abs(), b.abs()), c.abs());
    let sign = if (a, b) < (0, 0) { -1 } else { 1 };
    (sign * a / divisor, sign * b / divisor, sign * c / divisor)
}

fn divisor(a: i32, b: i32) -> i32 {
    if b == 0 { a } else { divisor(b, a % b) }
}

/// Whether two lines cross in the cell of the point.
fn cross_at(a: &Line, b: &Line, z: Point) -> bool {
    let (d, e) = (a.end - a.start, b.end - b.start);
    let determinant = cross(d, e);
    let along = cross(b.start - a.start, e);
    let x = (a.start.x - z.x) * determinant + along * d.x;
    let y = (a.start.y - z.y) * determinant + along * d.y;
    determinant != 0 && 2 * x.abs() <= determinant.abs() && 2 * y.abs() <= determinant.abs()
}
