//! What the program `rows` prints of a route file, by documents 01 and 02. The form, the refusals and the
//! board are written here; the segments and their spans are the printed Rust's.

use crate::{
    drawn_rows,
    geometry::Point,
    primitives::common::{
        thick_segment, ClosedThickSegmentIter, LineJoin, StrokeOffset, ThickSegment, ThickSegmentIter,
    },
};
use std::ops::Range;

struct Route {
    points: Vec<Point>,
    width: u16,
    closed: bool,
}

/// A run and its row.
type Lit = (i32, Range<i32>);

/// The printed lines.
pub fn rows(file: &[u8]) -> Vec<String> {
    let Some(routes) = routes(file) else {
        return vec!["refused 9".into()];
    };
    let mut lines = vec![format!("routes {}", routes.len())];
    let mut total = 0;
    for (k, route) in routes.iter().enumerate() {
        match lit(route) {
            Ok(runs) => {
                let words = |(row, run): &Lit| format!("{k} {row} {} {}", run.start, run.end);
                lines.extend(runs.iter().map(words));
                total += runs.into_iter().flat_map(|(_, run)| run).count();
            }
            Err(refusal) => lines.push(format!("{k} refused {refusal}")),
        }
    }
    lines.push(format!("total {total}"));
    lines
}

/// `None` where the form is wrong. What lies past the end of the bytes cannot be got.
fn routes(file: &[u8]) -> Option<Vec<Route>> {
    let length = u16::try_from(file.len()).ok()?;
    let (header, behind) = file.split_at_checked(4)?;
    let [count, told] = numbers(header)[..] else {
        return None;
    };
    if told != length || count > 16 {
        return None;
    }
    let (entries, _) = behind.split_at_checked(8 * usize::from(count))?;
    let end = header.len() + entries.len();
    entries.chunks(8).map(|entry| route(file, end, entry)).collect()
}

fn route(file: &[u8], entries_end: usize, entry: &[u8]) -> Option<Route> {
    let [offset, count, width, closed] = numbers(entry)[..] else {
        return None;
    };
    // The entries are no place for points.
    let from = usize::from(offset).checked_sub(entries_end)?;
    let points = file[entries_end..].get(from..)?.get(..4 * usize::from(count))?;
    let coordinates: Vec<i32> = numbers(points).into_iter().map(|n| i32::from(n as i16)).collect();
    Some(Route {
        points: coordinates.chunks(2).map(|pair| Point::new(pair[0], pair[1])).collect(),
        width,
        closed: match closed {
            0 => false,
            1 => true,
            _ => return None,
        },
    })
}

fn numbers(bytes: &[u8]) -> Vec<u16> {
    bytes.chunks(2).map(|pair| u16::from_le_bytes([pair[0], pair[1]])).collect()
}

/// The runs of all rows, or a refusal: its number, and behind 5 the position of the join.
fn lit(route: &Route) -> Result<Vec<Lit>, String> {
    let Route { points, width, closed } = route;
    let refuse = |number: u8, when| if when { Err(number.to_string()) } else { Ok(()) };
    refuse(2, points.len() > 256 || (*closed && points.len() == 1))?;
    refuse(3, *width > 64)?;
    refuse(4, points.iter().any(|point| beyond(511, point)))?;
    refuse(12, is_doubled(points, *closed))?;
    let segments = segments(points, (*width).into(), *closed);
    if let Some(position) = first_far(&segments, points.len()) {
        return Err(format!("5 {position}"));
    }

    let drawn = || segments.iter().map(drawn_rows);
    let first = drawn().map(|(first, _)| first).min().unwrap_or(0);
    let end = drawn().map(|(_, last)| last + 1).max().unwrap_or(0);
    let mut found = Vec::new();
    for row in first..end {
        let mut runs = Vec::new();
        for segment in &segments {
            offer(&mut runs, segment.intersection(row).x);
            refuse(8, runs.len() > 32)?;
        }
        found.extend(runs.into_iter().map(|run| (row, run)));
    }
    Ok(found)
}

/// Two neighbours are equal; of a closed route the last and the first are neighbours too.
fn is_doubled(points: &[Point], closed: bool) -> bool {
    let closing = points.last().zip(points.first()).filter(|_| closed);
    points.windows(2).any(|pair| pair[0] == pair[1]) || closing.is_some_and(|(last, first)| last == first)
}

fn beyond(limit: i32, point: &Point) -> bool {
    point.x.abs() > limit || point.y.abs() > limit
}

fn segments(points: &[Point], width: u32, closed: bool) -> Vec<ThickSegment> {
    if closed {
        ClosedThickSegmentIter::new(points, width, StrokeOffset::None).collect()
    } else {
        ThickSegmentIter::new(points, width, StrokeOffset::None).collect()
    }
}

/// The position of the first join, in the order of the walk, that has a corner beyond 4,095. A segment
/// goes from the point of its place to the next; the point after the last is the first.
fn first_far(segments: &[ThickSegment], count: usize) -> Option<usize> {
    segments.iter().enumerate().find_map(|(place, segment)| {
        let [start, end] = thick_segment::door::joins(segment);
        let positions = [(start, place), (end, (place + 1) % count)];
        positions.iter().find(|(join, _)| is_far(join)).map(|(_, position)| *position)
    })
}

fn is_far(join: &LineJoin) -> bool {
    [join.first_edge_end, join.second_edge_start]
        .iter()
        .any(|corners| beyond(4095, &corners.left) || beyond(4095, &corners.right))
}

/// The runs are ascending and apart; those that the span touches become one with it.
fn offer(runs: &mut Vec<Range<i32>>, span: Range<i32>) {
    if span.is_empty() {
        return;
    }
    let touches = |run: &Range<i32>| run.start <= span.end && span.start <= run.end;
    let first = runs.iter().position(touches);
    let last = runs.iter().rposition(touches);
    if let (Some(first), Some(last)) = (first, last) {
        let start = span.start.min(runs[first].start);
        let end = span.end.max(runs[last].end);
        runs.splice(first..=last, [start..end]);
    } else {
        let place = runs.partition_point(|run| run.end < span.start);
        runs.insert(place, span);
    }
}
