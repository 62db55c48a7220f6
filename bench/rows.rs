//! The benchmark's program: the rows of one route, drawn by the port and by the Rust.
//!
//! `rows check WIDTH CLOSED X Y ..` compares the columns of every row and prints how many rows
//! there are. `rows SIDE TIMES WIDTH CLOSED X Y ..` draws all rows that many times by one side.

mod draw_target;
mod geometry;
mod primitives;
mod transform;

use geometry::Point;
use primitives::{
    common::{ClosedThickSegmentIter, Scanline, StrokeOffset, ThickSegment, ThickSegmentIter},
    polyline::ScanlineIntersections,
};
use std::{collections::BTreeSet, env, hint::black_box, process};

struct Route {
    coordinates: Vec<i64>,
    points: Vec<Point>,
    width: u32,
    closed: bool,
}

/// Writes the spans of each row to the front of the list; the number of the last row's columns.
type Side = fn(&Route, &[i64], &mut [i64]) -> i64;

const SIDES: [(&str, Side); 4] = [
    ("port-entry", port_by_entry),
    ("port-kept", port_of_joins),
    ("rust-anew", rust_anew),
    ("rust-kept", rust_kept),
];

fn main() {
    let words: Vec<String> = env::args().skip(1).collect();
    let words: Vec<&str> = words.iter().map(String::as_str).collect();
    match words[..] {
        ["check", ref route @ ..] => check(&route_of(route)),
        [side, times, ref route @ ..] => {
            let (_, draw) = SIDES.into_iter().find(|(name, _)| *name == side).unwrap();
            draw_times(draw, times.parse().unwrap(), &route_of(route));
        }
        _ => panic!("no such question"),
    }
}

fn route_of(words: &[&str]) -> Route {
    let numbers: Vec<i64> = words.iter().map(|word| word.parse().unwrap()).collect();
    let (head, coordinates) = numbers.split_at(2);
    let point = |pair: &[i64]| Point::new(pair[0] as i32, pair[1] as i32);
    Route {
        coordinates: coordinates.to_vec(),
        points: coordinates.chunks_exact(2).map(point).collect(),
        width: head[0] as u32,
        closed: head[1] == 1,
    }
}

fn draw_times(draw: Side, times: usize, route: &Route) {
    let rows = rows_of(route);
    let mut out = room();
    for _ in 0..times {
        black_box(draw(black_box(route), black_box(&rows), black_box(&mut out)));
    }
}

fn check(route: &Route) {
    let rows = rows_of(route);
    for row in &rows {
        let [expected, rest @ ..] = SIDES.map(|(name, draw)| (name, columns(draw, route, *row)));
        for (name, found) in rest {
            if found != expected.1 {
                eprintln!("row {row}: {name} {found:?}, {} {:?}", expected.0, expected.1);
                process::exit(1);
            }
        }
    }
    println!("{}", rows.len());
}

/// The columns that one side lights on a row.
fn columns(draw: Side, route: &Route, row: i64) -> BTreeSet<i64> {
    let mut out = room();
    let count = draw(route, &[row], &mut out);
    let spans = out.chunks_exact(2).map(|span| span[0]..span[1]);
    spans.flatten().take(count as usize).collect()
}

/// Twice the most spans that a row can have.
fn room() -> Vec<i64> {
    vec![0; 512]
}

/// The rows that every side draws: those of the segments' boxes, as the crate takes them.
fn rows_of(route: &Route) -> Vec<i64> {
    let boxes = segments(route).into_iter().map(|segment| segment.edges_bounding_box());
    let ends = boxes.map(|found| (found.top_left.y, found.top_left.y + found.size.height as i32));
    let (first, end) = ends.reduce(|a, b| (a.0.min(b.0), a.1.max(b.1))).unwrap();
    (first..end).map(i64::from).collect()
}

// ---- the port

extern "C" {
    fn knitbramble_rows_by_entry(
        coordinates: *const i64,
        coordinate_count: usize,
        width: i64,
        closed: bool,
        rows: *const i64,
        row_count: usize,
        out: *mut i64,
        room: usize,
    ) -> i64;

    fn knitbramble_rows_of_joins(
        coordinates: *const i64,
        coordinate_count: usize,
        width: i64,
        closed: bool,
        rows: *const i64,
        row_count: usize,
        out: *mut i64,
        room: usize,
    ) -> i64;
}

#[inline(never)]
fn port_by_entry(route: &Route, rows: &[i64], out: &mut [i64]) -> i64 {
    let Route { coordinates, width, closed, .. } = route;
    // The lists are lent for the call, and do not overlap.
    unsafe {
        knitbramble_rows_by_entry(
            coordinates.as_ptr(),
            coordinates.len(),
            i64::from(*width),
            *closed,
            rows.as_ptr(),
            rows.len(),
            out.as_mut_ptr(),
            out.len(),
        )
    }
}

#[inline(never)]
fn port_of_joins(route: &Route, rows: &[i64], out: &mut [i64]) -> i64 {
    let Route { coordinates, width, closed, .. } = route;
    // As above.
    unsafe {
        knitbramble_rows_of_joins(
            coordinates.as_ptr(),
            coordinates.len(),
            i64::from(*width),
            *closed,
            rows.as_ptr(),
            rows.len(),
            out.as_mut_ptr(),
            out.len(),
        )
    }
}

// ---- the Rust

/// The joins anew for each row and neighbours merged, as the crate draws a polyline: what
/// `reset_with_new_scanline` does is `new`. The crate has no closed polyline; its closed walk is
/// merged in the same way.
#[inline(never)]
fn rust_anew(route: &Route, rows: &[i64], out: &mut [i64]) -> i64 {
    let Route { points, width, closed, .. } = route;
    let mut last = 0;
    for row in rows {
        let row = *row as i32;
        let mut listing = Listing::new(out);
        if *closed {
            let mut merged = Scanline::new_empty(row);
            for segment in ClosedThickSegmentIter::new(points, *width, StrokeOffset::None) {
                let span = segment.intersection(row);
                if !merged.try_extend(&span) {
                    listing.put(merged.x.start, merged.x.end);
                    merged = span;
                }
            }
            listing.put(merged.x.start, merged.x.end);
        } else {
            for span in ScanlineIntersections::new(points, *width, row) {
                listing.put(span.x.start, span.x.end);
            }
        }
        last = listing.columns;
    }
    last
}

/// What the port does with kept joins, in Rust: the segments once, their spans on each row
/// united in place.
#[inline(never)]
fn rust_kept(route: &Route, rows: &[i64], out: &mut [i64]) -> i64 {
    let segments = segments(route);
    let mut last = 0;
    for row in rows {
        let mut board = Board { count: 0, runs: [(0, 0); 32] };
        for segment in &segments {
            let span = segment.intersection(*row as i32).x;
            board.offer(span.start, span.end);
        }
        let mut listing = Listing::new(out);
        for (start, end) in &board.runs[..board.count] {
            listing.put(*start, *end);
        }
        last = listing.columns;
    }
    last
}

fn segments(route: &Route) -> Vec<ThickSegment> {
    let Route { points, width, closed, .. } = route;
    if *closed {
        ClosedThickSegmentIter::new(points, *width, StrokeOffset::None).collect()
    } else {
        ThickSegmentIter::new(points, *width, StrokeOffset::None).collect()
    }
}

/// Spans written to the front of a list, none of them empty.
struct Listing<'a> {
    out: &'a mut [i64],
    count: usize,
    columns: i64,
}

impl<'a> Listing<'a> {
    fn new(out: &'a mut [i64]) -> Self {
        Self { out, count: 0, columns: 0 }
    }

    fn put(&mut self, start: i32, end: i32) {
        if start < end {
            self.out[2 * self.count] = i64::from(start);
            self.out[2 * self.count + 1] = i64::from(end);
            self.count += 1;
            self.columns += i64::from(end - start);
        }
    }
}

/// Runs that ascend, with a dark column between neighbours.
struct Board {
    count: usize,
    runs: [(i32, i32); 32],
}

impl Board {
    fn offer(&mut self, mut start: i32, mut end: i32) {
        if start >= end {
            return;
        }
        let runs = &self.runs[..self.count];
        let first = runs.iter().take_while(|run| run.1 < start).count();
        let mut next = first;
        while next < self.count && self.runs[next].0 <= end {
            start = start.min(self.runs[next].0);
            end = end.max(self.runs[next].1);
            next += 1;
        }
        self.runs.copy_within(next..self.count, first + 1);
        self.runs[first] = (start, end);
        self.count = self.count + 1 + first - next;
    }
}
