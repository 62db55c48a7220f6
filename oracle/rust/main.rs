//! The driver: reads one question a line, prints one answer a line, as the README tells.
//!
//! It knows no limits, save those of route files. An answer is `overflow` where an operation left
//! i32, and `not i32` where a number of the question has no place in i32. Called with the word
//! `places`, it also tells what overflowed and where:
//! `overflow geometry/mod.rs:44:9: attempt to multiply with overflow`. Called with the word
//! `skeletons`, it asks nothing and looks for them (skeletons.rs).

mod draw_target;
mod geometry;
mod origins;
mod primitives;
mod route_file;
mod skeletons;
mod transform;

use geometry::Point;
use primitives::{
    common::{
        line_join, thick_segment, ClosedThickSegmentIter, EdgeCorners, JoinKind, LineJoin,
        LineSide, LinearEquation, Scanline, StrokeOffset, ThickSegment, ThickSegmentIter,
    },
    line,
    polyline::{scanline_intersections, ScanlineIntersections},
    Intersection, IntersectionParams, Line,
};
use std::{
    env,
    io::{self, BufRead, BufWriter, Write},
    iter,
    panic::{self, PanicHookInfo},
    process,
    sync::Mutex,
};

/// Where the last panic was and what it said; the hook writes it instead of printing.
static LAST_PANIC: Mutex<String> = Mutex::new(String::new());

fn main() -> io::Result<()> {
    let word = env::args().nth(1);
    if word.as_deref() == Some("skeletons") {
        skeletons::print();
        return Ok(());
    }
    let tells_places = word.as_deref() == Some("places");
    panic::set_hook(Box::new(remember));

    let mut output = BufWriter::new(io::stdout().lock());
    for question in io::stdin().lock().lines() {
        writeln!(output, "{}", answer(&question?, tells_places))?;
    }
    output.flush()
}

fn remember(panic: &PanicHookInfo) {
    let place = panic.location().map(ToString::to_string).unwrap_or_default();
    let message = panic.payload_as_str().unwrap_or_default();
    *LAST_PANIC.lock().unwrap() = format!("{place}: {message}");
}

fn answer(question: &str, tells_places: bool) -> String {
    let (kind, numbers) = question.split_once(' ').unwrap_or((question, ""));
    let numbers: Result<Vec<i32>, _> = numbers.split_whitespace().map(str::parse).collect();
    let Ok(numbers) = numbers else {
        return "not i32".into();
    };

    panic::catch_unwind(|| answer_kind(kind, &numbers)).unwrap_or_else(|_| {
        let reason = LAST_PANIC.lock().unwrap().clone();
        if !reason.ends_with("with overflow") {
            eprintln!("{question}: {reason}");
            process::exit(1);
        }
        if tells_places {
            format!("overflow {reason}")
        } else {
            "overflow".into()
        }
    })
}

/// One arm for each kind of question.
fn answer_kind(kind: &str, numbers: &[i32]) -> String {
    match (kind, numbers) {
        ("e", &[ax, ay, bx, by]) => equation(&line_of(ax, ay, bx, by)),
        ("d", &[ax, ay, bx, by, px, py]) => distance(&line_of(ax, ay, bx, by), Point::new(px, py)),
        ("s", &[ax, ay, bx, by, px, py]) => sides(&line_of(ax, ay, bx, by), Point::new(px, py)),
        ("c", &[ax, ay, bx, by, cx, cy, dx, dy]) => {
            crossing(&line_of(ax, ay, bx, by), &line_of(cx, cy, dx, dy))
        }
        ("n", &[ax, ay, bx, by, cx, cy, dx, dy]) => {
            nearly_colinear(&line_of(ax, ay, bx, by), &line_of(cx, cy, dx, dy))
        }
        ("x", &[ax, ay, bx, by, width, offset]) => {
            extents(&line_of(ax, ay, bx, by), width, stroke_offset(offset))
        }
        ("p", &[ax, ay, bx, by, width, offset]) => {
            parallels(&line_of(ax, ay, bx, by), width, stroke_offset(offset))
        }
        ("t", &[ax, ay, bx, by, width]) => thick_points(&line_of(ax, ay, bx, by), width),
        ("a", &[ax, ay, bx, by, width, offset]) => {
            let (a, b) = (Point::new(ax, ay), Point::new(bx, by));
            uncrossed_words(&LineJoin::start(a, b, width as u32, stroke_offset(offset)), 0)
        }
        ("z", &[ax, ay, bx, by, width, offset]) => {
            let (a, b) = (Point::new(ax, ay), Point::new(bx, by));
            uncrossed_words(&LineJoin::end(a, b, width as u32, stroke_offset(offset)), 1)
        }
        ("j", &[ax, ay, bx, by, cx, cy, width, offset]) => {
            let bend @ [a, b, c] = [Point::new(ax, ay), Point::new(bx, by), Point::new(cx, cy)];
            let offset = stroke_offset(offset);
            bend_words(&LineJoin::from_points(a, b, c, width as u32, offset), bend, width, offset, 1)
        }
        ("f", numbers) => lines_of_join(&join(numbers)),
        ("k", numbers) => parts_of_segment(&segment(numbers)),
        ("q", numbers) => {
            let (first, last) = drawn_rows(&segment(numbers));
            format!("{first} {last}")
        }
        ("r", &[ref joins @ .., row]) => span_words(&segment(joins).intersection(row)),
        ("m", &[ax, ay, bx, by, row, start, end]) => {
            let mut scanline = Scanline::new(row, start..end);
            scanline.bresenham_intersection(&line_of(ax, ay, bx, by));
            span_words(&scanline)
        }
        ("u", &[row, start, end, other_row, other_start, other_end]) => {
            let mut scanline = Scanline::new(row, start..end);
            let other = Scanline::new(other_row, other_start..other_end);
            let extended = scanline.try_extend(&other);
            format!("{extended} {}", span_words(&scanline))
        }
        ("O", &[width, offset, _, _, ref coordinates @ ..]) => {
            let points = points(coordinates);
            let segments = ThickSegmentIter::new(&points, width as u32, stroke_offset(offset));
            walk_words(segments, &points, width, StrokeOffset::None)
        }
        ("C", &[width, offset, _, _, ref coordinates @ ..]) => {
            let points = points(coordinates);
            let offset = stroke_offset(offset);
            let segments = ClosedThickSegmentIter::new(&points, width as u32, offset);
            walk_words(segments, &points, width, offset)
        }
        ("N", &[width, _, _, _, ref coordinates @ ..]) => {
            let points = points(coordinates);
            let segments = scanline_intersections::door::segments(&points, width as u32);
            walk_words(segments, &points, width, StrokeOffset::None)
        }
        ("M", &[width, _, row, _, ref coordinates @ ..]) => {
            merged_words(ScanlineIntersections::new(&points(coordinates), width as u32, row))
        }
        ("F", bytes) => {
            let file: Vec<u8> = bytes.iter().map(|byte| u8::try_from(*byte).unwrap()).collect();
            route_file::rows(&file).join(" / ")
        }
        _ => panic!("no such question"),
    }
}

fn line_of(ax: i32, ay: i32, bx: i32, by: i32) -> Line {
    Line::new(Point::new(ax, ay), Point::new(bx, by))
}

fn stroke_offset(number: i32) -> StrokeOffset {
    match number {
        0 => StrokeOffset::None,
        1 => StrokeOffset::Left,
        2 => StrokeOffset::Right,
        _ => panic!("no such offset"),
    }
}

fn equation(line: &Line) -> String {
    let LinearEquation { normal_vector, origin_distance } = LinearEquation::from_line(line);
    format!("{} {} {}", normal_vector.x, normal_vector.y, origin_distance)
}

fn distance(line: &Line, point: Point) -> String {
    LinearEquation::from_line(line).distance(point).to_string()
}

fn sides(line: &Line, point: Point) -> String {
    let equation = LinearEquation::from_line(line);
    let left = equation.check_side(point, LineSide::Left);
    let right = equation.check_side(point, LineSide::Right);
    format!("{left} {right}")
}

fn crossing(first: &Line, second: &Line) -> String {
    match IntersectionParams::from_lines(first, second).intersection() {
        Intersection::Point { point, outer_side } => {
            let divisions = origins::divisions(first, second);
            format!("{} {} {:?} {divisions}", point.x, point.y, outer_side)
        }
        Intersection::Colinear => "Colinear".into(),
    }
}

fn nearly_colinear(first: &Line, second: &Line) -> String {
    IntersectionParams::from_lines(first, second)
        .nearly_colinear_has_error()
        .to_string()
}

fn extents(line: &Line, width: i32, offset: StrokeOffset) -> String {
    let (left, right) = line::door::extents(line, width as u32, offset);
    format!("{} {}", line_words(&left), line_words(&right))
}

fn line_words(line: &Line) -> String {
    let Line { start, end } = line;
    format!("{} {} {} {}", start.x, start.y, end.x, end.y)
}

fn parallels(line: &Line, width: i32, offset: StrokeOffset) -> String {
    let words = line::door::parallels(line, width, offset)
        .into_iter()
        .map(|(point, error, extra)| format!("{} {} {error} {}", point.x, point.y, extra as i32));
    counted(words)
}

fn thick_points(line: &Line, width: i32) -> String {
    counted(line::door::thick_points(line, width).into_iter().map(|p| format!("{} {}", p.x, p.y)))
}

/// The number of the items, then the items.
fn counted(items: impl ExactSizeIterator<Item = String>) -> String {
    iter::once(items.len().to_string())
        .chain(items)
        .collect::<Vec<_>>()
        .join(" ")
}

/// A join at the start or at the end of a line, and its position.
fn uncrossed_words(join: &LineJoin, position: usize) -> String {
    format!("{} - - {position}", join_words(join))
}

/// A join, the origins of its corners, and its position.
fn bend_words(
    join: &LineJoin,
    bend: [Point; 3],
    width: i32,
    offset: StrokeOffset,
    position: usize,
) -> String {
    let origins = origins::words(&join.kind, bend, width, offset);
    format!("{} {origins} {position}", join_words(join))
}

fn join_words(join: &LineJoin) -> String {
    let kind = match join.kind {
        JoinKind::Bevel { outer_side } => format!("Bevel {outer_side:?}"),
        JoinKind::Degenerate { outer_side } => format!("Degenerate {outer_side:?}"),
        kind => format!("{kind:?}"),
    };
    let corners = |corners: &EdgeCorners| line_words(&Line::new(corners.left, corners.right));
    let (first, second) = (&join.first_edge_end, &join.second_edge_start);
    format!("{kind} {} {}", corners(first), corners(second))
}

/// A join from the number of its kind and its corners; its position, between them, is passed over.
fn join(numbers: &[i32]) -> LineJoin {
    let &[kind, _, ax, ay, bx, by, cx, cy, dx, dy] = numbers else {
        panic!("no such join");
    };
    let (left, right) = (LineSide::Left, LineSide::Right);
    LineJoin {
        kind: match kind {
            0 => JoinKind::Miter,
            1 => JoinKind::Bevel { outer_side: left },
            2 => JoinKind::Bevel { outer_side: right },
            3 => JoinKind::Degenerate { outer_side: left },
            4 => JoinKind::Degenerate { outer_side: right },
            5 => JoinKind::Colinear,
            6 => JoinKind::Start,
            7 => JoinKind::End,
            _ => panic!("no such kind of join"),
        },
        first_edge_end: EdgeCorners {
            left: Point::new(ax, ay),
            right: Point::new(bx, by),
        },
        second_edge_start: EdgeCorners {
            left: Point::new(cx, cy),
            right: Point::new(dx, dy),
        },
    }
}

fn lines_of_join(join: &LineJoin) -> String {
    let filler = line_join::door::filler_line(join);
    let filler = filler.map_or("none".into(), |filler| line_words(&filler));
    let start = cap_words(join.start_cap_lines());
    let end = cap_words(join.end_cap_lines());
    format!("{filler} | {start} | {end} | {}", join.is_degenerate())
}

fn cap_words((first, second): (Line, Option<Line>)) -> String {
    let lines: Vec<Line> = iter::once(first).chain(second).collect();
    counted(lines.iter().map(line_words))
}

fn span_words(scanline: &Scanline) -> String {
    format!("{} {}", scanline.x.start, scanline.x.end)
}

/// The segment between two joins.
fn segment(joins: &[i32]) -> ThickSegment {
    ThickSegment::new(join(&joins[..10]), join(&joins[10..]))
}

/// The perimeter has no function of its own in the printed file: here are the lines that
/// `ThickSegment::intersection` meets with a row, in its order.
fn perimeter(segment: &ThickSegment) -> Vec<Line> {
    let (right, left) = thick_segment::door::edges(segment);
    if segment.is_skeleton() {
        return vec![right];
    }
    let [start, end] = thick_segment::door::joins(segment);
    let (start_line, start_second) = start.start_cap_lines();
    let (end_line, end_second) = end.end_cap_lines();
    iter::once(start_line)
        .chain(start_second)
        .chain([end_line])
        .chain(end_second)
        .chain([right, left])
        .collect()
}

/// The least and the greatest row of the ends of the lines that are drawn; such lines there always are.
pub fn drawn_rows(segment: &ThickSegment) -> (i32, i32) {
    let rows = || perimeter(segment).into_iter().flat_map(|line| [line.start.y, line.end.y]);
    (rows().min().unwrap(), rows().max().unwrap())
}

fn parts_of_segment(segment: &ThickSegment) -> String {
    let (right, left) = thick_segment::door::edges(segment);
    let corner = segment.edges_bounding_box().top_left;
    let size = segment.edges_bounding_box().size;
    format!(
        "{} | {} {} | {} {} {} {} | {}",
        segment.is_skeleton(),
        line_words(&right),
        line_words(&left),
        corner.x,
        corner.y,
        size.width,
        size.height,
        counted(perimeter(segment).iter().map(line_words))
    )
}

fn points(coordinates: &[i32]) -> Vec<Point> {
    let pairs = coordinates.chunks_exact(2);
    assert!(pairs.remainder().is_empty());
    pairs.map(|pair| Point::new(pair[0], pair[1])).collect()
}

/// Of each segment its two joins, then the end. A segment begins at the point of its place; the point
/// after the last is the first. The positions are counted here, the crate has none.
fn walk_words(
    segments: impl IntoIterator<Item = ThickSegment>,
    points: &[Point],
    width: i32,
    offset: StrokeOffset,
) -> String {
    let count = points.len();
    let words = |join: &LineJoin, place: usize| {
        let bend = [place + count - 1, place, place + 1].map(|place| points[place % count]);
        bend_words(join, bend, width, offset, place % count)
    };
    let parts = segments.into_iter().enumerate().map(|(place, segment)| {
        let [start, end] = thick_segment::door::joins(&segment);
        format!("{} / {}", words(&start, place), words(&end, place + 1))
    });
    parts.chain(["end".into()]).collect::<Vec<_>>().join(" | ")
}

fn merged_words(spans: ScanlineIntersections) -> String {
    let words = spans.map(|span| span_words(&span));
    words.chain(["end".into()]).collect::<Vec<_>>().join(" ")
}
