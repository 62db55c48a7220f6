pub mod door {
    use super::{
        thick_points::{ParallelLineType, ParallelsIterator, ThickPoints},
        Line, StrokeOffset,
    };
    use crate::geometry::Point;

    pub fn extents(line: &Line, width: u32, offset: StrokeOffset) -> (Line, Line) {
        line.extents(width, offset)
    }

    /// Of each parallel its start, its error, and whether it is an extra one.
    pub fn parallels(line: &Line, width: i32, offset: StrokeOffset) -> Vec<(Point, i32, bool)> {
        ParallelsIterator::new(line, width, offset)
            .map(|(walk, kind)| (walk.point, walk.error, kind == ParallelLineType::Extra))
            .collect()
    }

    pub fn thick_points(line: &Line, width: i32) -> Vec<Point> {
        ThickPoints::new(line, width).collect()
    }
}
