//! The points of a line, written from rule W2.

use crate::{
    geometry::Point,
    primitives::line::{
        bresenham::{self, Bresenham, BresenhamParameters},
        Line,
    },
};

pub struct Points {
    parameters: BresenhamParameters,
    place: Bresenham,
    remaining: u32,
}

impl Points {
    pub(super) fn new(line: &Line) -> Self {
        Self {
            parameters: BresenhamParameters::new(line),
            place: Bresenham::new(line.start),
            remaining: bresenham::major_length(line),
        }
    }
}

impl Iterator for Points {
    type Item = Point;

    fn next(&mut self) -> Option<Point> {
        self.remaining = self.remaining.checked_sub(1)?;
        Some(self.place.next(&self.parameters))
    }
}
