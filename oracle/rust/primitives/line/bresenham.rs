//! The walk along a line, written from rules W2, W3 and W4.

use crate::{geometry::Point, primitives::Line};

/// One value for moves along the larger delta, one for moves along the smaller.
#[derive(Copy, Clone, Eq, PartialEq, Ord, PartialOrd, Hash, Debug)]
pub struct MajorMinor<T> {
    pub major: T,
    pub minor: T,
}

/// Walk parameters (W2).
#[derive(Copy, Clone, Eq, PartialEq, Ord, PartialOrd, Hash, Debug)]
pub struct BresenhamParameters {
    pub error_threshold: i32,
    pub error_step: MajorMinor<i32>,
    pub position_step: MajorMinor<Point>,
}

impl BresenhamParameters {
    pub fn new(line: &Line) -> Self {
        let delta = line.delta();
        let along_x = Point::new(direction(delta.x), 0);
        let along_y = Point::new(0, direction(delta.y));
        let (width, height) = (delta.x.abs(), delta.y.abs());

        let (longer, shorter, position_step) = if width >= height {
            let steps = MajorMinor { major: along_x, minor: along_y };
            (width, height, steps)
        } else {
            let steps = MajorMinor { major: along_y, minor: along_x };
            (height, width, steps)
        };

        Self {
            error_threshold: longer,
            error_step: MajorMinor { major: 2 * shorter, minor: 2 * longer },
            position_step,
        }
    }

    /// Adds a major step to the error; `true` if it carried (W4).
    pub fn increase_error(&self, error: &mut i32) -> bool {
        *error += self.error_step.major;
        let carries = *error > self.error_threshold;
        if carries {
            *error -= self.error_step.minor;
        }
        carries
    }

    /// Takes a major step off the error; `true` if it carried (W4).
    pub fn decrease_error(&self, error: &mut i32) -> bool {
        *error -= self.error_step.major;
        let carries = *error <= -self.error_threshold;
        if carries {
            *error += self.error_step.minor;
        }
        carries
    }
}

fn direction(delta: i32) -> i32 {
    if delta < 0 {
        -1
    } else {
        1
    }
}

/// The number of points of a line (W2).
pub fn major_length(line: &Line) -> u32 {
    let delta = line.delta();
    delta.x.unsigned_abs().max(delta.y.unsigned_abs()) + 1
}

/// A point of a walk that also visits the points beside a minor move (W3).
#[derive(Copy, Clone, Eq, PartialEq, Ord, PartialOrd, Hash, Debug)]
pub enum BresenhamPoint {
    Normal(Point),
    Extra(Point),
}

/// The place of a walk.
#[derive(Copy, Clone, Eq, PartialEq, Ord, PartialOrd, Hash, Debug)]
pub struct Bresenham {
    pub point: Point,
    pub error: i32,
}

impl Bresenham {
    pub const fn new(point: Point) -> Self {
        Self::with_initial_error(point, 0)
    }

    pub const fn with_initial_error(point: Point, error: i32) -> Self {
        Self { point, error }
    }

    /// The plain step (W2).
    pub fn next(&mut self, parameters: &BresenhamParameters) -> Point {
        if self.error > parameters.error_threshold {
            self.move_minor(parameters);
        }
        let point = self.point;
        self.move_major(parameters);
        point
    }

    /// The step that also hands out extra points (W3).
    pub fn next_all(&mut self, parameters: &BresenhamParameters) -> BresenhamPoint {
        let point = self.point;
        if self.error > parameters.error_threshold {
            self.move_minor(parameters);
            BresenhamPoint::Extra(point)
        } else {
            self.move_major(parameters);
            BresenhamPoint::Normal(point)
        }
    }

    /// The step back that also hands out extra points (W3).
    pub fn previous_all(&mut self, parameters: &BresenhamParameters) -> BresenhamPoint {
        let point = self.point;
        if self.error <= -parameters.error_threshold {
            self.point -= parameters.position_step.minor;
            self.error += parameters.error_step.minor;
            BresenhamPoint::Extra(point)
        } else {
            self.point -= parameters.position_step.major;
            self.error -= parameters.error_step.major;
            BresenhamPoint::Normal(point)
        }
    }

    fn move_minor(&mut self, parameters: &BresenhamParameters) {
        self.point += parameters.position_step.minor;
        self.error -= parameters.error_step.minor;
    }

    fn move_major(&mut self, parameters: &BresenhamParameters) {
        self.point += parameters.position_step.major;
        self.error += parameters.error_step.major;
    }
}
