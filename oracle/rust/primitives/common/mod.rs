//! Stands for the crate's `primitives::common`: its two small enums.

mod closed_thick_segment_iter;
pub mod line_join;
mod linear_equation;
mod scanline;
pub mod thick_segment;
mod thick_segment_iter;

pub use closed_thick_segment_iter::ClosedThickSegmentIter;
pub use line_join::{EdgeCorners, JoinKind, LineJoin};
pub use linear_equation::LinearEquation;
pub use scanline::Scanline;
pub use thick_segment::ThickSegment;
pub use thick_segment_iter::ThickSegmentIter;

#[derive(Copy, Clone, Eq, PartialEq, Ord, PartialOrd, Hash, Debug)]
pub enum LineSide {
    Left,
    Right,
}

impl LineSide {
    pub fn swap(self) -> Self {
        match self {
            Self::Left => Self::Right,
            Self::Right => Self::Left,
        }
    }
}

#[derive(Copy, Clone, Eq, PartialEq, Ord, PartialOrd, Hash, Debug)]
pub enum StrokeOffset {
    None,
    Left,
    Right,
}
