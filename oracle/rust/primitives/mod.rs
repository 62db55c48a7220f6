//! Stands for the crate's `primitives`: lines and polylines only, and what the printed files show to this module
//! alone, handed on to the driver.

pub mod common;
pub mod line;
pub mod polyline;

pub use embedded_graphics_core::primitives::{PointsIter, Rectangle};
pub use line::{
    intersection_params::{Intersection, IntersectionParams},
    Line,
};

pub trait Primitive {}
