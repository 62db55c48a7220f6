//! Stands for the crate's `primitives::polyline`: its spans of a row.

pub mod scanline_intersections;

pub use scanline_intersections::ScanlineIntersections;
