pub mod door {
    use super::{Point, ScanlineIntersections, ThickSegment};

    /// The segments of `next_segment`, to its end.
    pub fn segments(points: &[Point], width: u32) -> Vec<ThickSegment> {
        let mut walk = ScanlineIntersections::new(points, width, 0);
        std::iter::from_fn(|| walk.next_segment()).collect()
    }
}
