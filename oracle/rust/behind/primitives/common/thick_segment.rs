pub mod door {
    use super::{Line, LineJoin, ThickSegment};

    /// The right edge, then the left edge.
    pub fn edges(segment: &ThickSegment) -> (Line, Line) {
        segment.edges()
    }

    /// The start join, then the end join.
    pub fn joins(segment: &ThickSegment) -> [LineJoin; 2] {
        [segment.start_join, segment.end_join]
    }
}
