pub mod door {
    use super::{Line, LineJoin};

    pub fn filler_line(join: &LineJoin) -> Option<Line> {
        join.filler_line()
    }
}
