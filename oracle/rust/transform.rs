//! Stands for the crate's `transform`: the trait alone, for the bodies in the printed files.

use crate::geometry::Point;

pub trait Transform {
    fn translate(&self, by: Point) -> Self;
    fn translate_mut(&mut self, by: Point) -> &mut Self;
}
