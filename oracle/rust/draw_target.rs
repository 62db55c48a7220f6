//! Stands for the crate's draw targets, which the port leaves out: what `Scanline::draw` asks of one.

use crate::primitives::Rectangle;

pub trait DrawTarget {
    type Color;
    type Error;

    fn fill_solid(&mut self, area: &Rectangle, color: Self::Color) -> Result<(), Self::Error>;
}
