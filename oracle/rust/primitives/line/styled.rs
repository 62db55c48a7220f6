//! Stands for the styled drawing of lines, which the port leaves out: a name that the printed
//! files hand on.

pub enum StyledPixelsIterator {}
