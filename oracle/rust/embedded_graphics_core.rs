//! Stands for the crate `embedded_graphics_core`: the types and operations that the printed files
//! ask of it. Arithmetic is plain i32 arithmetic, component by component, so that it is checked or
//! wraps as the printed files' own does.

pub mod geometry {
    use crate::primitives::Rectangle;
    use std::ops::{Add, AddAssign, Div, Neg, Sub, SubAssign};

    #[derive(Copy, Clone, Eq, PartialEq, Ord, PartialOrd, Hash, Debug, Default)]
    pub struct Point {
        pub x: i32,
        pub y: i32,
    }

    impl Point {
        pub const fn new(x: i32, y: i32) -> Self {
            Self { x, y }
        }

        pub const fn zero() -> Self {
            Self::new(0, 0)
        }

        pub fn component_min(self, other: Self) -> Self {
            Self::new(self.x.min(other.x), self.y.min(other.y))
        }

        pub fn component_max(self, other: Self) -> Self {
            Self::new(self.x.max(other.x), self.y.max(other.y))
        }
    }

    impl Add for Point {
        type Output = Self;

        fn add(self, other: Self) -> Self {
            Self::new(self.x + other.x, self.y + other.y)
        }
    }

    impl AddAssign for Point {
        fn add_assign(&mut self, other: Self) {
            *self = *self + other;
        }
    }

    impl Sub for Point {
        type Output = Self;

        fn sub(self, other: Self) -> Self {
            Self::new(self.x - other.x, self.y - other.y)
        }
    }

    impl SubAssign for Point {
        fn sub_assign(&mut self, other: Self) {
            *self = *self - other;
        }
    }

    impl Neg for Point {
        type Output = Self;

        fn neg(self) -> Self {
            Self::new(-self.x, -self.y)
        }
    }

    impl Div<i32> for Point {
        type Output = Self;

        fn div(self, divisor: i32) -> Self {
            Self::new(self.x / divisor, self.y / divisor)
        }
    }

    #[derive(Copy, Clone, Eq, PartialEq, Ord, PartialOrd, Hash, Debug, Default)]
    pub struct Size {
        pub width: u32,
        pub height: u32,
    }

    impl Size {
        pub const fn new(width: u32, height: u32) -> Self {
            Self { width, height }
        }
    }

    pub trait Dimensions {
        fn bounding_box(&self) -> Rectangle;
    }

    pub trait OriginDimensions {}

    // Named by the printed files, used by none of the functions that are asked.
    pub enum AnchorPoint {}
    pub enum AnchorX {}
    pub enum AnchorY {}
}

pub mod primitives {
    use crate::geometry::{Point, Size};

    pub trait PointsIter {
        type Iter: Iterator<Item = Point>;

        fn points(&self) -> Self::Iter;
    }

    #[derive(Copy, Clone, Eq, PartialEq, Ord, PartialOrd, Hash, Debug, Default)]
    pub struct Rectangle {
        pub top_left: Point,
        pub size: Size,
    }

    impl Rectangle {
        pub const fn new(top_left: Point, size: Size) -> Self {
            Self { top_left, size }
        }

        /// The least rectangle that holds both pixels.
        pub fn with_corners(a: Point, b: Point) -> Self {
            let size = Size::new(a.x.abs_diff(b.x) + 1, a.y.abs_diff(b.y) + 1);
            Self::new(a.component_min(b), size)
        }
    }
}
