//! Stands for the crate's real numbers, which only angles use. It has no values either.

use std::ops::Mul;

pub(crate) enum Real {}

impl From<i32> for Real {
    fn from(_number: i32) -> Self {
        unreachable!("angles are left out")
    }
}

impl From<Real> for i32 {
    fn from(number: Real) -> Self {
        match number {}
    }
}

impl Mul for Real {
    type Output = Self;

    fn mul(self, _other: Self) -> Self {
        self
    }
}
