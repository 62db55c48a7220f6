//! Stands for the crate's angles, which the port leaves out. `Angle` has no values, so that no
//! question can reach a function that takes one.

use crate::geometry::Real;

#[derive(Copy, Clone, PartialEq)]
pub enum Angle {}

impl Angle {
    pub fn from_degrees(_degrees: f32) -> Self {
        unreachable!("angles are left out")
    }
}

pub(crate) trait Trigonometry {
    fn sin(self) -> Real;
    fn cos(self) -> Real;
}

impl Trigonometry for Angle {
    fn sin(self) -> Real {
        match self {}
    }

    fn cos(self) -> Real {
        match self {}
    }
}

pub trait AngleUnit {}

pub(crate) mod angle_consts {}
