//! Stands for the crate `az`: the one conversion that the printed files ask of it.

/// A conversion that takes the nearest value of the target type.
pub trait SaturatingAs<Target> {
    fn saturating_as(self) -> Target;
}

impl SaturatingAs<i32> for u32 {
    fn saturating_as(self) -> i32 {
        i32::try_from(self).unwrap_or(i32::MAX)
    }
}
