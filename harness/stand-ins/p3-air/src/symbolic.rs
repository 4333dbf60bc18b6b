//! The layout of an AIR, which the crate only hands on.

pub struct AirLayout;

impl AirLayout {
    pub fn from_air<A>(_air: &A) -> Self {
        Self
    }
}
