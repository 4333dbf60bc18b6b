//! Stand-in for `p3_baby_bear`: the prime field of 2^31 - 2^27 + 1 and its extension of degree 4 with X⁴ = 11.
const P: u32 = (1 << 31) - (1 << 27) + 1;

pub type BabyBear = p3_monty_31::MontyField31<P>;
pub type Quartic = p3_monty_31::Quartic<P, 11>;
