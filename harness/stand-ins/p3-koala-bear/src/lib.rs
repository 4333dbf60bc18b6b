//! Stand-in for `p3_koala_bear`: the prime field of 2^31 - 2^24 + 1 and its extension of degree 4 with X⁴ = 3.
const P: u32 = (1 << 31) - (1 << 24) + 1;

pub type KoalaBear = p3_monty_31::MontyField31<P>;
pub type Quartic = p3_monty_31::Quartic<P, 3>;
