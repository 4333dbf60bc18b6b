//! The port's formulas for the fields, written again in Rust: the baseline of the benchmarks and an independent result to compare with.

pub type Ext = [u32; 4];

/// A prime field, its extension of degree 4, and the formulas for both. A field is a type, so that its two numbers are constants of the
/// program.
pub trait PrimeField: Sized {
    const P: u32;
    /// The value of X⁴.
    const W: u32;

    fn mul_word(a: u32, b: u32) -> u32 {
        reduce::<Self>(product(a, b))
    }

    fn add_word(a: u32, b: u32) -> u32 {
        reduce::<Self>(a as u64 + b as u64)
    }

    fn sub_word(a: u32, b: u32) -> u32 {
        if a < b { a + (Self::P - b) } else { a - b }
    }

    fn neg_word(a: u32) -> u32 {
        if a == 0 { 0 } else { Self::P - a }
    }

    fn inv_word(a: u32) -> u32 {
        if a == 0 {
            return 0;
        }
        let (mut x, mut t) = (a, 1);
        while 1 < x {
            t = Self::mul_word(t, Self::P - Self::P / x);
            x = Self::P % x;
        }
        t
    }

    fn add(a: Ext, b: Ext) -> Ext {
        std::array::from_fn(|i| Self::add_word(a[i], b[i]))
    }

    fn sub(a: Ext, b: Ext) -> Ext {
        std::array::from_fn(|i| Self::sub_word(a[i], b[i]))
    }

    fn scale(z: u32, a: Ext) -> Ext {
        a.map(|word| Self::mul_word(z, word))
    }

    #[inline]
    fn mul(a: Ext, b: Ext) -> Ext {
        let (w1, w2, w3) = (times_w::<Self>(a[1]), times_w::<Self>(a[2]), times_w::<Self>(a[3]));
        [
            dot4::<Self>([a[0], w1, w2, w3], [b[0], b[3], b[2], b[1]]),
            dot4::<Self>([a[0], a[1], w2, w3], [b[1], b[0], b[3], b[2]]),
            dot4::<Self>([a[0], a[1], a[2], w3], [b[2], b[1], b[0], b[3]]),
            dot4::<Self>(a, [b[3], b[2], b[1], b[0]]),
        ]
    }

    /// By squaring.
    #[inline(never)]
    fn power(a: Ext, n: u32) -> Ext {
        let (mut r, mut x, mut k) = ([1, 0, 0, 0], a, n);
        while 0 < k {
            if k % 2 == 1 {
                r = Self::mul(r, x);
            }
            x = Self::mul(x, x);
            k /= 2;
        }
        r
    }

    #[inline(never)]
    fn inverse(a: Ext) -> Ext {
        let [x, y, norm] = norms::<Self>(a);
        cofactor_times::<Self>(a, x, y, Self::inv_word(norm))
    }
}

fn reduce<F: PrimeField>(n: u64) -> u32 {
    (n % F::P as u64) as u32
}

fn product(a: u32, b: u32) -> u64 {
    a as u64 * b as u64
}

fn times_w<F: PrimeField>(a: u32) -> u32 {
    F::mul_word(F::W, a)
}

fn dot2<F: PrimeField>(a: u32, b: u32, c: u32, d: u32) -> u32 {
    reduce::<F>(product(a, b) + product(c, d))
}

fn dot4<F: PrimeField>(a: [u32; 4], b: [u32; 4]) -> u32 {
    reduce::<F>(product(a[0], b[0]) + product(a[1], b[1]) + product(a[2], b[2]) + product(a[3], b[3]))
}

/// The words n0 and n1 of a(X)·a(-X) = n0 + n1·X², and the norm of a.
#[inline]
fn norms<F: PrimeField>(a: Ext) -> [u32; 3] {
    let (v1, v2, v3) = (times_w::<F>(a[1]), times_w::<F>(a[2]), times_w::<F>(a[3]));
    let (minus1, minus3) = (F::neg_word(a[1]), F::neg_word(a[3]));
    let x = dot4::<F>([a[0], v2, v1, v1], [a[0], a[2], minus3, minus3]);
    let y = dot4::<F>([a[0], a[0], a[1], v3], [a[2], a[2], minus1, minus3]);
    [x, y, dot2::<F>(x, x, times_w::<F>(y), F::neg_word(y))]
}

/// The cofactor of a times i, from n0 and n1.
#[inline]
fn cofactor_times<F: PrimeField>(a: Ext, x: u32, y: u32, i: u32) -> Ext {
    let (e0, e1) = (F::mul_word(x, i), F::mul_word(F::neg_word(y), i));
    let (f0, f1) = (F::neg_word(e0), F::neg_word(e1));
    let (v2, v3) = (times_w::<F>(a[2]), times_w::<F>(a[3]));
    [dot2::<F>(a[0], e0, v2, e1), dot2::<F>(a[1], f0, v3, f1), dot2::<F>(a[0], e1, a[2], e0), dot2::<F>(a[1], f1, a[3], f0)]
}

pub fn lift(a: u32) -> Ext {
    [a, 0, 0, 0]
}

pub struct BabyBear;

impl PrimeField for BabyBear {
    const P: u32 = 2013265921;
    const W: u32 = 11;
}

pub struct KoalaBear;

impl PrimeField for KoalaBear {
    const P: u32 = 2130706433;
    const W: u32 = 3;
}

/// The fields by their numbers.
#[derive(Clone, Copy, Debug, Default, PartialEq, Eq, PartialOrd, Ord)]
pub enum Field {
    #[default]
    BabyBear = 1,
    KoalaBear = 2,
}

/// The formulas in a field that only the run of the program knows.
macro_rules! at_run_time {
    ($($function:ident($($argument:ident: $type:ty),*) -> $result:ty;)*) => {
        $(pub fn $function(self, $($argument: $type),*) -> $result {
            match self {
                Field::BabyBear => BabyBear::$function($($argument),*),
                Field::KoalaBear => KoalaBear::$function($($argument),*),
            }
        })*
    };
}

impl Field {
    pub const ALL: [Field; 2] = [Field::BabyBear, Field::KoalaBear];

    pub const fn prime(self) -> u32 {
        match self {
            Field::BabyBear => BabyBear::P,
            Field::KoalaBear => KoalaBear::P,
        }
    }

    pub fn number(self) -> u32 {
        self as u32
    }

    pub fn numbered(number: u32) -> Option<Field> {
        Field::ALL.into_iter().find(|field| field.number() == number)
    }

    at_run_time! {
        mul_word(a: u32, b: u32) -> u32;
        add_word(a: u32, b: u32) -> u32;
        sub_word(a: u32, b: u32) -> u32;
        neg_word(a: u32) -> u32;
        add(a: Ext, b: Ext) -> Ext;
        sub(a: Ext, b: Ext) -> Ext;
        scale(z: u32, a: Ext) -> Ext;
        mul(a: Ext, b: Ext) -> Ext;
        power(a: Ext, n: u32) -> Ext;
        inverse(a: Ext) -> Ext;
    }
}

/// A small generator of numbers, so that runs repeat: xorshift64*.
pub struct Random(pub u64);

impl Random {
    pub fn draw(&mut self) -> u64 {
        self.0 ^= self.0 >> 12;
        self.0 ^= self.0 << 25;
        self.0 ^= self.0 >> 27;
        self.0.wrapping_mul(0x2545F4914F6CDD1D)
    }

    pub fn below(&mut self, n: u64) -> u64 {
        self.draw() % n
    }

    pub fn element(&mut self, field: Field) -> Ext {
        std::array::from_fn(|_| self.below(field.prime().into()) as u32)
    }
}
