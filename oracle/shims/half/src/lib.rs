//! SHIM of half: a 16-bit float that exists for the types to close; F16 is outside the comparison.
use std::cmp::Ordering;
use std::fmt;
use std::ops::{Add, Div, Mul, Rem, Sub};

#[allow(non_camel_case_types)]
#[derive(Clone, Copy, Debug, Default, PartialEq)]
pub struct f16(u16);

fn no() -> ! {
    unreachable!("f16 is outside the comparison")
}
impl f16 {
    pub fn is_nan(self) -> bool {
        no()
    }
    pub fn is_infinite(self) -> bool {
        no()
    }
    pub fn total_cmp(&self, _: &Self) -> Ordering {
        no()
    }
    pub fn to_bits(self) -> u16 {
        self.0
    }
    pub fn from_le_bytes(b: [u8; 2]) -> Self {
        f16(u16::from_le_bytes(b))
    }
}
impl fmt::Display for f16 {
    fn fmt(&self, f: &mut fmt::Formatter<'_>) -> fmt::Result {
        write!(f, "f16#{:04x}", self.0)
    }
}
macro_rules! op {
    ($($O:ident $m:ident),*) => { $(
        impl $O for f16 {
            type Output = f16;
            fn $m(self, _: f16) -> f16 {
                no()
            }
        }
    )* };
}
op!(Add add, Sub sub, Mul mul, Div div, Rem rem);
impl num_traits::ToPrimitive for f16 {
    fn to_u64(&self) -> Option<u64> {
        no()
    }
    fn to_i64(&self) -> Option<i64> {
        no()
    }
    fn to_f64(&self) -> Option<f64> {
        no()
    }
}
impl num_traits::NumCast for f16 {
    fn from<T: num_traits::ToPrimitive>(_: T) -> Option<Self> {
        no()
    }
}
impl num_traits::Num for f16 {}
impl num_traits::Bounded for f16 {
    fn min_value() -> Self {
        no()
    }
    fn max_value() -> Self {
        no()
    }
}
