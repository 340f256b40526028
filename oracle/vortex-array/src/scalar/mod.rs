//! SHIM of scalar/: a dtype and either null or a value of the dtype's kind. downcast.rs beside it is
//! published.
mod downcast;

use vortex_buffer::BufferString;
use vortex_buffer::ByteBuffer;
use vortex_error::VortexError;
use vortex_error::VortexResult;
use vortex_error::vortex_bail;
use vortex_error::vortex_err;

use crate::dtype::DType;
use crate::dtype::DecimalDType;
use crate::dtype::NativePType;
use crate::dtype::Nullability;
use crate::dtype::PType;
use crate::dtype::half::f16;
use crate::dtype::i256;

#[derive(Clone, Copy, Debug, PartialEq)]
pub enum PValue {
    U8(u8),
    U16(u16),
    U32(u32),
    U64(u64),
    I8(i8),
    I16(i16),
    I32(i32),
    I64(i64),
    F16(f16),
    F32(f32),
    F64(f64),
}
macro_rules! each {
    ($s:expr, $v:ident => $b:expr) => {
        match $s {
            PValue::U8($v) => $b,
            PValue::U16($v) => $b,
            PValue::U32($v) => $b,
            PValue::U64($v) => $b,
            PValue::I8($v) => $b,
            PValue::I16($v) => $b,
            PValue::I32($v) => $b,
            PValue::I64($v) => $b,
            PValue::F16($v) => $b,
            PValue::F32($v) => $b,
            PValue::F64($v) => $b,
        }
    };
}
macro_rules! from {
    ($($T:ident $V:ident),*) => { $(
        impl From<$T> for PValue {
            fn from(v: $T) -> Self {
                PValue::$V(v)
            }
        }
    )* };
}
from!(u8 U8, u16 U16, u32 U32, u64 U64, i8 I8, i16 I16, i32 I32, i64 I64, f16 F16, f32 F32, f64 F64);
impl PValue {
    pub fn ptype(&self) -> PType {
        fn of<T: NativePType>(_: T) -> PType {
            T::PTYPE
        }
        each!(*self, v => of(v))
    }
    pub fn is_nan(&self) -> bool {
        each!(*self, v => NativePType::is_nan(v))
    }
    /// The number as `T`: refused where it is out of `T`'s range, rounded once where `T` is a float.
    pub fn cast<T: NativePType>(&self) -> VortexResult<T> {
        each!(*self, v => <T as num_traits::NumCast>::from(v))
            .ok_or_else(|| vortex_err!("Cannot cast {:?} to {}", self, T::PTYPE))
    }
}

#[derive(Clone, Debug, PartialEq)]
pub enum ScalarValue {
    Bool(bool),
    Primitive(PValue),
    Decimal(DecimalValue),
    Tuple(Vec<Option<ScalarValue>>),
    // never made; named by downcast.rs
    Utf8(BufferString),
    Binary(ByteBuffer),
    Union(UnionValue),
    Variant(Box<Scalar>),
}

#[derive(Clone, Debug, PartialEq)]
pub struct Scalar {
    dtype: DType,
    value: Option<ScalarValue>,
}
fn fits(dtype: &DType, value: &Option<ScalarValue>) -> bool {
    match (dtype, value) {
        (d, None) => d.nullability() == Nullability::Nullable,
        (DType::Primitive(p, _), Some(ScalarValue::Primitive(v))) => *p == v.ptype(),
        (DType::Struct(s, _), Some(ScalarValue::Tuple(vs))) => {
            s.dtypes.len() == vs.len() && s.dtypes.iter().zip(vs).all(|(d, v)| fits(d, v))
        }
        _ => false,
    }
}
impl Scalar {
    pub fn try_new(dtype: DType, value: Option<ScalarValue>) -> VortexResult<Self> {
        if !fits(&dtype, &value) {
            vortex_bail!("value {:?} is not of dtype {}", value, dtype);
        }
        Ok(Scalar { dtype, value })
    }
    pub fn primitive<T: NativePType + Into<PValue>>(v: T, n: Nullability) -> Self {
        Scalar { dtype: DType::Primitive(T::PTYPE, n), value: Some(ScalarValue::Primitive(v.into())) }
    }
    pub fn null(dtype: DType) -> Self {
        Self::try_new(dtype, None).expect("a nullable dtype")
    }
    pub fn struct_(dtype: DType, fields: Vec<Scalar>) -> Self {
        let DType::Struct(s, _) = &dtype else { panic!("not a struct dtype") };
        assert!(s.dtypes.iter().eq(fields.iter().map(|f| &f.dtype)), "fields of the struct's dtypes");
        Scalar { dtype, value: Some(ScalarValue::Tuple(fields.into_iter().map(|f| f.value).collect())) }
    }
    pub fn decimal(_: DecimalValue, _: DecimalDType, _: Nullability) -> Self {
        unreachable!("decimals are outside the comparison")
    }
    pub fn dtype(&self) -> &DType {
        &self.dtype
    }
    pub fn value(&self) -> Option<&ScalarValue> {
        self.value.as_ref()
    }
    pub fn into_value(self) -> Option<ScalarValue> {
        self.value
    }
    pub fn is_null(&self) -> bool {
        self.value.is_none()
    }
    /// Numbers to numbers, by value; the target's nullability.
    pub fn cast(&self, to: &DType) -> VortexResult<Scalar> {
        let DType::Primitive(p, _) = to else { vortex_bail!("Cannot cast to {}", to) };
        let Some(v) = self.as_primitive().pvalue() else { return Self::try_new(to.clone(), None) };
        let v = crate::match_each_native_ptype!(*p, |T| { PValue::from(v.cast::<T>()?) });
        Self::try_new(to.clone(), Some(ScalarValue::Primitive(v)))
    }
}
macro_rules! try_from {
    ($($T:ident),*) => { $( impl TryFrom<&Scalar> for $T {
        type Error = VortexError;
        fn try_from(s: &Scalar) -> VortexResult<$T> {
            s.as_primitive().pvalue().ok_or_else(|| vortex_err!("null scalar"))?.cast::<$T>()
        }
    } )* };
}
try_from!(u64, i64, f64);
impl TryFrom<&Scalar> for DecimalValue {
    type Error = VortexError;
    fn try_from(_: &Scalar) -> VortexResult<Self> {
        unreachable!("decimals are outside the comparison")
    }
}

pub struct PrimitiveScalar<'a>(Option<&'a PValue>);
impl<'a> PrimitiveScalar<'a> {
    pub fn try_new(dtype: &'a DType, value: Option<&'a ScalarValue>) -> VortexResult<Self> {
        match (dtype, value) {
            (DType::Primitive(..), None) => Ok(Self(None)),
            (DType::Primitive(..), Some(ScalarValue::Primitive(p))) => Ok(Self(Some(p))),
            _ => vortex_bail!("Expected primitive scalar, found {}", dtype),
        }
    }
    pub fn pvalue(&self) -> Option<PValue> {
        self.0.copied()
    }
    pub fn is_nan(&self) -> bool {
        self.0.is_some_and(|p| p.is_nan())
    }
}
pub struct StructScalar<'a>(&'a crate::dtype::StructFields, Option<&'a ScalarValue>);
impl<'a> StructScalar<'a> {
    pub fn try_new(dtype: &'a DType, value: Option<&'a ScalarValue>) -> VortexResult<Self> {
        match dtype {
            DType::Struct(s, _) => Ok(Self(s, value)),
            _ => vortex_bail!("Expected struct scalar, found {}", dtype),
        }
    }
    pub fn field(&self, name: &str) -> Option<Scalar> {
        let i = self.0.find(name)?;
        let Some(ScalarValue::Tuple(vs)) = self.1 else { return None };
        Some(Scalar { dtype: self.0.dtypes[i].clone(), value: vs[i].clone() })
    }
}

// Views of kinds outside the comparison: names and signatures that downcast.rs needs, never run.
macro_rules! no_view {
    ($($V:ident),*) => { $(
        pub struct $V<'a>(std::marker::PhantomData<&'a ()>);
        impl<'a> $V<'a> {
            pub fn try_new(dtype: &'a DType, _: Option<&'a ScalarValue>) -> VortexResult<Self> {
                vortex_bail!("{} is outside the comparison", dtype)
            }
            pub fn new_unchecked(_: &'a DType, _: Option<&'a ScalarValue>) -> Self {
                unreachable!("outside the comparison")
            }
        }
    )* };
}
no_view!(
    BoolScalar,
    DecimalScalar,
    Utf8Scalar,
    BinaryScalar,
    ListScalar,
    MapScalar,
    ExtScalar,
    UnionScalar,
    VariantScalar
);
impl BoolScalar<'_> {
    pub fn value(&self) -> Option<bool> {
        None
    }
}
impl DecimalScalar<'_> {
    pub fn decimal_value(&self) -> Option<DecimalValue> {
        None
    }
}
#[derive(Clone, Debug, PartialEq)]
pub struct UnionValue;
#[derive(Clone, Copy, Debug, PartialEq)]
pub enum DecimalValue {
    I256(i256),
}
impl DecimalValue {
    fn no() -> ! {
        unreachable!("decimals are outside the comparison")
    }
    pub fn zero(_: &DecimalDType) -> Self {
        Self::no()
    }
    pub fn as_i256(&self) -> i256 {
        Self::no()
    }
    pub fn checked_add(&self, _: &Self) -> Option<Self> {
        Self::no()
    }
    pub fn checked_mul(&self, _: &Self) -> Option<Self> {
        Self::no()
    }
    pub fn normalize(&self, _: DecimalDType) -> Option<Self> {
        Self::no()
    }
    pub fn fits_in_precision(&self, _: DecimalDType) -> bool {
        Self::no()
    }
}
