//! The side of the crate: `DynAccumulator` for `Accumulator<V>` of the published files, made by `from_dtypes`.
use crate::shell::{Fault, Outcome, Running, Side};
use crate::words::{Aggregate, Column, DType, Precision, Record, Scalar, Value};
use std::panic::{AssertUnwindSafe, catch_unwind};
use vortex_array::aggregate_fn::combined::{BinaryCombined, Combined, PairOptions};
use vortex_array::aggregate_fn::fns::count::Count;
use vortex_array::aggregate_fn::fns::pairs::{Both, Reported};
use vortex_array::aggregate_fn::fns::sum::Sum;
use vortex_array::aggregate_fn::{
    Accumulator, AggregateDTypes, AggregateFnVTable, DynAccumulator, EmptyOptions, NumericalAggregateOpts,
};
use vortex_array::dtype::{DType as CrateDType, FieldName, FieldNames, Nullability, PType, StructFields};
use vortex_array::expr::stats::{Precision as CratePrecision, StatsRecord};
use vortex_array::scalar::{PValue, Scalar as CrateScalar, ScalarValue};
use vortex_array::{ArrayRef, ExecutionCtx};
use vortex_error::VortexResult;

pub struct CrateSide;
pub struct CrateAccumulator(Box<dyn DynAccumulator>);

impl Side for CrateSide {
    type Accumulator = CrateAccumulator;
    fn make(&self, aggregate: &Aggregate, dtype: DType) -> CrateAccumulator {
        type SumCount = Combined<Both<Sum, Count>>;
        type CountSum = Combined<Both<Count, Sum>>;
        type SumSum = Combined<Both<Sum, Sum>>;
        let dtype = crate_dtype(dtype);
        let made = make::<Sum>(aggregate, &dtype)
            .or_else(|| make::<Count>(aggregate, &dtype))
            .or_else(|| make::<Combined<Reported>>(aggregate, &dtype))
            .or_else(|| make::<SumSum>(aggregate, &dtype))
            .or_else(|| make::<SumCount>(aggregate, &dtype))
            .or_else(|| make::<CountSum>(aggregate, &dtype))
            .or_else(|| make::<Combined<Both<Count, Count>>>(aggregate, &dtype))
            .or_else(|| make::<Combined<Both<SumCount, Sum>>>(aggregate, &dtype))
            .or_else(|| make::<Combined<Both<Sum, CountSum>>>(aggregate, &dtype))
            .or_else(|| make::<Combined<Both<Combined<Reported>, SumSum>>>(aggregate, &dtype))
            .or_else(|| make::<Combined<Both<SumSum, CountSum>>>(aggregate, &dtype));
        CrateAccumulator(made.expect("an aggregate of the language"))
    }
}

/// An aggregate type of the crate that a served aggregate may stand for.
trait Named: AggregateFnVTable {
    fn named(aggregate: &Aggregate) -> Option<(Self, Self::Options)>;
}
impl Named for Sum {
    fn named(aggregate: &Aggregate) -> Option<(Self, Self::Options)> {
        match aggregate {
            Aggregate::Sum(skip_nans) => Some((Sum, NumericalAggregateOpts { skip_nans: *skip_nans })),
            _ => None,
        }
    }
}
impl Named for Count {
    fn named(aggregate: &Aggregate) -> Option<(Self, Self::Options)> {
        matches!(aggregate, Aggregate::Count).then_some((Count, EmptyOptions))
    }
}
impl Named for Combined<Reported> {
    fn named(aggregate: &Aggregate) -> Option<(Self, Self::Options)> {
        match aggregate {
            Aggregate::Reported(skip_nans) => {
                let options = PairOptions(NumericalAggregateOpts { skip_nans: *skip_nans }, EmptyOptions);
                Some((Combined(Reported), options))
            }
            _ => None,
        }
    }
}
impl<L: Named, R: Named> Named for Combined<Both<L, R>> {
    fn named(aggregate: &Aggregate) -> Option<(Self, Self::Options)> {
        let Aggregate::Both(left, right) = aggregate else { return None };
        let ((left, left_options), (right, right_options)) = (L::named(left)?, R::named(right)?);
        Some((Combined(Both(left, right)), PairOptions(left_options, right_options)))
    }
}
fn make<V: Named>(aggregate: &Aggregate, dtype: &CrateDType) -> Option<Box<dyn DynAccumulator>> {
    let (vtable, options) = V::named(aggregate)?;
    let dtypes = AggregateDTypes::try_new(&vtable, &options, dtype.clone()).expect("a number dtype");
    Some(Box::new(Accumulator::from_dtypes(vtable, options, dtypes)))
}

/// The crate has texts and no numbers; this is the whole mapping.
fn fault(text: &str) -> Fault {
    if text.starts_with("Input DType mismatch") {
        Fault::Refused(4)
    } else if text.starts_with("Partial DType mismatch for ") {
        Fault::Refused(5)
    } else if text.starts_with("Aggregate ") && text.contains(" read legacy stat ") {
        Fault::Refused(6)
    } else if text.starts_with("Cannot merge ")
        && text.ends_with(" accumulators with different options or input dtypes")
    {
        Fault::Refused(10)
    } else {
        Fault::NoNumber(text.into())
    }
}
fn run<T>(call: impl FnOnce() -> VortexResult<T>) -> Outcome<T> {
    match catch_unwind(AssertUnwindSafe(call)) {
        Ok(Ok(value)) => Ok(value),
        Ok(Err(error)) => Err(fault(&error.to_string())),
        Err(panic) => {
            let text = panic.downcast_ref::<String>().cloned();
            let text = text.or_else(|| panic.downcast_ref::<&str>().map(|s| s.to_string()));
            Err(Fault::NoNumber(format!("panic {}", text.unwrap_or_default())))
        }
    }
}

impl Running for CrateAccumulator {
    fn accumulate(&mut self, column: &Column, record: &mut Record) -> Outcome<()> {
        let array = array(column, record);
        let outcome = run(|| self.0.accumulate(&array, &mut ExecutionCtx::default()));
        let after = array.record();
        record.sum = from_crate_precision(&after.sum, from_crate_scalar);
        record.nan_count = from_crate_precision(&after.nan_count, |n| *n);
        outcome
    }
    fn combine(&mut self, scalar: &Scalar) -> Outcome<()> {
        run(|| self.0.combine_partials(&crate_scalar(scalar)))
    }
    fn merge(&mut self, other: &mut Self) -> Outcome<()> {
        run(|| self.0.merge_from(other.0.as_mut()))
    }
    fn flush(&mut self) -> Outcome<Scalar> {
        run(|| self.0.flush()).map(|s| from_crate_scalar(&s))
    }
    fn finish(&mut self) -> Outcome<Scalar> {
        run(|| self.0.finish()).map(|s| from_crate_scalar(&s))
    }
    fn reset(&mut self) -> Outcome<()> {
        self.0.reset();
        Ok(())
    }
    fn partial(&mut self) -> Outcome<Scalar> {
        run(|| self.0.partial_scalar()).map(|s| from_crate_scalar(&s))
    }
    fn final_answer(&mut self) -> Outcome<Scalar> {
        run(|| self.0.final_scalar()).map(|s| from_crate_scalar(&s))
    }
    fn saturated(&mut self) -> Outcome<bool> {
        run(|| Ok(self.0.is_saturated()))
    }
}

// From the language's records to the crate's, and back.

fn crate_dtype(dtype: DType) -> CrateDType {
    use PType::*;
    let ptype = [U8, U16, U32, U64, I8, I16, I32, I64, F16, F32, F64][dtype.code as usize];
    CrateDType::Primitive(ptype, Nullability::from(dtype.nullable))
}
fn crate_value(dtype: DType, value: Value) -> PValue {
    match (dtype.code, value) {
        (0, Value::Int(i)) => PValue::U8(i as u8),
        (1, Value::Int(i)) => PValue::U16(i as u16),
        (2, Value::Int(i)) => PValue::U32(i as u32),
        (3, Value::Int(i)) => PValue::U64(i as u64),
        (4, Value::Int(i)) => PValue::I8(i as i8),
        (5, Value::Int(i)) => PValue::I16(i as i16),
        (6, Value::Int(i)) => PValue::I32(i as i32),
        (7, Value::Int(i)) => PValue::I64(i as i64),
        (9, Value::F32(bits)) => PValue::F32(f32::from_bits(bits)),
        (10, Value::F64(bits)) => PValue::F64(f64::from_bits(bits)),
        _ => unreachable!("a value of its type"),
    }
}
fn crate_scalar(scalar: &Scalar) -> CrateScalar {
    fn parts(scalar: &Scalar) -> (CrateDType, Option<ScalarValue>) {
        match scalar {
            Scalar::One(dtype, value) => {
                (crate_dtype(*dtype), value.map(|v| ScalarValue::Primitive(crate_value(*dtype, v))))
            }
            Scalar::Pair(left, right) => {
                let ((left_dtype, left), (right_dtype, right)) = (parts(left), parts(right));
                let names = [FieldName::from(Reported.left_name()), FieldName::from(Reported.right_name())];
                let fields = StructFields::new(FieldNames::from_iter(names), vec![left_dtype, right_dtype]);
                (CrateDType::Struct(fields, Nullability::NonNullable), Some(ScalarValue::Tuple(vec![left, right])))
            }
        }
    }
    let (dtype, value) = parts(scalar);
    CrateScalar::try_new(dtype, value).expect("a value of its dtype")
}
fn from_crate_value(value: PValue) -> Value {
    match value {
        PValue::U8(i) => Value::Int(i.into()),
        PValue::U16(i) => Value::Int(i.into()),
        PValue::U32(i) => Value::Int(i.into()),
        PValue::U64(i) => Value::Int(i.into()),
        PValue::I8(i) => Value::Int(i.into()),
        PValue::I16(i) => Value::Int(i.into()),
        PValue::I32(i) => Value::Int(i.into()),
        PValue::I64(i) => Value::Int(i.into()),
        PValue::F32(x) => Value::F32(x.to_bits()),
        PValue::F64(x) => Value::F64(x.to_bits()),
        PValue::F16(_) => unreachable!("F16 is outside the comparison"),
    }
}
fn from_crate_scalar(scalar: &CrateScalar) -> Scalar {
    fn part(dtype: &CrateDType, value: Option<&ScalarValue>) -> Scalar {
        match (dtype, value) {
            (CrateDType::Primitive(ptype, nullability), value) => {
                let dtype = DType { code: *ptype as u8, nullable: *nullability == Nullability::Nullable };
                let value = value.map(|value| match value {
                    ScalarValue::Primitive(value) => from_crate_value(*value),
                    _ => unreachable!("a number"),
                });
                Scalar::One(dtype, value)
            }
            (CrateDType::Struct(fields, _), Some(ScalarValue::Tuple(values))) => {
                let field = |i: usize| Box::new(part(&fields.dtypes[i], values[i].as_ref()));
                Scalar::Pair(field(0), field(1))
            }
            _ => unreachable!("numbers and pairs only"),
        }
    }
    part(scalar.dtype(), scalar.value())
}
fn crate_precision<A, B>(precision: &Precision<A>, map: impl Fn(&A) -> B) -> CratePrecision<B> {
    match precision {
        Precision::Exact(v) => CratePrecision::Exact(map(v)),
        Precision::Inexact(v) => CratePrecision::Inexact(map(v)),
        Precision::Absent => CratePrecision::Absent,
    }
}
fn from_crate_precision<A, B>(precision: &CratePrecision<A>, map: impl Fn(&A) -> B) -> Precision<B> {
    match precision {
        CratePrecision::Exact(v) => Precision::Exact(map(v)),
        CratePrecision::Inexact(v) => Precision::Inexact(map(v)),
        CratePrecision::Absent => Precision::Absent,
    }
}
fn array(column: &Column, record: &Record) -> ArrayRef {
    let stats = StatsRecord {
        sum: crate_precision(&record.sum, crate_scalar),
        nan_count: crate_precision(&record.nan_count, |n| *n),
    };
    match column {
        Column::Constant(dtype, value, len) => {
            ArrayRef::constant(crate_scalar(&Scalar::One(*dtype, *value)), *len as usize, stats)
        }
        Column::Primitive(dtype, values, bitmap) => {
            macro_rules! of {
                ($T:ty, $Kind:ident) => {{
                    let value = |v: &Value| match crate_value(*dtype, *v) {
                        PValue::$Kind(x) => x,
                        _ => unreachable!("a value of its type"),
                    };
                    ArrayRef::primitive::<$T>(values.iter().map(value).collect(), bitmap.clone(), stats)
                }};
            }
            match dtype.code {
                0 => of!(u8, U8),
                1 => of!(u16, U16),
                2 => of!(u32, U32),
                3 => of!(u64, U64),
                4 => of!(i8, I8),
                5 => of!(i16, I16),
                6 => of!(i32, I32),
                7 => of!(i64, I64),
                9 => of!(f32, F32),
                10 => of!(f64, F64),
                _ => unreachable!("a code of the language"),
            }
        }
    }
}
