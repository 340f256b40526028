//! ADDED, NOT THE CRATE'S: Count as docs/DEFINITION.md has it. A valid entry counts 1 (NaN too), a constant that is not
//! null its length. It has no options, and reads and writes no record. It answers a nullable U64; an overflow makes
//! null, which is saturated.
use vortex_error::VortexResult;
use vortex_mask::AllOr;
use vortex_session::registry::CachedId;

use crate::ArrayRef;
use crate::Canonical;
use crate::Columnar;
use crate::ExecutionCtx;
use crate::aggregate_fn::AggregateArgs;
use crate::aggregate_fn::AggregateFnId;
use crate::aggregate_fn::AggregateFnVTable;
use crate::aggregate_fn::EmptyOptions;
use crate::dtype::DType;
use crate::dtype::Nullability;
use crate::dtype::PType;
use crate::scalar::Scalar;

#[derive(Clone, Debug)]
pub struct Count;
pub struct CountPartial(Option<u64>);

impl AggregateFnVTable for Count {
    type Options = EmptyOptions;
    type Partial = CountPartial;

    fn id(&self) -> AggregateFnId {
        static ID: CachedId = CachedId::new("added.count");
        *ID
    }
    fn return_dtype(&self, _: &EmptyOptions, input: &DType) -> Option<DType> {
        matches!(input, DType::Primitive(..)).then_some(DType::Primitive(PType::U64, Nullability::Nullable))
    }
    fn partial_dtype(&self, o: &EmptyOptions, input: &DType) -> Option<DType> {
        self.return_dtype(o, input)
    }
    fn empty_partial(&self, _: AggregateArgs<'_, EmptyOptions>) -> VortexResult<CountPartial> {
        Ok(CountPartial(Some(0)))
    }
    fn partial_from_scalar(&self, _: AggregateArgs<'_, EmptyOptions>, s: &Scalar) -> VortexResult<CountPartial> {
        Ok(CountPartial(if s.is_null() { None } else { Some(u64::try_from(s)?) }))
    }
    fn merge_partials(
        &self,
        _: AggregateArgs<'_, EmptyOptions>,
        a: CountPartial,
        b: CountPartial,
    ) -> VortexResult<CountPartial> {
        Ok(CountPartial(a.0.zip(b.0).and_then(|(a, b)| a.checked_add(b))))
    }
    fn to_scalar(&self, a: AggregateArgs<'_, EmptyOptions>, p: &CountPartial) -> VortexResult<Scalar> {
        Ok(match p.0 {
            Some(v) => Scalar::primitive(v, Nullability::Nullable),
            None => Scalar::null(a.return_dtype.clone()),
        })
    }
    fn is_saturated(&self, _: AggregateArgs<'_, EmptyOptions>, p: &CountPartial) -> bool {
        p.0.is_none()
    }
    fn accumulate(
        &self,
        _: AggregateArgs<'_, EmptyOptions>,
        p: &mut CountPartial,
        batch: &Columnar,
        ctx: &mut ExecutionCtx,
    ) -> VortexResult<()> {
        let n = match batch {
            Columnar::Constant(c) => {
                if c.scalar().is_null() {
                    0
                } else {
                    c.len() as u64
                }
            }
            Columnar::Canonical(Canonical::Primitive(p)) => {
                let a: &ArrayRef = p.as_ref();
                match a.validity()?.execute_mask(a.len(), ctx)?.slices() {
                    AllOr::All => a.len() as u64,
                    AllOr::None => 0,
                    AllOr::Some(runs) => runs.iter().map(|(s, e)| (e - s) as u64).sum(),
                }
            }
            _ => unreachable!(),
        };
        p.0 = p.0.and_then(|c| c.checked_add(n));
        Ok(())
    }
    fn finalize(&self, _: AggregateArgs<'_, EmptyOptions>, states: ArrayRef) -> VortexResult<ArrayRef> {
        Ok(states)
    }
    fn finalize_scalar(&self, a: AggregateArgs<'_, EmptyOptions>, p: &CountPartial) -> VortexResult<Scalar> {
        self.to_scalar(a, p)
    }
}
