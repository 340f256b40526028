//! ADDED, NOT THE CRATE'S: Reported and Both as docs/DEFINITION.md has them, over the published `BinaryCombined`.
use vortex_error::VortexResult;
use vortex_session::registry::CachedId;

use crate::ArrayRef;
use crate::aggregate_fn::AggregateArgs;
use crate::aggregate_fn::AggregateFnId;
use crate::aggregate_fn::AggregateFnVTable;
use crate::aggregate_fn::combined::BinaryCombined;
use crate::aggregate_fn::combined::CombinedOptions;
use crate::aggregate_fn::fns::count::Count;
use crate::aggregate_fn::fns::sum::Sum;
use crate::dtype::DType;
use crate::scalar::Scalar;

/// Sum with Count: null when the count reads 0, else the sum.
#[derive(Clone, Debug)]
pub struct Reported;
impl BinaryCombined for Reported {
    type Left = Sum;
    type Right = Count;
    fn id(&self) -> AggregateFnId {
        static ID: CachedId = CachedId::new("added.reported");
        *ID
    }
    fn left(&self) -> Sum {
        Sum
    }
    fn right(&self) -> Count {
        Count
    }
    fn return_dtype(&self, o: &CombinedOptions<Self>, input: &DType) -> Option<DType> {
        Sum.return_dtype(&o.0, input)
    }
    fn finalize(
        &self,
        _: AggregateArgs<'_, CombinedOptions<Self>>,
        _: ArrayRef,
        _: ArrayRef,
    ) -> VortexResult<ArrayRef> {
        unreachable!("grouped results are outside the comparison")
    }
    fn finalize_scalar(
        &self,
        a: AggregateArgs<'_, CombinedOptions<Self>>,
        l: Scalar,
        r: Scalar,
    ) -> VortexResult<Scalar> {
        Ok(if !r.is_null() && u64::try_from(&r)? == 0 { Scalar::null(a.return_dtype.clone()) } else { l })
    }
}

/// Any two aggregates: the two final answers, left first.
#[derive(Clone, Debug)]
pub struct Both<L, R>(pub L, pub R);
impl<L: AggregateFnVTable, R: AggregateFnVTable> BinaryCombined for Both<L, R> {
    type Left = L;
    type Right = R;
    fn id(&self) -> AggregateFnId {
        static ID: CachedId = CachedId::new("added.both");
        *ID
    }
    fn left(&self) -> L {
        self.0.clone()
    }
    fn right(&self) -> R {
        self.1.clone()
    }
    fn return_dtype(&self, o: &CombinedOptions<Self>, input: &DType) -> Option<DType> {
        Some(self.partial_struct_dtype(self.0.return_dtype(&o.0, input)?, self.1.return_dtype(&o.1, input)?))
    }
    fn finalize(
        &self,
        _: AggregateArgs<'_, CombinedOptions<Self>>,
        _: ArrayRef,
        _: ArrayRef,
    ) -> VortexResult<ArrayRef> {
        unreachable!("grouped results are outside the comparison")
    }
    fn finalize_scalar(
        &self,
        a: AggregateArgs<'_, CombinedOptions<Self>>,
        l: Scalar,
        r: Scalar,
    ) -> VortexResult<Scalar> {
        Ok(Scalar::struct_(a.return_dtype.clone(), vec![l, r]))
    }
}
