//! SHIM, never run: decimal columns are outside the comparison.
use super::SumState;
use crate::ExecutionCtx;
use crate::arrays::DecimalArray;
use crate::dtype::DType;
use vortex_error::VortexResult;

pub(crate) fn accumulate_decimal(
    _: &mut SumState,
    _: &DType,
    _: &DecimalArray,
    _: &mut ExecutionCtx,
) -> VortexResult<bool> {
    unreachable!("decimal columns are outside the comparison")
}
