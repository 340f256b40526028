//! SHIM of array/erased.rs: a shared handle to one column of one of two kinds, with its record.
use std::any::Any;
use std::sync::Arc;
use std::sync::Mutex;

use vortex_error::VortexResult;

use crate::dtype::DType;
use crate::dtype::NativePType;
use crate::dtype::Nullability;
use crate::executor::Executable;
use crate::executor::ExecutionCtx;
use crate::executor::Matcher;
use crate::expr::stats::StatsRecord;
use crate::expr::stats::StatsSetRef;
use crate::scalar::Scalar;
use crate::validity::Validity;

#[derive(Clone, Copy)]
pub struct ArrayId(pub &'static str);

pub(crate) enum Kind {
    /// A `Vec<T>` of the dtype's native type, and a bitmap where the dtype is nullable.
    Primitive(Box<dyn Any + Send + Sync>, Option<Vec<u8>>),
    Constant(Scalar),
}
struct Inner {
    dtype: DType,
    len: usize,
    kind: Kind,
    stats: Mutex<StatsRecord>,
}

#[derive(Clone)]
pub struct ArrayRef(Arc<Inner>);

impl ArrayRef {
    /// Nullable just where there is a bitmap, which has a bit for each value, rounded up to bytes.
    pub fn primitive<T: NativePType>(values: Vec<T>, bitmap: Option<Vec<u8>>, stats: StatsRecord) -> Self {
        let nullability = Nullability::from(bitmap.is_some());
        if let Some(b) = &bitmap {
            assert_eq!(b.len(), values.len().div_ceil(8));
        }
        ArrayRef(Arc::new(Inner {
            dtype: DType::Primitive(T::PTYPE, nullability),
            len: values.len(),
            kind: Kind::Primitive(Box::new(values), bitmap),
            stats: Mutex::new(stats),
        }))
    }
    pub fn constant(scalar: Scalar, len: usize, stats: StatsRecord) -> Self {
        ArrayRef(Arc::new(Inner {
            dtype: scalar.dtype().clone(),
            len,
            kind: Kind::Constant(scalar),
            stats: Mutex::new(stats),
        }))
    }
    pub fn record(&self) -> StatsRecord {
        self.0.stats.lock().unwrap().clone()
    }
    pub(crate) fn kind(&self) -> &Kind {
        &self.0.kind
    }

    pub fn len(&self) -> usize {
        self.0.len
    }
    pub fn dtype(&self) -> &DType {
        &self.0.dtype
    }
    pub fn encoding_id(&self) -> ArrayId {
        ArrayId(match self.0.kind {
            Kind::Primitive(..) => "vortex.primitive",
            Kind::Constant(_) => "vortex.constant",
        })
    }
    pub fn statistics(&self) -> StatsSetRef<'_> {
        StatsSetRef { array_dtype: &self.0.dtype, record: &self.0.stats }
    }
    pub fn is<M: Matcher>(&self) -> bool {
        M::matches(self)
    }
    pub fn execute<E: Executable>(self, ctx: &mut ExecutionCtx) -> VortexResult<E> {
        E::execute(self, ctx)
    }
    pub fn validity(&self) -> VortexResult<Validity> {
        Ok(match &self.0.kind {
            Kind::Primitive(_, None) => Validity::NonNullable,
            Kind::Primitive(_, Some(b)) => Validity::Bitmap(b.clone()),
            Kind::Constant(_) => unreachable!("constants are never asked for validity"),
        })
    }
}
