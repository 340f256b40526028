//! SHIM of expr/stats: the statistics record of one column.
pub mod stats {
    use std::fmt;
    use std::sync::Mutex;

    use crate::aggregate_fn::AggregateFnRef;
    use crate::aggregate_fn::AggregateFnVTable;
    use crate::aggregate_fn::NumericalAggregateOpts;
    use crate::aggregate_fn::fns::sum::Sum;
    use crate::dtype::DType;
    use crate::scalar::Scalar;
    use crate::scalar::ScalarValue;

    #[derive(Clone, Debug)]
    pub enum Precision<T> {
        Exact(T),
        Inexact(T),
        Absent,
    }
    impl<T> Precision<T> {
        fn map<U>(self, f: impl FnOnce(T) -> U) -> Precision<U> {
            match self {
                Precision::Exact(v) => Precision::Exact(f(v)),
                Precision::Inexact(v) => Precision::Inexact(f(v)),
                Precision::Absent => Precision::Absent,
            }
        }
    }

    #[derive(Clone, Copy, Debug, PartialEq)]
    pub enum Stat {
        Sum,
        NaNCount,
    }
    impl Stat {
        /// Only the sum with skip_nans is cached.
        pub fn from_aggregate_fn(f: &AggregateFnRef) -> Option<Stat> {
            f.as_opt::<Sum>().filter(|o| o.skip_nans).map(|_| Stat::Sum)
        }
    }
    impl fmt::Display for Stat {
        fn fmt(&self, f: &mut fmt::Formatter<'_>) -> fmt::Result {
            fmt::Debug::fmt(self, f)
        }
    }

    /// The cached sum keeps its own dtype, so that a sum of another type can stand in a record.
    #[derive(Clone, Debug)]
    pub struct StatsRecord {
        pub sum: Precision<Scalar>,
        pub nan_count: Precision<u64>,
    }

    pub trait StatsProvider {
        fn get(&self, stat: Stat) -> Precision<Scalar>;
    }
    pub trait StatsProviderExt: StatsProvider {
        fn get_as<T: for<'a> TryFrom<&'a Scalar>>(&self, stat: Stat) -> Precision<T> {
            self.get(stat).map(|s| T::try_from(&s).ok().expect("stat of its type"))
        }
    }
    impl<S: StatsProvider> StatsProviderExt for S {}

    pub struct StatsSetRef<'a> {
        pub(crate) array_dtype: &'a DType,
        pub(crate) record: &'a Mutex<StatsRecord>,
    }
    impl StatsProvider for StatsSetRef<'_> {
        fn get(&self, stat: Stat) -> Precision<Scalar> {
            let r = self.record.lock().unwrap();
            match stat {
                Stat::Sum => r.sum.clone(),
                Stat::NaNCount => {
                    r.nan_count.clone().map(|n| Scalar::primitive(n, crate::dtype::Nullability::NonNullable))
                }
            }
        }
    }
    impl StatsSetRef<'_> {
        /// A written value gets the dtype of the column's sum.
        pub fn set(&self, stat: Stat, value: Precision<ScalarValue>) {
            assert_eq!(stat, Stat::Sum);
            let dtype = Sum.return_dtype(&NumericalAggregateOpts::default(), self.array_dtype).expect("a number type");
            self.record.lock().unwrap().sum = value.map(|v| Scalar::try_new(dtype, Some(v)).unwrap());
        }
    }
}
