//! The side of the definition (docs/DEFINITION.md), step by step, with no code of the published files. It can be asked
//! to follow the crate where the crate is known to depart from the definition, so that equality with the crate on any
//! list of calls can be asked for.
use crate::shell::{Fault, Outcome, Running, Side};
use crate::words::{Aggregate, COUNT_DTYPE, Column, DType, Precision, Record, Scalar, Value};
use std::cell::Cell;
use std::rc::Rc;

const THE_NAN: u64 = 0x7ff8_0000_0000_0000;
const CHUNK: usize = 65_536;

/// The crate's departures from the definition that script answers can show.
#[derive(Default)]
pub struct Departures {
    /// Whether this side departs as the crate does.
    followed: bool,
    /// Signed constants longer than 2^63 - 1 whose product fits all the same: the crate calls it an overflow.
    pub long_constants: Cell<u64>,
    /// Cached sums of another number type, without skip_nans and with no NaN: the crate casts them.
    pub cast_sums: Cell<u64>,
}
fn count_one(cell: &Cell<u64>) {
    cell.set(cell.get() + 1);
}

pub struct ModelSide {
    pub departures: Rc<Departures>,
}
impl ModelSide {
    pub fn of_the_definition() -> Self {
        ModelSide { departures: Rc::new(Departures::default()) }
    }
    pub fn that_follows_the_crate() -> Self {
        ModelSide { departures: Rc::new(Departures { followed: true, ..Departures::default() }) }
    }
}
impl Side for ModelSide {
    type Accumulator = ModelAccumulator;
    fn make(&self, aggregate: &Aggregate, dtype: DType) -> ModelAccumulator {
        ModelAccumulator { aggregate: aggregate.clone(), dtype, departures: self.departures.clone(), partial: None }
    }
}

#[derive(Clone, Copy)]
enum State {
    /// A U64 or an I64, as the dtype fixes it.
    Int(i128),
    /// The bits; every NaN has the one pattern.
    Float(u64),
}
fn float_state(number: f64) -> State {
    State::Float(if number.is_nan() { THE_NAN } else { number.to_bits() })
}
fn widened(value: Value) -> f64 {
    match value {
        Value::F32(bits) => f32::from_bits(bits) as f64,
        Value::F64(bits) => f64::from_bits(bits),
        Value::Int(number) => number as f64,
    }
}
fn integer(value: Value) -> i128 {
    match value {
        Value::Int(number) => number,
        _ => unreachable!("an integer"),
    }
}
fn state_of(value: Value) -> State {
    match value {
        Value::Int(number) => State::Int(number),
        float => float_state(widened(float)),
    }
}
fn value_of(state: State) -> Value {
    match state {
        State::Int(number) => Value::Int(number),
        State::Float(bits) => Value::F64(bits),
    }
}

#[derive(Clone)]
enum Partial {
    Sum(Option<State>),
    Count(Option<u64>),
    Pair(Box<ModelAccumulator>, Box<ModelAccumulator>),
}

#[derive(Clone)]
pub struct ModelAccumulator {
    aggregate: Aggregate,
    dtype: DType,
    departures: Rc<Departures>,
    partial: Option<Partial>,
}

/// Start and end of every stretch.
fn stretches(len: usize, bitmap: Option<&[u8]>) -> Vec<(usize, usize)> {
    let valid = |i: usize| bitmap.is_none_or(|bytes| bytes[i / 8] & (1 << (i % 8)) != 0);
    let mut found = Vec::new();
    let mut i = 0;
    while i < len {
        let start = i;
        while i < len && valid(i) {
            i += 1;
        }
        if i > start {
            found.push((start, i));
        } else {
            i += 1;
        }
    }
    found
}
fn valid_entries(column: &Column) -> u64 {
    match column {
        Column::Constant(_, value, len) => value.map_or(0, |_| *len),
        Column::Primitive(_, values, bitmap) => {
            stretches(values.len(), bitmap.as_deref()).iter().map(|(start, end)| (end - start) as u64).sum()
        }
    }
}

impl ModelAccumulator {
    fn empty_partial(&self) -> Partial {
        match &self.aggregate {
            Aggregate::Sum(_) => {
                Partial::Sum(Some(if self.dtype.is_float() { State::Float(0) } else { State::Int(0) }))
            }
            Aggregate::Count => Partial::Count(Some(0)),
            pair => {
                let (left, right) = pair.halves().expect("a pair");
                let half = |aggregate| Box::new(ModelAccumulator { aggregate, partial: None, ..self.clone() });
                Partial::Pair(half(left), half(right))
            }
        }
    }
    fn read(&self) -> Partial {
        self.partial.clone().unwrap_or_else(|| self.empty_partial())
    }
    fn is_saturated(&self) -> bool {
        match &self.partial {
            None => false,
            Some(Partial::Sum(None)) | Some(Partial::Count(None)) => true,
            Some(Partial::Sum(Some(State::Float(bits)))) => f64::from_bits(*bits).is_nan(),
            Some(Partial::Sum(Some(State::Int(_)))) | Some(Partial::Count(Some(_))) => false,
            Some(Partial::Pair(left, right)) => left.is_saturated() && right.is_saturated(),
        }
    }

    /// None where an integer leaves the range of the sum.
    fn in_range(&self, number: i128) -> Option<State> {
        let (least, most) = self.dtype.of_sum().range();
        (least <= number && number <= most).then_some(State::Int(number))
    }
    fn added(&self, first: State, second: State) -> Option<State> {
        match (first, second) {
            (State::Int(first), State::Int(second)) => self.in_range(first + second),
            (State::Float(first), State::Float(second)) => {
                Some(float_state(f64::from_bits(first) + f64::from_bits(second)))
            }
            _ => unreachable!("two states of one kind"),
        }
    }
    fn merge_in(&mut self, other: Partial) {
        let merged = match (self.partial.take(), other) {
            (None, other) => other,
            (Some(Partial::Sum(first)), Partial::Sum(second)) => {
                Partial::Sum(first.zip(second).and_then(|(first, second)| self.added(first, second)))
            }
            (Some(Partial::Count(first)), Partial::Count(second)) => {
                Partial::Count(first.zip(second).and_then(|(first, second)| first.checked_add(second)))
            }
            (Some(Partial::Pair(mut left, mut right)), Partial::Pair(other_left, other_right)) => {
                if let Some(partial) = other_left.partial {
                    left.merge_in(partial);
                }
                if let Some(partial) = other_right.partial {
                    right.merge_in(partial);
                }
                Partial::Pair(left, right)
            }
            _ => unreachable!("two partials of one kind"),
        };
        self.partial = Some(merged);
    }

    /// The column added to a state by the rules for stretches, chunks and constants; None at an overflow.
    fn add_column(&self, state: State, column: &Column, skip_nans: bool) -> Option<State> {
        match column {
            Column::Constant(_, None, _) | Column::Constant(_, _, 0) => Some(state),
            Column::Constant(_, Some(value), _) if skip_nans && value.is_nan() => Some(state),
            Column::Constant(dtype, Some(value), len) if dtype.is_float() => {
                let len = (len >> 32) as f64 * 4_294_967_296.0 + (len & 0xffff_ffff) as f64;
                self.added(state, float_state(widened(*value) * len))
            }
            Column::Constant(dtype, Some(value), len) => {
                let product = self.in_range(integer(*value).checked_mul(*len as i128)?)?;
                if dtype.is_signed() && *len > i64::MAX as u64 {
                    count_one(&self.departures.long_constants);
                    if self.departures.followed {
                        return None;
                    }
                }
                self.added(state, product)
            }
            Column::Primitive(dtype, values, bitmap) => {
                let mut state = state;
                for (start, end) in stretches(values.len(), bitmap.as_deref()) {
                    let stretch = &values[start..end];
                    if dtype.is_float() {
                        for value in stretch.iter().filter(|v| !(skip_nans && v.is_nan())) {
                            state = self.added(state, float_state(widened(*value)))?;
                        }
                    } else {
                        for chunk in stretch.chunks(if dtype.is_64_bits_wide() { 1 } else { CHUNK }) {
                            state = self.added(state, State::Int(chunk.iter().map(|v| integer(*v)).sum()))?;
                        }
                    }
                }
                Some(state)
            }
        }
    }

    /// Steps 3 and 4 of the accumulator: `Sum` with skip_nans.
    fn accumulate_cached(&mut self, column: &Column, record: &mut Record) -> Outcome<()> {
        let sum_dtype = self.dtype.of_sum();
        if let Precision::Exact(Scalar::One(dtype, Some(value))) = &record.sum {
            if dtype.code != sum_dtype.code {
                return Err(Fault::Refused(6));
            }
            self.merge_in(Partial::Sum(Some(state_of(*value))));
            return Ok(());
        }
        let Partial::Sum(Some(zero)) = self.empty_partial() else { unreachable!("a sum") };
        let batch = self.add_column(zero, column, true);
        if let Some(state) = batch {
            record.sum = Precision::Exact(Scalar::One(sum_dtype, Some(value_of(state))));
        }
        self.merge_in(Partial::Sum(batch));
        Ok(())
    }
    /// Steps 5 and 6 for `Sum` without skip_nans.
    fn accumulate_keeping_nans(&self, state: State, column: &Column, record: &Record) -> Outcome<Option<State>> {
        if self.dtype.is_float() {
            match (&record.nan_count, &record.sum) {
                (Precision::Exact(1..), _) => return Ok(Some(State::Float(THE_NAN))),
                (Precision::Exact(0), Precision::Exact(Scalar::One(dtype, Some(value)))) => {
                    if dtype.code != self.dtype.of_sum().code {
                        count_one(&self.departures.cast_sums);
                        if !self.departures.followed {
                            return Err(Fault::Refused(6));
                        }
                    }
                    return Ok(self.added(state, float_state(widened(*value))));
                }
                _ => {}
            }
        }
        Ok(self.add_column(state, column, false))
    }

    fn takes(aggregate: &Aggregate, dtype: DType, scalar: &Scalar) -> bool {
        match (aggregate, scalar) {
            (Aggregate::Sum(_), Scalar::One(given, _)) => *given == dtype.of_sum(),
            (Aggregate::Count, Scalar::One(given, _)) => *given == COUNT_DTYPE,
            (pair, Scalar::Pair(left, right)) => pair
                .halves()
                .is_some_and(|halves| Self::takes(&halves.0, dtype, left) && Self::takes(&halves.1, dtype, right)),
            _ => false,
        }
    }
    fn taken_in(&self, scalar: &Scalar) -> Partial {
        match (self.empty_partial(), scalar) {
            (Partial::Sum(_), Scalar::One(_, value)) => Partial::Sum(value.map(state_of)),
            (Partial::Count(_), Scalar::One(_, value)) => Partial::Count(value.map(|v| integer(v) as u64)),
            (Partial::Pair(mut left, mut right), Scalar::Pair(left_scalar, right_scalar)) => {
                left.partial = Some(left.taken_in(left_scalar));
                right.partial = Some(right.taken_in(right_scalar));
                Partial::Pair(left, right)
            }
            _ => unreachable!("a scalar of the partial dtype"),
        }
    }
    fn partial_scalar(&self) -> Scalar {
        match self.read() {
            Partial::Sum(state) => Scalar::One(self.dtype.of_sum(), state.map(value_of)),
            Partial::Count(count) => Scalar::One(COUNT_DTYPE, count.map(|c| Value::Int(c.into()))),
            Partial::Pair(left, right) => {
                Scalar::Pair(Box::new(left.partial_scalar()), Box::new(right.partial_scalar()))
            }
        }
    }
    fn final_scalar(&self) -> Scalar {
        match (self.read(), &self.aggregate) {
            (Partial::Pair(left, right), Aggregate::Reported(_)) => match right.final_scalar() {
                Scalar::One(_, Some(Value::Int(0))) => Scalar::One(self.dtype.of_sum(), None),
                _ => left.final_scalar(),
            },
            (Partial::Pair(left, right), _) => {
                Scalar::Pair(Box::new(left.final_scalar()), Box::new(right.final_scalar()))
            }
            _ => self.partial_scalar(),
        }
    }
}

impl Running for ModelAccumulator {
    fn accumulate(&mut self, column: &Column, record: &mut Record) -> Outcome<()> {
        if self.is_saturated() {
            return Ok(());
        }
        if column.dtype() != self.dtype {
            return Err(Fault::Refused(4));
        }
        if self.aggregate == Aggregate::Sum(true) {
            return self.accumulate_cached(column, record);
        }
        match self.read() {
            Partial::Sum(Some(state)) => {
                // The empty partial stays even where the record is refused.
                self.partial = Some(Partial::Sum(Some(state)));
                self.partial = Some(Partial::Sum(self.accumulate_keeping_nans(state, column, record)?));
                Ok(())
            }
            Partial::Sum(None) => unreachable!("a null sum is saturated"),
            Partial::Count(count) => {
                self.partial = Some(Partial::Count(count.and_then(|c| c.checked_add(valid_entries(column)))));
                Ok(())
            }
            Partial::Pair(mut left, mut right) => {
                // A refused half keeps what it has, and the left half what it took.
                let outcome = left.accumulate(column, record).and_then(|()| right.accumulate(column, record));
                self.partial = Some(Partial::Pair(left, right));
                outcome
            }
        }
    }
    fn combine(&mut self, scalar: &Scalar) -> Outcome<()> {
        if !Self::takes(&self.aggregate, self.dtype, scalar) {
            return Err(Fault::Refused(5));
        }
        let partial = self.taken_in(scalar);
        self.merge_in(partial);
        Ok(())
    }
    fn merge(&mut self, other: &mut Self) -> Outcome<()> {
        if self.aggregate != other.aggregate || self.dtype != other.dtype {
            return Err(Fault::Refused(10));
        }
        if let Some(partial) = other.partial.take() {
            self.merge_in(partial);
        }
        Ok(())
    }
    fn flush(&mut self) -> Outcome<Scalar> {
        let answer = self.partial_scalar();
        self.partial = None;
        Ok(answer)
    }
    fn finish(&mut self) -> Outcome<Scalar> {
        let answer = self.final_scalar();
        self.partial = None;
        Ok(answer)
    }
    fn reset(&mut self) -> Outcome<()> {
        self.partial = None;
        Ok(())
    }
    fn partial(&mut self) -> Outcome<Scalar> {
        Ok(self.partial_scalar())
    }
    fn final_answer(&mut self) -> Outcome<Scalar> {
        Ok(self.final_scalar())
    }
    fn saturated(&mut self) -> Outcome<bool> {
        Ok(self.is_saturated())
    }
}
