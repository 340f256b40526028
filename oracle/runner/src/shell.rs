//! Runs lines on one side: keeps its board, lone accumulators and records, and gives the refusals of making and naming
//! (1, 2, 3, 7, 8, 9), which the crate does not have.
use crate::words::{Aggregate, Call, Column, DType, FRESH_RECORD, Place, Record, Scalar, read_call};
use std::collections::HashMap;

/// Why a call of an accumulator has no answer.
#[derive(Clone, Debug, PartialEq)]
pub enum Fault {
    Refused(u8),
    /// An error or a panic of the crate that has no number. None is expected.
    NoNumber(String),
}
pub type Outcome<T> = Result<T, Fault>;

/// One accumulator of a side.
pub trait Running {
    fn accumulate(&mut self, column: &Column, record: &mut Record) -> Outcome<()>;
    fn combine(&mut self, scalar: &Scalar) -> Outcome<()>;
    fn merge(&mut self, other: &mut Self) -> Outcome<()>;
    fn flush(&mut self) -> Outcome<Scalar>;
    fn finish(&mut self) -> Outcome<Scalar>;
    fn reset(&mut self) -> Outcome<()>;
    fn partial(&mut self) -> Outcome<Scalar>;
    fn final_answer(&mut self) -> Outcome<Scalar>;
    fn saturated(&mut self) -> Outcome<bool>;
}
/// What makes the accumulators of a side.
pub trait Side {
    type Accumulator: Running;
    fn make(&self, aggregate: &Aggregate, dtype: DType) -> Self::Accumulator;
}

/// Whose code gave an answer, on the crate's side.
#[derive(Clone, Copy, Debug, PartialEq, Eq, PartialOrd, Ord)]
pub enum By {
    /// Published code alone: `Accumulator<Sum>`.
    CrateSum,
    /// Published code: `Combined` over sums. (Its final answer is put together by added code and counts below.)
    CratePairOfSums,
    /// The added aggregate `Count`, run by the published accumulator.
    AddedCount,
    /// A pair with a count in it, or the final answer of a pair.
    AddedPair,
    /// Boards, lone accumulators and records being made.
    ShellMaking,
    /// Refusals 1, 2, 3, 7, 8 and 9.
    ShellRefusal,
}
impl By {
    pub const ALL: [By; 6] =
        [By::CrateSum, By::CratePairOfSums, By::AddedCount, By::AddedPair, By::ShellMaking, By::ShellRefusal];
    pub fn is_crate(self) -> bool {
        matches!(self, By::CrateSum | By::CratePairOfSums)
    }
    pub fn label(self) -> &'static str {
        match self {
            By::CrateSum => "crate: sums",
            By::CratePairOfSums => "crate: pairs of sums",
            By::AddedCount => "shell: count",
            By::AddedPair => "shell: pairs with a count, final answers of pairs",
            By::ShellMaking => "shell: boards, lone accumulators and records made",
            By::ShellRefusal => "shell: refusals 1, 2, 3, 7, 8, 9",
        }
    }
    fn of(aggregate: &Aggregate, is_final: bool) -> By {
        match aggregate {
            Aggregate::Sum(_) => By::CrateSum,
            Aggregate::Count => By::AddedCount,
            _ if aggregate.form() == "both(sum,sum)" && !is_final => By::CratePairOfSums,
            _ => By::AddedPair,
        }
    }
}

pub struct Answer {
    pub text: String,
    pub by: By,
}

struct Seat<A> {
    aggregate: Aggregate,
    accumulator: A,
}

pub struct Shell<S: Side> {
    pub side: S,
    board: Vec<Seat<S::Accumulator>>,
    lone: HashMap<String, Seat<S::Accumulator>>,
    records: HashMap<String, Record>,
}

/// The answer text of an outcome, where an accepted call has the given word behind `ok`.
fn text<T>(outcome: Outcome<T>, word: impl FnOnce(T) -> String) -> String {
    match outcome {
        Ok(value) => {
            let word = word(value);
            if word.is_empty() { "ok".into() } else { format!("ok {word}") }
        }
        Err(Fault::Refused(number)) => format!("refuse {number}"),
        Err(Fault::NoNumber(reason)) => format!("no-number {reason}"),
    }
}
fn no_word(_: ()) -> String {
    String::new()
}

impl<S: Side> Shell<S> {
    pub fn new(side: S) -> Self {
        Shell { side, board: Vec::new(), lone: HashMap::new(), records: HashMap::new() }
    }

    /// Answers one line that is neither empty nor a comment. An error says why it is no line of the language.
    pub fn answer(&mut self, line: &str) -> Result<Answer, String> {
        let (call, refusal) = read_call(line)?;
        self.check_names(&call)?;
        if let Some(number) = refusal {
            if number == 7 {
                self.board.clear();
            }
            return Ok(Answer { text: format!("refuse {number}"), by: By::ShellRefusal });
        }
        match call {
            Call::Board(aggregate, sites, dtype) => {
                self.board = (0..sites)
                    .map(|_| Seat { aggregate: aggregate.clone(), accumulator: self.side.make(&aggregate, dtype) })
                    .collect();
                Ok(Answer { text: "ok".into(), by: By::ShellMaking })
            }
            Call::Lone(name, aggregate, dtype) => {
                let accumulator = self.side.make(&aggregate, dtype);
                self.lone.insert(name, Seat { aggregate, accumulator });
                Ok(Answer { text: "ok".into(), by: By::ShellMaking })
            }
            Call::Rec(name, record) => {
                self.records.insert(name, record);
                Ok(Answer { text: "ok".into(), by: By::ShellMaking })
            }
            Call::Acc(place, column, name) => {
                let mut record = name.as_ref().map_or(FRESH_RECORD, |n| self.records[n].clone());
                let mut answer = self.at(&place, false, |a| text(a.accumulate(&column, &mut record), no_word));
                answer.text += &format!(" | {record}");
                if let Some(name) = name {
                    self.records.insert(name, record);
                }
                Ok(answer)
            }
            Call::Merge(into, from) => Ok(self.merge(&into, &from)),
            Call::Comb(place, scalar) => Ok(self.at(&place, false, |a| text(a.combine(&scalar), no_word))),
            Call::Flush(place) => Ok(self.at(&place, false, |a| text(a.flush(), |s| s.to_string()))),
            Call::Finish(place) => Ok(self.at(&place, true, |a| text(a.finish(), |s| s.to_string()))),
            Call::Reset(place) => Ok(self.at(&place, false, |a| text(a.reset(), no_word))),
            Call::Partial(place) => Ok(self.at(&place, false, |a| text(a.partial(), |s| s.to_string()))),
            Call::Final(place) => Ok(self.at(&place, true, |a| text(a.final_answer(), |s| s.to_string()))),
            Call::Sat(place) => Ok(self.at(&place, false, |a| text(a.saturated(), |s| s.to_string()))),
        }
    }

    /// Names of lone accumulators and records must be known, and a merge must name two of one kind.
    fn check_names(&self, call: &Call) -> Result<(), String> {
        if let Call::Acc(_, _, Some(name)) = call
            && !self.records.contains_key(name)
        {
            return Err(format!("no record `{name}`"));
        }
        let places: Vec<&Place> = match call {
            Call::Board(..) | Call::Lone(..) | Call::Rec(..) => Vec::new(),
            Call::Merge(into, from) => vec![into, from],
            Call::Acc(place, ..) | Call::Comb(place, _) => vec![place],
            Call::Flush(place) | Call::Finish(place) | Call::Reset(place) => vec![place],
            Call::Partial(place) | Call::Final(place) | Call::Sat(place) => vec![place],
        };
        for place in &places {
            if let Place::Lone(name) = place
                && !self.lone.contains_key(name)
            {
                return Err(format!("no lone accumulator `{name}`"));
            }
        }
        match places.as_slice() {
            [Place::Lone(into), Place::Lone(from)] if into == from => {
                Err("a lone accumulator merged with itself".into())
            }
            [Place::Lone(into), Place::Lone(from)] => {
                if self.lone[into].aggregate.form() != self.lone[from].aggregate.form() {
                    return Err("two lone accumulators of different aggregates".into());
                }
                Ok(())
            }
            [Place::Lone(_), Place::Site(_)] | [Place::Site(_), Place::Lone(_)] => {
                Err("a site and a lone accumulator are not merged".into())
            }
            _ => Ok(()),
        }
    }

    fn at(&mut self, place: &Place, is_final: bool, call: impl FnOnce(&mut S::Accumulator) -> String) -> Answer {
        let seat = match place {
            Place::Site(number) => usize::try_from(*number).ok().and_then(|i| self.board.get_mut(i)),
            Place::Lone(name) => self.lone.get_mut(name),
        };
        match seat {
            Some(seat) => Answer { by: By::of(&seat.aggregate, is_final), text: call(&mut seat.accumulator) },
            None => Answer { text: "refuse 8".into(), by: By::ShellRefusal },
        }
    }

    fn merge(&mut self, into: &Place, from: &Place) -> Answer {
        let (into, from) = match (into, from) {
            (Place::Site(into), Place::Site(from)) => {
                let sites = self.board.len() as u64;
                if *into >= sites || *from >= sites {
                    return Answer { text: "refuse 8".into(), by: By::ShellRefusal };
                }
                match self.board.get_disjoint_mut([*into as usize, *from as usize]) {
                    Ok([into, from]) => (into, from),
                    Err(_) => return Answer { text: "refuse 9".into(), by: By::ShellRefusal },
                }
            }
            (Place::Lone(into), Place::Lone(from)) => {
                match self.lone.get_disjoint_mut([into.as_str(), from.as_str()]) {
                    [Some(into), Some(from)] => (into, from),
                    _ => unreachable!("names are checked"),
                }
            }
            _ => unreachable!("names are checked"),
        };
        let by = By::of(&into.aggregate, false);
        Answer { text: text(into.accumulator.merge(&mut from.accumulator), no_word), by }
    }
}
