//! The words of the script language: types, values, scalars, columns and calls, read from text and written as text.
//! Reading a line has two outcomes beside its call: a reason why it is no line of the language, or the refusal that
//! making its parts gives (1, 2, 3 or 7).
use std::fmt;
use std::sync::atomic::{AtomicBool, Ordering};

/// Write a NaN with its bits, as `nan#7ff8000000000000`.
pub static SHOW_NAN_BITS: AtomicBool = AtomicBool::new(false);
/// Let records with a null cached sum be made, to see what the crate does with one.
pub static NULL_SUMS: AtomicBool = AtomicBool::new(false);

const TYPE_NAMES: [&str; 11] = ["u8", "u16", "u32", "u64", "i8", "i16", "i32", "i64", "f16", "f32", "f64"];
const U64_CODE: u8 = 3;
const I64_CODE: u8 = 7;
const F32_CODE: u8 = 9;
const F64_CODE: u8 = 10;

/// A number type by its code, with the nullable flag.
#[derive(Clone, Copy, Debug, PartialEq)]
pub struct DType {
    pub code: u8,
    pub nullable: bool,
}

/// The dtype of a count.
pub const COUNT_DTYPE: DType = DType { code: U64_CODE, nullable: true };

impl DType {
    pub fn is_float(self) -> bool {
        self.code >= F32_CODE
    }
    pub fn is_signed(self) -> bool {
        (4..8).contains(&self.code)
    }
    pub fn is_64_bits_wide(self) -> bool {
        matches!(self.code, U64_CODE | I64_CODE | F64_CODE)
    }
    pub fn of_sum(self) -> DType {
        let code = if self.is_float() {
            F64_CODE
        } else if self.is_signed() {
            I64_CODE
        } else {
            U64_CODE
        };
        DType { code, nullable: true }
    }
    /// The smallest and the largest number of an integer type.
    pub fn range(self) -> (i128, i128) {
        if self.is_signed() {
            let half = 1i128 << ((8 << (self.code - 4)) - 1);
            (-half, half - 1)
        } else {
            (0, (1i128 << (8 << self.code)) - 1)
        }
    }
}
impl fmt::Display for DType {
    fn fmt(&self, f: &mut fmt::Formatter<'_>) -> fmt::Result {
        write!(f, "{}{}", TYPE_NAMES[self.code as usize], if self.nullable { "?" } else { "" })
    }
}

/// A number; floats by their bits.
#[derive(Clone, Copy, Debug, PartialEq)]
pub enum Value {
    Int(i128),
    F32(u32),
    F64(u64),
}
impl Value {
    pub fn is_nan(self) -> bool {
        match self {
            Value::Int(_) => false,
            Value::F32(bits) => f32::from_bits(bits).is_nan(),
            Value::F64(bits) => f64::from_bits(bits).is_nan(),
        }
    }
}
impl fmt::Display for Value {
    fn fmt(&self, f: &mut fmt::Formatter<'_>) -> fmt::Result {
        let bits = SHOW_NAN_BITS.load(Ordering::Relaxed);
        match self {
            Value::F32(b) if bits && self.is_nan() => write!(f, "nan#{b:08x}"),
            Value::F64(b) if bits && self.is_nan() => write!(f, "nan#{b:016x}"),
            _ if self.is_nan() => write!(f, "nan"),
            Value::Int(i) => write!(f, "{i}"),
            Value::F32(b) => write!(f, "{:?}", f32::from_bits(*b)),
            Value::F64(b) => write!(f, "{:?}", f64::from_bits(*b)),
        }
    }
}

#[derive(Clone, Debug, PartialEq)]
pub enum Scalar {
    One(DType, Option<Value>),
    Pair(Box<Scalar>, Box<Scalar>),
}
impl fmt::Display for Scalar {
    fn fmt(&self, f: &mut fmt::Formatter<'_>) -> fmt::Result {
        match self {
            Scalar::One(dtype, None) => write!(f, "{dtype}:null"),
            Scalar::One(dtype, Some(value)) => write!(f, "{dtype}:{value}"),
            Scalar::Pair(left, right) => write!(f, "({left},{right})"),
        }
    }
}

#[derive(Clone, Debug, PartialEq)]
pub enum Precision<T> {
    Exact(T),
    Inexact(T),
    Absent,
}
impl<T: fmt::Display> fmt::Display for Precision<T> {
    fn fmt(&self, f: &mut fmt::Formatter<'_>) -> fmt::Result {
        match self {
            Precision::Exact(v) => write!(f, "exact={v}"),
            Precision::Inexact(v) => write!(f, "inexact={v}"),
            Precision::Absent => write!(f, "absent"),
        }
    }
}

/// A statistics record.
#[derive(Clone, Debug, PartialEq)]
pub struct Record {
    pub sum: Precision<Scalar>,
    pub nan_count: Precision<u64>,
}
pub const FRESH_RECORD: Record = Record { sum: Precision::Absent, nan_count: Precision::Absent };
impl fmt::Display for Record {
    fn fmt(&self, f: &mut fmt::Formatter<'_>) -> fmt::Result {
        write!(f, "sum {} nan {}", self.sum, self.nan_count)
    }
}

/// An aggregate with its options; `true` is skip_nans.
#[derive(Clone, Debug, PartialEq)]
pub enum Aggregate {
    Sum(bool),
    Count,
    Reported(bool),
    Both(Box<Aggregate>, Box<Aggregate>),
}
/// The aggregates that the language serves, without their options.
pub const SERVED: [&str; 11] = [
    "sum",
    "count",
    "reported",
    "both(sum,sum)",
    "both(sum,count)",
    "both(count,sum)",
    "both(count,count)",
    "both(both(sum,count),sum)",
    "both(sum,both(count,sum))",
    "both(reported,both(sum,sum))",
    "both(both(sum,sum),both(count,sum))",
];
impl Aggregate {
    /// The aggregate without its options. Two accumulators merge only where this is the same.
    pub fn form(&self) -> String {
        match self {
            Aggregate::Sum(_) => "sum".into(),
            Aggregate::Count => "count".into(),
            Aggregate::Reported(_) => "reported".into(),
            Aggregate::Both(left, right) => format!("both({},{})", left.form(), right.form()),
        }
    }
    /// The two halves of a pair.
    pub fn halves(&self) -> Option<(Aggregate, Aggregate)> {
        match self {
            Aggregate::Reported(skip) => Some((Aggregate::Sum(*skip), Aggregate::Count)),
            Aggregate::Both(left, right) => Some(((**left).clone(), (**right).clone())),
            _ => None,
        }
    }
}

#[derive(Clone, Debug)]
pub enum Column {
    /// The values (those under nulls too) and, where the dtype is nullable, the bitmap.
    Primitive(DType, Vec<Value>, Option<Vec<u8>>),
    Constant(DType, Option<Value>, u64),
}
impl Column {
    pub fn dtype(&self) -> DType {
        match self {
            Column::Primitive(dtype, ..) | Column::Constant(dtype, ..) => *dtype,
        }
    }
}

/// An accumulator as a line names it: a site's number, or the name of a lone one.
#[derive(Clone, Debug, PartialEq)]
pub enum Place {
    Site(u64),
    Lone(String),
}

#[derive(Clone, Debug)]
pub enum Call {
    Board(Aggregate, u64, DType),
    Lone(String, Aggregate, DType),
    Rec(String, Record),
    Acc(Place, Column, Option<String>),
    Comb(Place, Scalar),
    Merge(Place, Place),
    Flush(Place),
    Finish(Place),
    Reset(Place),
    Partial(Place),
    Final(Place),
    Sat(Place),
}

pub type Reading<T> = Result<T, String>;

/// Reads one line. The refusal beside the call is the first that making its parts gives, in the order 1, 2, 3, 7; the
/// call then holds stand-ins for what was not made.
pub fn read_call(line: &str) -> Reading<(Call, Option<u8>)> {
    let words: Vec<&str> = line.split(' ').filter(|w| !w.is_empty()).collect();
    let mut making = Making(None);
    let m = &mut making;
    let call = match words.as_slice() {
        ["board", aggregate, sites, dtype] => {
            let aggregate = read_aggregate(aggregate)?;
            let sites = read_u64(sites)?;
            if !(1..=1024).contains(&sites) {
                m.refuse(7);
            }
            Call::Board(aggregate, sites, m.dtype(dtype)?)
        }
        ["lone", name, aggregate, dtype] => Call::Lone(read_name(name)?, read_aggregate(aggregate)?, m.dtype(dtype)?),
        ["rec", name, sum, nan_count] => Call::Rec(read_name(name)?, m.record(sum, nan_count)?),
        ["acc", place, "prim", dtype, list, rest @ ..] => {
            let (bits, record) = match rest {
                [] => (None, None),
                [a] if a.starts_with('@') => (None, Some(*a)),
                [a] => (Some(*a), None),
                [a, b] => (Some(*a), Some(*b)),
                _ => return Err("too many words".into()),
            };
            let column = m.primitive(dtype, list, bits)?;
            Call::Acc(read_place(place)?, column, record.map(read_record_name).transpose()?)
        }
        ["acc", place, "const", scalar, len, rest @ ..] => {
            let record = match rest {
                [] => None,
                [a] => Some(read_record_name(a)?),
                _ => return Err("too many words".into()),
            };
            let Scalar::One(dtype, value) = m.scalar(scalar)? else {
                return Err("a column of pairs".into());
            };
            Call::Acc(read_place(place)?, Column::Constant(dtype, value, read_u64(len)?), record)
        }
        ["comb", place, scalar] => Call::Comb(read_place(place)?, m.scalar(scalar)?),
        ["merge", into, from] => Call::Merge(read_place(into)?, read_place(from)?),
        ["flush", place] => Call::Flush(read_place(place)?),
        ["finish", place] => Call::Finish(read_place(place)?),
        ["reset", place] => Call::Reset(read_place(place)?),
        ["partial", place] => Call::Partial(read_place(place)?),
        ["final", place] => Call::Final(read_place(place)?),
        ["sat", place] => Call::Sat(read_place(place)?),
        _ => return Err("no such call, or a wrong number of words".into()),
    };
    Ok((call, making.0))
}

fn is_digits(text: &str) -> bool {
    !text.is_empty() && text.bytes().all(|b| b.is_ascii_digit())
}
fn read_name(word: &str) -> Reading<String> {
    if is_digits(word) { Err(format!("`{word}` is a number, not a name")) } else { Ok(word.into()) }
}
fn read_record_name(word: &str) -> Reading<String> {
    match word.strip_prefix('@') {
        Some(name) if !name.is_empty() => Ok(name.into()),
        _ => Err(format!("`{word}` does not name a record")),
    }
}
/// A word of digits is a site's number (any number beyond 64 bits names no site either); all else is a name.
fn read_place(word: &str) -> Reading<Place> {
    Ok(if is_digits(word) { Place::Site(word.parse().unwrap_or(u64::MAX)) } else { Place::Lone(word.into()) })
}
/// Decimal numbers, S and U, with + and - between and before them.
fn read_whole_number(text: &str) -> Reading<i128> {
    let wrong = || format!("`{text}` is no whole number");
    let mut total = 0i128;
    let mut rest = text;
    loop {
        let (sign, term) = match rest.as_bytes().first() {
            Some(b'-') => (-1, &rest[1..]),
            Some(b'+') => (1, &rest[1..]),
            _ => (1, rest),
        };
        let end = term.find(['+', '-']).unwrap_or(term.len());
        let number = match &term[..end] {
            "S" => i64::MAX as i128,
            "U" => u64::MAX as i128,
            digits if is_digits(digits) => digits.parse::<i128>().map_err(|_| wrong())?,
            _ => return Err(wrong()),
        };
        total = total.checked_add(sign * number).ok_or_else(wrong)?;
        rest = &term[end..];
        if rest.is_empty() {
            return Ok(total);
        }
    }
}
fn read_u64(text: &str) -> Reading<u64> {
    u64::try_from(read_whole_number(text)?).map_err(|_| format!("`{text}` is no 64-bit unsigned number"))
}
/// The place of the comma between the two halves of a pair.
fn middle_comma(inner: &str) -> Option<usize> {
    let mut depth = 0i32;
    for (i, c) in inner.char_indices() {
        match c {
            '(' => depth += 1,
            ')' => depth -= 1,
            ',' if depth == 0 => return Some(i),
            _ => {}
        }
    }
    None
}
pub fn read_aggregate(text: &str) -> Reading<Aggregate> {
    fn part(text: &str) -> Option<Aggregate> {
        Some(match text {
            "sum:skip" => Aggregate::Sum(true),
            "sum:keep" => Aggregate::Sum(false),
            "count" => Aggregate::Count,
            "reported:skip" => Aggregate::Reported(true),
            "reported:keep" => Aggregate::Reported(false),
            _ => {
                let inner = text.strip_prefix("both(")?.strip_suffix(')')?;
                let comma = middle_comma(inner)?;
                Aggregate::Both(Box::new(part(&inner[..comma])?), Box::new(part(&inner[comma + 1..])?))
            }
        })
    }
    match part(text) {
        Some(aggregate) if SERVED.contains(&aggregate.form().as_str()) => Ok(aggregate),
        _ => Err(format!("`{text}` is no aggregate of the language")),
    }
}
fn read_bytes(hex: &str) -> Reading<Vec<u8>> {
    let digits: Option<Vec<u8>> = hex.chars().map(|c| c.to_digit(16).map(|d| d as u8)).collect();
    match digits {
        Some(digits) if digits.len() % 2 == 0 => Ok(digits.chunks(2).map(|pair| pair[0] * 16 + pair[1]).collect()),
        _ => Err(format!("`{hex}` is not bytes in hexadecimal")),
    }
}
fn read_bits(hex: &str, most_digits: usize) -> Option<u64> {
    (hex.len() <= most_digits && hex.bytes().all(|b| b.is_ascii_hexdigit()))
        .then(|| u64::from_str_radix(hex, 16).ok())?
}
/// A decimal number, `nan`, `inf` or `-inf`; the other words that Rust takes for floats are not of the language.
fn read_float<F: std::str::FromStr>(text: &str) -> Option<F> {
    let decimal = text.bytes().all(|b| b.is_ascii_digit() || b"+-.eE".contains(&b));
    if decimal || matches!(text, "nan" | "inf" | "-inf") { text.parse().ok() } else { None }
}

/// What making the parts of a line comes to: the first refusal, by the order 1, 2, 3, 7.
struct Making(Option<u8>);
impl Making {
    fn refuse(&mut self, number: u8) {
        self.0 = Some(self.0.map_or(number, |before| before.min(number)));
    }
    /// A stand-in type where the code is refused.
    fn dtype(&mut self, text: &str) -> Reading<DType> {
        Ok(self.known_dtype(text)?.unwrap_or(COUNT_DTYPE))
    }
    /// None where the code is refused; the values of such a type cannot be read.
    fn known_dtype(&mut self, text: &str) -> Reading<Option<DType>> {
        let (name, nullable) = match text.strip_suffix('?') {
            Some(name) => (name, true),
            None => (text, false),
        };
        let code = match name.strip_prefix('t') {
            Some(code) if is_digits(code) => code.parse::<u8>().unwrap_or(u8::MAX),
            _ => match TYPE_NAMES.iter().position(|n| *n == name && name != "f16") {
                Some(code) => code as u8,
                None => return Err(format!("`{text}` is no dtype")),
            },
        };
        if code == 8 || code > 10 {
            self.refuse(1);
            return Ok(None);
        }
        Ok(Some(DType { code, nullable }))
    }
    fn value(&mut self, dtype: DType, text: &str) -> Reading<Value> {
        let wrong = || format!("`{text}` is no number of the type {dtype}");
        Ok(match dtype.code {
            F32_CODE => Value::F32(match text.strip_prefix("0x") {
                Some(hex) => read_bits(hex, 8).ok_or_else(wrong)? as u32,
                None => read_float::<f32>(text).ok_or_else(wrong)?.to_bits(),
            }),
            F64_CODE => Value::F64(match text.strip_prefix("0x") {
                Some(hex) => read_bits(hex, 16).ok_or_else(wrong)?,
                None => read_float::<f64>(text).ok_or_else(wrong)?.to_bits(),
            }),
            _ => {
                let number = read_whole_number(text)?;
                let (least, most) = dtype.range();
                if number < least || number > most {
                    self.refuse(2);
                }
                Value::Int(number)
            }
        })
    }
    /// `u64?:5`, `f64?:null`, `(i64?:1,u64?:2)`
    fn scalar(&mut self, text: &str) -> Reading<Scalar> {
        let wrong = || format!("`{text}` is no scalar");
        if let Some(inner) = text.strip_prefix('(') {
            let inner = inner.strip_suffix(')').ok_or_else(wrong)?;
            let comma = middle_comma(inner).ok_or_else(wrong)?;
            let left = self.scalar(&inner[..comma])?;
            let right = self.scalar(&inner[comma + 1..])?;
            return Ok(Scalar::Pair(Box::new(left), Box::new(right)));
        }
        let (dtype, value) = text.split_once(':').ok_or_else(wrong)?;
        let Some(dtype) = self.known_dtype(dtype)? else {
            return Ok(Scalar::One(COUNT_DTYPE, None));
        };
        if value == "null" {
            if !dtype.nullable {
                self.refuse(2);
            }
            return Ok(Scalar::One(dtype, None));
        }
        Ok(Scalar::One(dtype, Some(self.value(dtype, value)?)))
    }
    fn record(&mut self, sum: &str, nan_count: &str) -> Reading<Record> {
        let sum = read_precision(sum, |text| self.scalar(text))?;
        if let Precision::Exact(scalar) | Precision::Inexact(scalar) = &sum {
            match scalar {
                Scalar::One(_, Some(_)) => {}
                Scalar::One(_, None) => {
                    if !NULL_SUMS.load(Ordering::Relaxed) {
                        self.refuse(2);
                    }
                }
                Scalar::Pair(..) => return Err("a cached sum is no pair".into()),
            }
        }
        Ok(Record { sum, nan_count: read_precision(nan_count, read_u64)? })
    }
    fn primitive(&mut self, dtype: &str, list: &str, bits: Option<&str>) -> Reading<Column> {
        let bytes = match bits {
            Some(word) => match word.strip_prefix("bits=") {
                Some(hex) => Some(read_bytes(hex)?),
                None => return Err(format!("`{word}` is neither bits= nor @")),
            },
            None => None,
        };
        let Some(items) = list.strip_prefix('[').and_then(|l| l.strip_suffix(']')) else {
            return Err(format!("`{list}` is no list in brackets"));
        };
        let Some(dtype) = self.known_dtype(dtype)? else {
            return Ok(Column::Primitive(COUNT_DTYPE, Vec::new(), None));
        };
        let (mut values, mut valid) = (Vec::new(), Vec::new());
        for item in items.split(',').filter(|_| !items.is_empty()) {
            let (item, times) = match item.split_once('*') {
                Some((item, times)) => (item, usize::try_from(read_u64(times)?).map_err(|_| "too many entries")?),
                None => (item, 1),
            };
            let (value, is_valid) = match item.strip_prefix('~') {
                _ if item == "null" => (self.value(dtype, "0")?, false),
                Some(under) => (self.value(dtype, under)?, false),
                None => (self.value(dtype, item)?, true),
            };
            if !is_valid && !dtype.nullable {
                self.refuse(2);
            }
            if times > (1 << 24) - values.len() {
                return Err("a list of more than 2^24 entries".into());
            }
            values.resize(values.len() + times, value);
            valid.resize(valid.len() + times, is_valid);
        }
        let needed = if dtype.nullable { values.len().div_ceil(8) } else { 0 };
        let bytes = bytes.unwrap_or_else(|| {
            let mut bytes = vec![0u8; needed];
            for (i, _) in valid.iter().enumerate().filter(|(_, v)| dtype.nullable && **v) {
                bytes[i / 8] |= 1 << (i % 8);
            }
            bytes
        });
        if bytes.len() != needed {
            self.refuse(3);
        }
        Ok(Column::Primitive(dtype, values, dtype.nullable.then_some(bytes)))
    }
}
fn read_precision<T>(text: &str, mut read: impl FnMut(&str) -> Reading<T>) -> Reading<Precision<T>> {
    match text.split_once('=') {
        Some(("exact", value)) => Ok(Precision::Exact(read(value)?)),
        Some(("inexact", value)) => Ok(Precision::Inexact(read(value)?)),
        None if text == "absent" => Ok(Precision::Absent),
        _ => Err(format!("`{text}` is no precision")),
    }
}
