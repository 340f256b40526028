//! Calls made up by a seed. They come in blocks; a block makes everything that it names, so it can stand alone.
use crate::words::{Aggregate, SERVED};

/// The generator splitmix64.
pub struct Random(u64);
impl Random {
    pub fn new(seed: u64) -> Self {
        Random(seed)
    }
    pub fn next(&mut self) -> u64 {
        self.0 = self.0.wrapping_add(0x9e37_79b9_7f4a_7c15);
        let mut z = self.0;
        z = (z ^ (z >> 30)).wrapping_mul(0xbf58_476d_1ce4_e5b9);
        z = (z ^ (z >> 27)).wrapping_mul(0x94d0_49bb_1331_11eb);
        z ^ (z >> 31)
    }
    pub fn below(&mut self, n: u64) -> u64 {
        self.next() % n
    }
    fn one_in(&mut self, n: u64) -> bool {
        self.below(n) == 0
    }
    pub fn of<'a>(&mut self, words: &[&'a str]) -> &'a str {
        words[self.below(words.len() as u64) as usize]
    }
}

const TYPES: [&str; 10] = ["u8", "u16", "u32", "u64", "i8", "i16", "i32", "i64", "f32", "f64"];
const BAD_CODES: [&str; 5] = ["t8", "t11", "t8?", "t255", "t1000"];

fn is_float(name: &str) -> bool {
    name.starts_with('f')
}
fn sum_type(name: &str) -> &'static str {
    match &name[..1] {
        "u" => "u64",
        "i" => "i64",
        _ => "f64",
    }
}
fn bits_wide(name: &str) -> u32 {
    name[1..].parse().expect("a width")
}

fn float(r: &mut Random, name: &str) -> String {
    match r.below(8) {
        0 if name == "f32" => format!("0x{:08x}", r.next() as u32),
        0 => format!("0x{:016x}", r.next()),
        1 => format!("{}.{}", r.below(2000) as i64 - 1000, r.below(1000)),
        2 => format!("{}e{}", 1 + r.below(99), r.below(40) as i64 - 20),
        3 if name == "f64" => r.of(&["1e300", "-1e300", "1.7976931348623157e308", "5e-324"]).into(),
        3 => r.of(&["1e38", "-1e38", "1e-45"]).into(),
        4 => r.of(&["nan", "inf", "-inf", "nan"]).into(),
        _ => r.of(&["0.0", "-0.0", "1", "-1", "0.1", "0.2", "3.5", "1e16", "-1e16", "2"]).into(),
    }
}
fn integer(r: &mut Random, name: &str) -> String {
    let signed = name.starts_with('i');
    let most = (1u128 << (bits_wide(name) - signed as u32)) - 1;
    let small = r.below(7);
    match (r.below(8), name) {
        (0, "u64") => r.of(&["U", "U-1", "S", "S+1", "U-S"]).into(),
        (0, "i64") => r.of(&["S", "S-2", "-S-1", "-S", "S-1"]).into(),
        (0 | 1, _) => most.to_string(),
        (2, _) => (most - small as u128).to_string(),
        (3, _) if signed => format!("-{}", most + 1),
        (4, _) if signed => format!("-{small}"),
        (5, _) => ((r.next() as u128) & most).to_string(),
        _ => small.to_string(),
    }
}
fn value(r: &mut Random, name: &str) -> String {
    if is_float(name) { float(r, name) } else { integer(r, name) }
}
fn value_or_null(r: &mut Random, name: &str) -> String {
    if r.one_in(7) { "null".into() } else { value(r, name) }
}

/// An aggregate of the given form, its options drawn.
fn aggregate(r: &mut Random, form: &str) -> String {
    let mut text = String::new();
    let mut rest = form;
    while !rest.is_empty() {
        let word = ["sum", "reported"].into_iter().find(|w| rest.starts_with(w));
        match word {
            Some(word) => {
                text += word;
                text += r.of(&[":skip", ":keep"]);
                rest = &rest[word.len()..];
            }
            None => {
                text.push_str(&rest[..1]);
                rest = &rest[1..];
            }
        }
    }
    text
}
/// A scalar of the partial dtype of an aggregate over a type. Where a sum is given, it stands for every sum.
fn partial(r: &mut Random, aggregate: &Aggregate, name: &str, sum: Option<&str>) -> String {
    match aggregate {
        Aggregate::Sum(_) => {
            let name = sum_type(name);
            let value = sum.map_or_else(|| value_or_null(r, name), String::from);
            format!("{name}?:{value}")
        }
        Aggregate::Count => {
            format!("u64?:{}", if r.one_in(2) { r.below(9).to_string() } else { value_or_null(r, "u64") })
        }
        pair => {
            let (left, right) = pair.halves().expect("a pair");
            format!("({},{})", partial(r, &left, name, sum), partial(r, &right, name, sum))
        }
    }
}
fn record(r: &mut Random, name: &str) -> String {
    let sum_name = if r.one_in(5) { TYPES[r.below(10) as usize] } else { sum_type(name) };
    let flag = if r.one_in(3) { "" } else { "?" };
    let sum = match r.below(5) {
        0 => format!("exact={sum_name}{flag}:{}", value(r, sum_name)),
        1 => format!("inexact={sum_name}{flag}:{}", value(r, sum_name)),
        _ => "absent".into(),
    };
    let nan_count = match r.below(5) {
        0 | 1 => "exact=0".to_string(),
        2 => format!("exact={}", r.below(3)),
        3 => format!("inexact={}", r.below(3)),
        _ => "absent".into(),
    };
    format!("{sum} {nan_count}")
}
/// A list, and its bitmap at times, with spare bits drawn like the others.
fn primitive(r: &mut Random, name: &str, nullable: bool) -> String {
    let mut entries = 0;
    let items: Vec<String> = (0..r.below(12))
        .map(|_| {
            let item = match r.below(6) {
                0 if nullable => "null".into(),
                1 if nullable => format!("~{}", value(r, name)),
                _ => value(r, name),
            };
            let times = match r.below(300) {
                0 if name != "u64" && name != "i64" => 65_530 + r.below(12),
                1..30 => r.below(20),
                _ => 1,
            };
            entries += times;
            if times == 1 { item } else { format!("{item}*{times}") }
        })
        .collect();
    let list = format!("[{}]", items.join(","));
    let wrong = r.one_in(40);
    if (nullable && (1..100).contains(&entries) && r.one_in(3)) || wrong {
        let bytes = if nullable { entries.div_ceil(8) } else { 0 } + wrong as u64;
        let hex: String = (0..bytes.min(40)).map(|_| format!("{:02x}", r.next() as u8)).collect();
        return format!("{list} bits={hex}");
    }
    list
}
fn length(r: &mut Random) -> String {
    match r.below(8) {
        0 => "0".into(),
        1 => r.of(&["U", "S", "S+1", "U-1", "S+2"]).into(),
        2 | 3 => {
            let shift = r.below(60);
            (r.next() >> shift).to_string()
        }
        _ => r.below(5).to_string(),
    }
}
fn out_of_range(name: &str) -> Option<&'static str> {
    Some(match name {
        "u8" => "256",
        "u16" => "-1",
        "u32" => "4294967296",
        "u64" => "U+1",
        "i8" => "-129",
        "i16" => "32768",
        "i32" => "2147483648",
        "i64" => "S+1",
        _ => return None,
    })
}

struct Block {
    lines: Vec<String>,
    /// The aggregate, as text and as read.
    aggregate: (String, Aggregate),
    name: &'static str,
    nullable: bool,
    /// Numbers of sites, or names of lone accumulators.
    places: Vec<String>,
    /// The last column with its record, to be handed in again.
    column: Option<String>,
}
impl Block {
    fn flag(&self) -> &'static str {
        if self.nullable { "?" } else { "" }
    }
    fn dtype(&self) -> String {
        format!("{}{}", self.name, self.flag())
    }
    fn place(&self, r: &mut Random) -> String {
        self.places[r.below(self.places.len() as u64) as usize].clone()
    }
    fn on_board(&self) -> bool {
        self.places[0] == "0"
    }
    fn make_places(&mut self, r: &mut Random) {
        if r.one_in(4) {
            let names = &["a", "b", "c"][..2 + r.below(2) as usize];
            for name in names {
                let form = self.aggregate.1.form();
                let aggregate = if r.one_in(3) { aggregate(r, &form) } else { self.aggregate.0.clone() };
                let dtype = if r.one_in(6) { format!("{}?", self.name) } else { self.dtype() };
                self.lines.push(format!("lone {name} {aggregate} {dtype}"));
            }
            self.places = names.iter().map(|n| n.to_string()).collect();
            return;
        }
        let (aggregate, dtype) = (&self.aggregate.0, self.dtype());
        match r.below(40) {
            0 => {
                self.lines.push(format!("board {aggregate} {} {dtype}", r.of(&["0", "1025", "2000"])));
                self.lines.push("final 0".into());
                self.lines.push(format!("acc 0 prim {dtype} []"));
            }
            1 => self.lines.push(format!("board {aggregate} 2 {}", r.of(&BAD_CODES))),
            _ => {}
        }
        let sites = 1 + r.below(4);
        self.lines.push(format!("board {aggregate} {sites} {dtype}"));
        self.places = (0..sites).map(|i| i.to_string()).collect();
    }
    /// The dtype of a column: mostly the accumulators' own.
    fn column_type(&self, r: &mut Random) -> (&'static str, bool) {
        if r.one_in(14) { (TYPES[r.below(10) as usize], r.one_in(2)) } else { (self.name, self.nullable) }
    }
    fn with_record(&mut self, r: &mut Random) -> &'static str {
        if r.one_in(3) {
            let name = r.of(&["r", "q"]);
            self.lines.push(format!("rec {name} {}", record(r, self.name)));
        }
        r.of(&["", " @r", " @q", " @r"])
    }
    fn accumulate(&mut self, place: &str, column: String) -> String {
        let line = format!("acc {place} {column}");
        self.column = Some(column);
        line
    }
    /// A column of narrow signed integers that meets the limit within a chunk, or at the edge of one.
    fn chunk_edge(&mut self, r: &mut Random, place: &str) -> String {
        let (limit, first, last) = if r.one_in(2) { ("S", 1, -1) } else { ("-S-1", -1, 1) };
        let before = if self.nullable { r.of(&["", "null,", "0,null,"]) } else { r.of(&["", "0,"]) };
        let behind = if self.nullable && r.one_in(4) { "null," } else { "" };
        let noughts = 65_531 + r.below(7);
        let scalar = partial(r, &self.aggregate.1, self.name, Some(limit));
        self.lines.push(format!("reset {place}"));
        self.lines.push(format!("comb {place} {scalar}"));
        format!("acc {place} prim {} [{before}{first},0*{noughts},{behind}{last}]", self.dtype())
    }
    /// A minus zero handed in behind a column that a new accumulator may have refused with 6.
    fn minus_zero(&mut self, r: &mut Random, place: &str) -> String {
        let scalar = partial(r, &self.aggregate.1, self.name, Some("-0.0"));
        self.lines.push(format!("reset {place}"));
        self.lines.push(format!(
            "rec r exact={} {}",
            r.of(&["u64?:5", "f64?:-0.0", "f32:1"]),
            r.of(&["exact=0", "absent"])
        ));
        self.lines.push(format!("acc {place} prim {} [{}] @r", self.dtype(), r.of(&["", "1", "-0.0"])));
        format!("comb {place} {scalar}")
    }
    fn step(&mut self, r: &mut Random) {
        let place = self.place(r);
        let line = match r.below(32) {
            0..=3 if r.one_in(6) && ["i8", "i16", "i32"].contains(&self.name) => self.chunk_edge(r, &place),
            0..=3 if r.one_in(12) && is_float(self.name) => self.minus_zero(r, &place),
            0 | 1 if self.column.is_some() => format!("acc {place} {}", self.column.clone().unwrap_or_default()),
            0..=9 => {
                let (name, nullable) = self.column_type(r);
                let record = self.with_record(r);
                let flag = if nullable { "?" } else { "" };
                self.accumulate(&place, format!("prim {name}{flag} {}{record}", primitive(r, name, nullable)))
            }
            10..=14 => {
                let (name, nullable) = self.column_type(r);
                let record = self.with_record(r);
                let flag = if nullable { "?" } else { "" };
                let value = match r.below(12) {
                    0 => "0".into(),
                    1 if name.starts_with('i') => "-1".into(),
                    2 if nullable => "null".into(),
                    _ => value(r, name),
                };
                self.accumulate(&place, format!("const {name}{flag}:{value} {}{record}", length(r)))
            }
            15..=18 => format!("comb {place} {}", partial(r, &self.aggregate.1, self.name, None)),
            19 => {
                let form = SERVED[r.below(11) as usize];
                let text = aggregate(r, form);
                let other = crate::words::read_aggregate(&text).expect("a served aggregate");
                let name = TYPES[r.below(10) as usize];
                let scalar = partial(r, &other, name, None);
                let scalar = if r.one_in(2) && !scalar.contains("null") { scalar.replace('?', "") } else { scalar };
                format!("comb {place} {scalar}")
            }
            20..=23 => {
                let others: Vec<&String> = self.places.iter().filter(|p| **p != place).collect();
                match others.len() as u64 {
                    0 => format!("sat {place}"),
                    _ if self.on_board() && r.one_in(20) => format!("merge {place} {place}"),
                    n => format!("merge {place} {}", others[r.below(n) as usize]),
                }
            }
            24 | 25 => format!("{} {place}", r.of(&["flush", "finish", "reset"])),
            26 => format!("sat {place}"),
            27 | 28 => format!("final {place}"),
            _ => self.refused(r, &place),
        };
        self.lines.push(line);
        self.lines.push(format!("partial {place}"));
    }
    /// A line that is refused, whatever the state.
    fn refused(&self, r: &mut Random, place: &str) -> String {
        let dtype = self.dtype();
        let beyond = if self.on_board() { self.places.len().to_string() } else { "9999".into() };
        match r.below(9) {
            0 => format!("acc {place} prim {} [1,2]", r.of(&BAD_CODES)),
            1 => format!("comb {place} {}:1", r.of(&BAD_CODES)),
            2 => match out_of_range(self.name) {
                Some(value) => format!("acc {place} prim {dtype} [1,{value}] @r"),
                None => format!("acc {place} prim {} [1,null]", self.name),
            },
            3 => format!("acc {place} const {}:null 3", self.name),
            4 => format!("rec r exact={}?:null absent", sum_type(self.name)),
            5 => format!("acc {place} prim {dtype} [1,2] bits={}", r.of(&["0102", "ffffff"])),
            6 => format!("acc {beyond} const {dtype}:1 2 @r"),
            7 => format!("final {beyond}"),
            _ => format!("merge {beyond} {beyond}"),
        }
    }
}

pub fn block(r: &mut Random) -> Vec<String> {
    let form = match r.below(10) {
        0..=3 => "sum",
        4 => "both(sum,sum)",
        _ => SERVED[r.below(11) as usize],
    };
    let text = aggregate(r, form);
    let read = crate::words::read_aggregate(&text).expect("a served aggregate");
    let mut block = Block {
        lines: Vec::new(),
        aggregate: (text, read),
        name: TYPES[r.below(10) as usize],
        nullable: r.one_in(2),
        places: Vec::new(),
        column: None,
    };
    for name in ["r", "q"] {
        let record = record(r, block.name);
        block.lines.push(format!("rec {name} {record}"));
    }
    block.make_places(r);
    for _ in 0..4 + r.below(13) {
        block.step(r);
    }
    for place in block.places.clone() {
        block.lines.push(format!("final {place}"));
        block.lines.push(format!("sat {place}"));
    }
    block.lines
}

/// Prints the given number of calls, with an empty line before each block.
pub fn print(seed: u64, calls: u64, out: &mut impl std::io::Write) -> std::io::Result<()> {
    let mut r = Random::new(seed);
    let mut left = calls;
    while left > 0 {
        writeln!(out)?;
        for line in block(&mut r).iter().take(left as usize) {
            writeln!(out, "{line}")?;
            left -= 1;
        }
    }
    Ok(())
}
