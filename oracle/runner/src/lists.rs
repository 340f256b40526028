//! The lists that are made by rule: short columns, bitmaps, damaged lines, and a made-up list.
use crate::crate_side::CrateSide;
use crate::made_up::{Random, block};
use crate::model::ModelSide;
use crate::shell::{Shell, Side};
use std::io::{Result, Write};

/// Prints the list of that name; None where there is none.
pub fn print(name: &str, out: &mut impl Write) -> Option<Result<()>> {
    let (about, lines) = match name {
        "short_columns" => ("every column of up to three entries over a few telling values", short_columns()),
        "bitmaps" => ("every bitmap of up to nine entries, and columns around a byte and around a chunk", bitmaps()),
        "damaged" => ("good lines and damaged copies of them; every damaged copy is refused", damaged()),
        "damaged_errors" => ("good lines and damaged copies of them; every damaged copy is an error", damaged_errors()),
        "made_up" => ("calls made up by a seed", made_up(MADE_UP_SEED, MADE_UP_LINES)),
        _ => return None,
    };
    let print_all = |out: &mut dyn Write| {
        writeln!(out, "// refusals: {}. {about}", refusals(&lines))?;
        lines.iter().try_for_each(|line| writeln!(out, "{line}"))
    };
    Some(print_all(out))
}

const MADE_UP_SEED: u64 = 20;
const MADE_UP_LINES: usize = 3000;

fn answer<S: Side>(shell: &mut Shell<S>, line: &str) -> Option<String> {
    if line.is_empty() || line.starts_with("//") {
        return Some(line.into());
    }
    shell.answer(line).ok().map(|a| a.text)
}
/// The refusal numbers that the definition gives in a list.
fn refusals(lines: &[String]) -> String {
    let mut shell = Shell::new(ModelSide::of_the_definition());
    let answers: Vec<String> = lines.iter().filter_map(|line| answer(&mut shell, line)).collect();
    let numbers: Vec<String> = (1..=10)
        .filter(|n| answers.iter().any(|a| a.split(" | ").next() == Some(&format!("refuse {n}"))))
        .map(|n| n.to_string())
        .collect();
    if numbers.is_empty() { "none".into() } else { numbers.join(" ") }
}

/// Every list of up to `most` of the items.
fn all_lists(items: &[String], most: usize) -> Vec<String> {
    let mut lists = vec![Vec::new()];
    let mut from = 0;
    for _ in 0..most {
        let to = lists.len();
        for i in from..to {
            for item in items {
                let mut longer: Vec<&String> = lists[i].clone();
                longer.push(item);
                lists.push(longer);
            }
        }
        from = to;
    }
    lists.iter().map(|l| l.iter().map(|s| s.as_str()).collect::<Vec<_>>().join(",")).collect()
}

fn short_columns() -> Vec<String> {
    // type, values, a partial to start from
    let kinds: [(&str, &[&str], &str); 5] = [
        ("u64", &["0", "1", "U"], "u64?:U-1"),
        ("i64", &["S", "-S-1", "1", "-1"], "i64?:S-1"),
        ("i32", &["2", "-2", "2147483647"], "i64?:S-1"),
        ("f64", &["nan", "inf", "-inf", "-0.0"], "f64?:-0.0"),
        ("f64", &["0.1", "1e16", "-1e16"], "f64?:1"),
    ];
    let mut lines = Vec::new();
    for (name, values, start) in kinds {
        for flag in ["", "?"] {
            let mut items: Vec<String> = values.iter().map(|v| v.to_string()).collect();
            if flag == "?" {
                // a null with the first of the values under it
                items.push(format!("~{}", values[0]));
            }
            for option in ["skip", "keep"] {
                lines.push(format!("// sum:{option} over {name}{flag} of {}", items.join(" ")));
                lines.push(format!("board sum:{option} 1 {name}{flag}"));
                for list in all_lists(&items, 3) {
                    lines.push(format!("acc 0 prim {name}{flag} [{list}]"));
                    lines.push("flush 0".into());
                    lines.push(format!("comb 0 {start}"));
                    lines.push(format!("acc 0 prim {name}{flag} [{list}]"));
                    lines.push("flush 0".into());
                }
            }
        }
    }
    lines
}

/// The bytes of a bitmap, with the spare bits set or not.
fn hex(bits: u64, entries: u32, set_spare: bool) -> String {
    let bytes = entries.div_ceil(8);
    let spare = if set_spare { !((1u64 << entries) - 1) } else { 0 };
    (0..bytes).map(|i| format!("{:02x}", ((bits | spare) >> (8 * i)) as u8)).collect()
}
fn bitmaps() -> Vec<String> {
    let powers = |entries: u32| (0..entries).map(|i| (1u64 << i).to_string()).collect::<Vec<_>>().join(",");
    let mut lines =
        vec!["// up to nine entries; the values are powers of two, so the sum shows which are valid".to_string()];
    lines.push("board both(sum:keep,count) 1 u16?".into());
    let column = |lines: &mut Vec<String>, name: &str, entries: u32, bits: u64| {
        let bitmap = hex(bits, entries, bits.count_ones() % 2 == 1);
        let word = if entries == 0 { String::new() } else { format!(" bits={bitmap}") };
        lines.push(format!("acc 0 prim {name} [{}]{word}", powers(entries)));
        lines.push("flush 0".into());
    };
    for entries in 0..=9 {
        for bits in 0..1u64 << entries {
            column(&mut lines, "u16?", entries, bits);
        }
    }
    lines.push("// around a byte: all, none, every second, one null, one valid".into());
    lines.push("board both(sum:skip,count) 1 i64?".into());
    for entries in [7, 8, 9, 15, 16, 17] {
        let all = (1u64 << entries) - 1;
        for bits in [all, 0, all & 0x5555_5555, all & 0xaaaa_aaaa] {
            column(&mut lines, "i64?", entries, bits);
        }
        for i in 0..entries {
            column(&mut lines, "i64?", entries, all & !(1 << i));
            column(&mut lines, "i64?", entries, 1 << i);
        }
    }
    lines.push("// a wrong number of bytes".into());
    for entries in [0u32, 1, 7, 8, 9, 15, 16, 17] {
        for bytes in 0..=3 {
            if bytes != entries.div_ceil(8) && bytes > 0 {
                let hex = "ff".repeat(bytes as usize);
                lines.push(format!("acc 0 prim i64? [{}] bits={hex}", powers(entries)));
            }
        }
        lines.push(format!("acc 0 prim i64 [{}] bits=ff", powers(entries)));
    }
    lines.push("partial 0".into());
    lines.push("// around a chunk: a column that meets the limit within a chunk, and at the edge of one".into());
    for option in ["keep", "skip"] {
        for (name, flag) in [("i32", ""), ("i32", "?"), ("i8", "?"), ("i64", "?")] {
            lines.push(format!("board sum:{option} 1 {name}{flag}"));
            for noughts in [65533, 65534, 65535, 65536] {
                let mut lists = vec![format!("1,0*{noughts},-1"), format!("-1,1,0*{noughts},-1")];
                if flag == "?" {
                    lists.push(format!("null,1,0*{noughts},-1"));
                    lists.push(format!("1,~1,0*{noughts},-1"));
                    lists.push(format!("1,0*{noughts},null,-1"));
                }
                for list in lists {
                    lines.push("comb 0 i64?:S".into());
                    lines.push(format!("acc 0 prim {name}{flag} [{list}]"));
                    lines.push("flush 0".into());
                }
            }
        }
    }
    lines.push("// 65535, 65536 and 65537 entries of the largest value; nulls at the edges".into());
    for (name, most) in [("u8", "255"), ("u16", "65535"), ("u32", "4294967295"), ("i16", "-32768"), ("f32", "0.1")] {
        lines.push(format!("board reported:keep 1 {name}?"));
        for entries in [65535, 65536, 65537] {
            for list in
                [format!("{most}*{entries}"), format!("null,{most}*{entries}"), format!("{most}*{entries},null*9")]
            {
                lines.push(format!("acc 0 prim {name}? [{list}]"));
                lines.push("flush 0".into());
            }
        }
    }
    lines.push("// chunks that reach the limit of U64: 2^32 of them would, so the rest is handed in".into());
    lines.push("board sum:keep 1 u32".into());
    for start in ["U-281470681743360", "U-281470681743361", "U-281470681743359", "U-281474976645120"] {
        for entries in [65535, 65536, 65537] {
            lines.push(format!("comb 0 u64?:{start}"));
            lines.push(format!("acc 0 prim u32 [4294967295*{entries}]"));
            lines.push("flush 0".into());
        }
    }
    lines
}

/// What the damaged lines name. The first calls are good ones.
const SETUP: &[&str] = &[
    "rec r exact=i64?:5 exact=0",
    "rec float exact=f64?:5 absent",
    "board sum:skip 2 i32?",
    "lone a sum:skip i32?",
    "lone b sum:keep i32?",
    "lone c sum:skip i32",
    "lone d count i32?",
    "lone e both(both(sum:keep,count),sum:skip) f64",
    "acc 0 prim i32? [7,null,9,4,~5] bits=0d",
    "acc 1 const i32?:-3 5 @r",
    "comb 0 i64?:12",
    "comb e ((f64?:1,u64?:2),f64?:3)",
    "merge 0 1",
];
/// A good line, and what is put in place of which part of it (each by itself) to make it a refused one.
type Damage = (&'static str, &'static [(&'static str, &'static str)]);
const REFUSED: &[Damage] = &[
    (
        "acc 0 prim i32? [7,null,9] bits=0d @r",
        &[
            ("i32?", "t8?"),
            ("i32?", "t8"),
            ("i32?", "t11"),
            ("i32?", "t255"),
            ("i32?", "t4294967298"),
            ("i32? [7,null", "i32 [7,null"),
            ("7", "2147483648"),
            ("9", "-2147483649"),
            ("9", "U"),
            ("0d", "0d00"),
            ("0d", "0d0d0d"),
            ("i32? [7,null,9]", "i32 [7,9]"),
            ("i32?", "i64?"),
            ("i32?", "i8?"),
            ("i32?", "u32?"),
            ("i32?", "f32?"),
            ("i32? [7,null,9] bits=0d", "i32 [7,9]"),
            ("@r", "@float"),
            ("acc 0", "acc 2"),
            ("acc 0", "acc 1024"),
            // two faults at once: the first by the order of the checks is the answer
            ("acc 0 prim i32?", "acc 9 prim t8?"),
            ("acc 0 prim i32? [7", "acc 9 prim i32? [2147483648"),
            ("acc 0 prim i32? [7,null,9] bits=0d", "acc 9 prim i32? [7,null,9] bits=0d0d"),
            ("acc 0 prim i32?", "acc 9 prim i64?"),
            ("i32? [7,null,9] bits=0d", "t8? [7,null,9] bits=0d0d"),
            ("7,null,9] bits=0d", "2147483648,null,9] bits=0d0d"),
            ("i32? [7,null,9] bits=0d @r", "i64? [7,null,9] bits=0d0d @float"),
            ("i32? [7,null,9] bits=0d @r", "i64? [7,null,9] bits=0d @float"),
        ],
    ),
    (
        "acc 0 const i32?:-3 5 @r",
        &[
            ("i32?:", "t8?:"),
            ("i32?:", "t12:"),
            ("-3", "-2147483649"),
            ("i32?:-3", "i32:null"),
            ("i32?:", "i32:"),
            ("i32?:", "i16?:"),
            ("i32?:-3", "f64?:1.5"),
            ("@r", "@float"),
            ("acc 0", "acc 2"),
            ("acc 0 const i32?:", "acc 2 const t8:"),
            ("acc 0 const i32?:-3", "acc 2 const i32:null"),
            ("acc 0 const i32?:", "acc 2 const i64?:"),
        ],
    ),
    (
        "comb 0 i64?:12",
        &[
            ("i64?", "i64"),
            ("i64?", "u64?"),
            ("i64?", "i32?"),
            ("i64?", "f64?"),
            ("i64?:12", "(i64?:12,u64?:1)"),
            ("i64?", "t8?"),
            ("i64?", "t11"),
            ("i64?:12", "i64:null"),
            ("12", "S+1"),
            ("12", "-S-2"),
            ("comb 0", "comb 2"),
            ("0 i64?", "2 i64"),
            ("0 i64?", "2 t8"),
            ("0 i64?:12", "2 i64:null"),
        ],
    ),
    (
        "comb e ((f64?:1,u64?:2),f64?:3)",
        &[
            ("f64?:1", "f64:1"),
            ("f64?:1", "f32?:1"),
            ("f64?:1", "t8?:1"),
            ("u64?:2", "u64:2"),
            ("u64?:2", "i64?:2"),
            ("u64?:2", "u64?:U+1"),
            ("u64?:2", "u64:null"),
            ("f64?:3", "f64:3"),
            ("f64?:3", "t9?:3"),
            ("((f64?:1,u64?:2),f64?:3)", "(f64?:3,(f64?:1,u64?:2))"),
            ("((f64?:1,u64?:2),f64?:3)", "(f64?:1,u64?:2)"),
            ("((f64?:1,u64?:2),f64?:3)", "f64?:3"),
        ],
    ),
    ("merge 0 1", &[("1", "0"), ("0", "1"), ("1", "2"), ("0", "2"), ("0 1", "2 2"), ("1", "18446744073709551615")]),
    ("merge a b", &[("merge a b", "merge a b"), ("a b", "b a"), ("b", "c"), ("a b", "c a"), ("a b", "b c")]),
    ("flush 0", &[("0", "2"), ("0", "1023")]),
    ("finish 0", &[("0", "2")]),
    ("reset 0", &[("0", "2")]),
    ("partial 0", &[("0", "2")]),
    ("final 0", &[("0", "2")]),
    ("sat 0", &[("0", "2")]),
    (
        "rec r exact=i64?:5 exact=0",
        &[
            ("i64?:5", "t8?:5"),
            ("i64?:5", "t11:5"),
            ("i64?:5", "i64?:null"),
            ("i64?:5", "i64:null"),
            ("exact=i64?:5", "inexact=i64?:null"),
            ("i64?:5", "i64?:S+1"),
            ("i64?:5", "u8:256"),
            ("exact=i64?:5", "inexact=i8?:-129"),
            ("i64?:5", "t11:null"),
        ],
    ),
    ("lone x count i64", &[("i64", "t8"), ("i64", "t11?")]),
];
/// Boards last, since a size that is refused leaves no site.
const REFUSED_BOARDS: &[&str] = &[
    "board reported:keep 3 t8",
    "board reported:keep 0 t8",
    "board reported:keep 3 u8",
    "final 2",
    "board reported:keep 0 u8",
    "final 0",
    "sat 2",
    "acc 0 prim u8 [1]",
    "acc 0 prim u8 [1] @r",
    "acc 0 prim u8 [256]",
    "comb 0 (u64?:1,u64?:1)",
    "comb 0 u64:1",
    "merge 0 0",
    "merge 0 1",
    "flush 0",
    "finish 0",
    "reset 0",
    "partial a",
    "board sum:skip 1024 u8",
    "sat 1023",
    "sat 1024",
    "board sum:skip 1025 u8",
    "sat 0",
    "board sum:skip 1 u8",
    "sat 0",
];
const ERRORS: &[Damage] = &[
    (
        "acc 0 prim i32? [7,null,9] bits=0d @r",
        &[
            ("acc", "ac"),
            ("acc", "Acc"),
            ("acc 0", "acc"),
            ("prim", "primitive"),
            ("i32?", "i33?"),
            ("i32?", "i32??"),
            ("i32?", "?i32"),
            ("i32?", "I32?"),
            ("i32?", "f16?"),
            ("i32?", "bool"),
            ("i32?", "t?"),
            ("i32?", "tx"),
            ("[7", "7"),
            ("9]", "9"),
            ("[7,null,9]", "[]]"),
            ("7,", "7,,"),
            ("9]", "9,]"),
            ("null", "nul"),
            ("null", "~"),
            ("7", "7x"),
            ("7", "x"),
            ("7", "7-"),
            ("7", "7*"),
            ("7", "7*x"),
            ("7", "nan"),
            ("7,null", "7, null"),
            ("bits=0d", "bits=0"),
            ("bits=0d", "bits=0g"),
            ("bits=0d", "bit=0d"),
            ("@r", "@nothing"),
            ("@r", "r"),
            ("@r", "@r more"),
            (" [7,null,9] bits=0d @r", ""),
        ],
    ),
    (
        "acc 0 const i32?:-3 5 @r",
        &[
            ("const", "constant"),
            ("i32?:-3", "i32?-3"),
            ("i32?:-3", "i32?:"),
            ("i32?:-3", "-3"),
            ("-3", "--3"),
            (" 5", ""),
            (" 5", " five"),
            (" 5", " 5 5"),
            ("@r", "@nothing"),
        ],
    ),
    (
        "comb 0 i64?:12",
        &[
            (" i64?:12", ""),
            ("12", "12 13"),
            ("12", ""),
            ("12", "1+"),
            ("12", "(12)"),
            ("i64?:12", "(i64?:12)"),
            ("i64?:12", "(i64?:12,u64?:2"),
            ("i64?:12", "i64?:12,u64?:2"),
            ("i64?:12", "null"),
            ("i64?:12", "f64?:0x"),
            ("i64?:12", "f64?:0xg"),
            ("i64?:12", "f64?:1.5.2"),
        ],
    ),
    ("merge 0 1", &[(" 1", ""), ("1", "1 1"), ("0", "a"), ("1", "a"), ("0 1", "a d"), ("0 1", "d a"), ("0 1", "e a")]),
    ("flush 0", &[(" 0", ""), ("0", "0 0"), ("flush", "flus"), ("flush 0", "0 flush")]),
    ("final 0", &[(" 0", ""), ("0", "0 1"), ("final", "finally")]),
    ("sat 0", &[("sat", "saturated"), (" 0", "")]),
    (
        "rec r exact=i64?:5 exact=0",
        &[
            (" exact=0", ""),
            ("exact=0", "exact="),
            ("exact=0", "exact"),
            ("exact=0", "none"),
            ("exact=0", "exact=x"),
            ("exact=i64?:5", "exakt=i64?:5"),
            ("exact=i64?:5", "exact=5"),
            ("exact=i64?:5", "i64?:5"),
            ("exact=i64?:5 exact=0", "absent"),
        ],
    ),
    (
        "lone x count i64",
        &[
            (" i64", ""),
            ("count", "counts"),
            ("count", "sum"),
            ("count", "sum:"),
            ("count", "count:skip"),
            ("count", "sum:skips"),
            ("count", "both(sum:skip)"),
            ("count", "both(count,sum)"),
            ("count", "both(sum:skip,count"),
            ("count", "both(sum:skip,count,count)"),
            ("count", "both(sum:skip,reported:skip)"),
            ("count", "mean"),
        ],
    ),
    ("board sum:skip 2 i32?", &[(" 2", ""), ("2", "two"), ("2", "2 2"), ("sum:skip", "sum"), ("i32?", "i32?:1")]),
];

fn copies(damages: &[Damage]) -> Vec<String> {
    let damaged = |good: &str, from: &str, to: &str| {
        assert!(good.contains(from), "`{from}` is not in `{good}`");
        good.replacen(from, to, 1)
    };
    damages.iter().flat_map(|(good, parts)| parts.iter().map(move |(from, to)| damaged(good, from, to))).collect()
}
fn after_setup(lines: Vec<String>) -> Vec<String> {
    SETUP.iter().map(|l| l.to_string()).chain(lines).collect()
}
fn damaged() -> Vec<String> {
    let mut lines = Vec::new();
    for line in copies(REFUSED) {
        lines.push(line);
        lines.push("partial 0".into());
    }
    let ends = [
        ("u8", "-1", "256"),
        ("u16", "-1", "65536"),
        ("u32", "-1", "4294967296"),
        ("u64", "-1", "U+1"),
        ("i8", "-129", "128"),
        ("i16", "-32769", "32768"),
        ("i32", "-2147483649", "2147483648"),
        ("i64", "-S-2", "S+1"),
    ];
    for (name, below, above) in ends {
        for value in [below, above] {
            lines.push(format!("acc 0 prim {name} [1,{value}]"));
            lines.push(format!("acc 0 const {name}?:{value} 1"));
            lines.push(format!("comb 0 {name}?:{value}"));
            lines.push(format!("rec x exact={name}:{value} absent"));
        }
    }
    for name in ["u8", "u16", "u32", "u64", "i8", "i16", "i32", "i64", "f32", "f64"] {
        lines.push(format!("acc 0 prim {name} [1,null,1]"));
        lines.push(format!("acc 0 prim {name} [~1]"));
        lines.push(format!("acc 0 const {name}:null 0"));
        lines.push(format!("acc 0 prim {name} [1] bits=01"));
        lines.push(format!("acc 0 prim {name}? [1] bits=0101"));
    }
    lines.extend(["partial 0", "partial e"].map(String::from));
    lines.extend(REFUSED_BOARDS.iter().map(|l| l.to_string()));
    let lines = after_setup(lines);
    let mut shell = Shell::new(ModelSide::of_the_definition());
    let known = lines.iter().all(|line| answer(&mut shell, line).is_some());
    assert!(known, "an error among the refused lines");
    lines
}
fn damaged_errors() -> Vec<String> {
    let mut shell = Shell::new(ModelSide::of_the_definition());
    for line in SETUP {
        shell.answer(line).expect("a good line");
    }
    let lines = copies(ERRORS);
    for line in &lines {
        assert!(shell.answer(line).is_err(), "no error: `{line}`");
    }
    after_setup(lines.into_iter().chain(["partial 0".into(), "partial e".into()]).collect())
}

/// Blocks by a seed, without those in which the crate departs from the definition.
fn made_up(seed: u64, least: usize) -> Vec<String> {
    let mut r = Random::new(seed);
    let mut lines = Vec::new();
    while lines.len() < least {
        let block = block(&mut r);
        let mut of_crate = Shell::new(CrateSide);
        let mut of_definition = Shell::new(ModelSide::of_the_definition());
        if block.iter().all(|line| answer(&mut of_crate, line) == answer(&mut of_definition, line)) {
            lines.push(String::new());
            lines.extend(block);
        }
    }
    lines
}
