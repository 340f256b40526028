//! Answers scripts with the crate or with the definition, makes up scripts, and judges a program's answers.
//! See README.md.
mod crate_side;
mod judge;
mod lists;
mod made_up;
mod model;
mod shell;
mod words;

use shell::{By, Shell, Side};
use std::collections::BTreeMap;
use std::io::{BufRead, BufReader, BufWriter, Write};
use std::process::ExitCode;
use std::sync::atomic::Ordering;

const USAGE: &str = "usage: oracle [--model | --like-crate] [--tally] [--nan-bits] [--null-sums] < SCRIPT
       oracle make-up SEED CALLS
       oracle list short_columns | bitmaps | damaged | damaged_errors | made_up
       oracle judge SCRIPT < ANSWERS";

fn main() -> ExitCode {
    // Panics of the crate are answers (`no-number`), not output.
    std::panic::set_hook(Box::new(|_| {}));
    let args: Vec<String> = std::env::args().skip(1).collect();
    let words: Vec<&str> = args.iter().map(String::as_str).collect();
    let done = match words.as_slice() {
        ["make-up", seed, calls] => match (seed.parse(), calls.parse()) {
            (Ok(seed), Ok(calls)) => made_up::print(seed, calls, &mut output()).map(|()| true),
            _ => return usage(),
        },
        ["list", name] => match lists::print(name, &mut output()) {
            Some(done) => done.map(|()| true),
            None => return usage(),
        },
        ["judge", script] => {
            std::fs::File::open(script).and_then(|script| judge::run(BufReader::new(script), std::io::stdin().lock()))
        }
        options => {
            let has = |word: &str| options.contains(&word);
            let known = ["--model", "--like-crate", "--tally", "--nan-bits", "--null-sums"];
            if !options.iter().all(|o| known.contains(o)) {
                return usage();
            }
            words::SHOW_NAN_BITS.store(has("--nan-bits"), Ordering::Relaxed);
            words::NULL_SUMS.store(has("--null-sums"), Ordering::Relaxed);
            if has("--model") {
                answer_all(Shell::new(model::ModelSide::of_the_definition()), has("--tally"))
            } else if has("--like-crate") {
                answer_all(Shell::new(model::ModelSide::that_follows_the_crate()), has("--tally"))
            } else {
                answer_all(Shell::new(crate_side::CrateSide), has("--tally"))
            }
        }
    };
    match done {
        Ok(true) => ExitCode::SUCCESS,
        Ok(false) => ExitCode::FAILURE,
        Err(error) => {
            eprintln!("oracle: {error}");
            ExitCode::FAILURE
        }
    }
}
fn usage() -> ExitCode {
    eprintln!("{USAGE}");
    ExitCode::from(2)
}
fn output() -> BufWriter<std::io::StdoutLock<'static>> {
    BufWriter::new(std::io::stdout().lock())
}

/// Answers standard input. True where every line was of the language.
fn answer_all<S: Side>(mut shell: Shell<S>, show_tally: bool) -> std::io::Result<bool> {
    let mut out = output();
    let mut all_known = true;
    let mut tally: BTreeMap<By, u64> = BTreeMap::new();
    for (i, line) in std::io::stdin().lock().lines().enumerate() {
        let line = line?;
        if line.is_empty() || line.starts_with("//") {
            writeln!(out, "{line}")?;
            continue;
        }
        match shell.answer(&line) {
            Ok(answer) => {
                *tally.entry(answer.by).or_default() += 1;
                writeln!(out, "{line} -> {}", answer.text)?;
            }
            Err(reason) => {
                out.flush()?;
                eprintln!("error: line {}: {reason}", i + 1);
                all_known = false;
            }
        }
    }
    out.flush()?;
    if show_tally {
        judge::print_tally_aside(&tally);
    }
    Ok(all_known)
}
