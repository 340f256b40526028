//! Holds a program's answers against the crate's and the definition's, line by line.
//!
//! Three sides run on every line: the crate, the definition, and the definition where it follows the crate's known
//! departures. The program must equal the definition, and the crate the third side. So a line on which the crate is not
//! as the definition differs for a listed reason, or it is reported.
use crate::crate_side::CrateSide;
use crate::model::ModelSide;
use crate::shell::{By, Shell, Side};
use std::collections::BTreeMap;
use std::io::BufRead;

#[derive(Default)]
struct Tally {
    calls: u64,
    by: BTreeMap<By, u64>,
    /// The first word of a call with the kind of its answer.
    kinds: BTreeMap<String, u64>,
    listed: u64,
    program_differs: u64,
    crate_differs: u64,
}

fn answer<S: Side>(shell: &mut Shell<S>, line: &str) -> (String, Option<By>) {
    match shell.answer(line) {
        Ok(answer) => (format!("{line} -> {}", answer.text), Some(answer.by)),
        Err(reason) => (format!("error: {reason}"), None),
    }
}
fn kind(line: &str, answer: &str) -> String {
    let word = line.split(' ').next().unwrap_or_default();
    let answer = answer.rsplit_once(" -> ").map_or("error", |(_, a)| a);
    let kind = if answer.starts_with("ok") { "ok" } else { answer.split(" | ").next().unwrap_or_default() };
    format!("{word} {kind}")
}

/// Reads a script and the program's answers to it. True where nothing differs but what is listed.
pub fn run(script: impl BufRead, answers: impl BufRead) -> std::io::Result<bool> {
    let mut of_crate = Shell::new(CrateSide);
    let mut of_definition = Shell::new(ModelSide::of_the_definition());
    let mut of_departures = Shell::new(ModelSide::that_follows_the_crate());
    let mut tally = Tally::default();
    let mut answers = answers.lines();
    // The lines since the last empty one, to show with a difference.
    let mut context: Vec<String> = Vec::new();
    for (i, line) in script.lines().enumerate() {
        let line = line?;
        let is_call = !line.is_empty() && !line.starts_with("//");
        let (by_crate, by_definition, by_departures, by) = if is_call {
            let (by_crate, by) = answer(&mut of_crate, &line);
            (by_crate, answer(&mut of_definition, &line).0, answer(&mut of_departures, &line).0, by)
        } else {
            (line.clone(), line.clone(), line.clone(), None)
        };
        let is_error = by_definition.starts_with("error: ");
        // An error has no line on standard output.
        let by_program = if is_error { by_definition.clone() } else { answers.next().transpose()?.unwrap_or_default() };
        if line.is_empty() {
            context.clear();
        } else {
            context.push(line.clone());
        }
        if by_program != by_definition {
            tally.program_differs += 1;
            if tally.program_differs == 1 {
                println!("line {}: the program differs from the definition", i + 1);
                println!("  program:    {by_program}\n  definition: {by_definition}\n  crate:      {by_crate}");
                println!("  the lines up to there:\n    {}", context.join("\n    "));
            }
        }
        if by_crate != by_departures {
            tally.crate_differs += 1;
            if tally.crate_differs == 1 {
                println!("line {}: the crate differs from the definition, and not by a listed difference", i + 1);
                println!("  crate:      {by_crate}\n  definition: {by_definition}\n  program:    {by_program}");
                println!("  the lines up to there:\n    {}", context.join("\n    "));
            }
        }
        if is_call {
            tally.calls += 1;
            if let Some(by) = by {
                *tally.by.entry(by).or_default() += 1;
            }
            *tally.kinds.entry(kind(&line, &by_definition)).or_default() += 1;
            if by_crate != by_definition && by_crate == by_departures {
                tally.listed += 1;
            }
        }
    }
    let more = answers.count();
    if more > 0 {
        println!("the program has {more} lines too many");
    }
    let departures = &of_departures.side.departures;
    println!("{} calls", tally.calls);
    println!("  {:9} answers of the program that differ from the definition", tally.program_differs);
    println!("  {:9} answers of the crate that differ from the definition, not listed", tally.crate_differs);
    println!("  {:9} answers of the crate that differ from the definition, listed:", tally.listed);
    println!("            they follow from {} long signed constants", departures.long_constants.get());
    println!("            and {} cached sums of another number type", departures.cast_sums.get());
    print_tally(&tally.by);
    println!("calls by their word and answer:");
    for (kind, count) in &tally.kinds {
        println!("  {count:9} {kind}");
    }
    Ok(tally.program_differs == 0 && tally.crate_differs == 0 && more == 0)
}

fn tally_lines(by: &BTreeMap<By, u64>) -> Vec<String> {
    let sum = |of_crate: bool| by.iter().filter(|(by, _)| by.is_crate() == of_crate).map(|(_, n)| n).sum::<u64>();
    let mut lines = vec![format!("answered by the crate: {}; by the shell: {}", sum(true), sum(false))];
    for kind in By::ALL {
        lines.push(format!("  {:9} {}", by.get(&kind).copied().unwrap_or(0), kind.label()));
    }
    lines
}
fn print_tally(by: &BTreeMap<By, u64>) {
    println!("{}", tally_lines(by).join("\n"));
}
/// The tally on standard error, beside answers on standard output.
pub fn print_tally_aside(by: &BTreeMap<By, u64>) {
    eprintln!("{}", tally_lines(by).join("\n"));
}
