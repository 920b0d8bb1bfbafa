//! The Rust of docs/src as a judge that runs. README.md says what each command does.

// A table's length is written as the layout has it: one count and so many rows.
#![allow(clippy::int_plus_one)]

mod against;
mod bench;
mod cases;
mod claims;
mod damage;
mod digest;
mod ffi;
mod format;
mod generate;
mod jobs;
mod lines;
mod memory;
mod rng;
mod rows;
mod sound;
mod step;
mod tables;
mod tally;
mod yard;

use std::io::{self, Write};

use format::Out;
use generate::Profile;
use tally::Tally;

const USAGE: &str = "\
oracle cases                       the ten cases of document 01
oracle calls SEED COUNT EDITS      a stream of small maps and calls of these edits (names, commas between) to standard output
oracle stored SEED COUNT           a stream of small maps and jobs to standard output
oracle digests FILE                what a replay of either stream must write: each answer and a digest of what is lent
oracle lines SEED COUNT            a stream of calls of the line functions with their answers
oracle check SEED COUNT            make them, keep nothing, and try document 01's claims on each call
oracle against SEED COUNT          call by call beside the editor's library (feature against)
oracle jobs SEED COUNT             jobs of several edits on COUNT maps beside the library (feature against)
oracle sound SEED COUNT            the library's test of soundness beside the oracle's own (feature against)
oracle try SEED COUNT              the comparison, tried on the oracle itself with faults planted
oracle bench                       times of the Rust, with and without a test of soundness
oracle bench jobs                  times of jobs of ten edits
oracle bench sound                 times of the test of soundness alone
oracle bench once NAME             one call of the editor's test on the map of that name
oracle bench once job              one job of sixty removals
oracle replay FILE                 read a stored stream of lines and make its calls again
oracle rows SEED COUNT DIR         COUNT calls as theorems about the definitions of the crate rules";

/// The places of edits in `COMMANDS`, by their names.
fn edits(names: &str) -> Vec<usize> {
    let place = |name: &str| {
        let found = step::COMMANDS.iter().position(|c| *c == name);
        found.unwrap_or_else(|| {
            eprintln!("{name} is no edit: {}", step::COMMANDS.join(","));
            std::process::exit(2);
        })
    };
    names.split(',').map(place).collect()
}

fn calls(seed: u64, count: usize, edits: &[usize]) -> io::Result<bool> {
    let mut to = io::BufWriter::new(io::stdout().lock());
    let mut out = Out::default();
    let mut tally = Tally::default();
    out.number(format::CALLS);
    out.number(count as u64);
    for index in 0..count {
        let case = generate::case_of(seed, index, Profile::Small, edits);
        out.case(&case);
        out.flush(&mut to)?;
        tally.case(&case);
        case.play(|t| {
            tally.turn(&t);
            true
        });
    }
    to.flush()?;
    tally.print();
    Ok(true)
}

fn stored(seed: u64, count: usize) -> io::Result<bool> {
    let mut to = io::BufWriter::new(io::stdout().lock());
    let mut out = Out::default();
    out.number(format::JOBS);
    out.number(count as u64);
    for index in 0..count {
        out.jobs(&jobs::Stored::made_up(seed, index));
        out.flush(&mut to)?;
    }
    to.flush()?;
    Ok(true)
}

/// Every call keeps what document 01 claims of it.
fn check(seed: u64, count: usize) -> bool {
    let mut tally = Tally::default();
    let mut broken = 0;
    for index in 0..count {
        let case = generate::case(seed, index, Profile::Full);
        tally.case(&case);
        case.play(|t| {
            tally.turn(&t);
            if let Err(claim) = claims::hold(&t) {
                println!("map {index}: {:?}: {claim}", t.call);
                broken += 1;
            }
            true
        });
    }
    tally.print();
    println!("{broken} claims broken");
    broken == 0
}

/// The library's test of soundness says what the oracle's own says, of every map and of what each call leaves.
fn verdicts(seed: u64, count: usize) -> bool {
    let (mut sound, mut unsound, mut differ) = (0, 0, 0);
    let mut others = std::collections::BTreeMap::new();
    let mut look = |index: usize, t: &tables::Tables, counter: u64| {
        let fault = sound::fault(t, counter);
        let Some(said) = ffi::sound(t, counter) else {
            eprintln!("built without the library: oracle/README.md");
            std::process::exit(2);
        };
        let clause = ffi::clause(t, counter).unwrap_or(0);
        // A map in which several clauses fail may be told by another that comes before.
        if said != fault.is_none() || said != (clause == 0) {
            println!("map {index}: {fault:?}, the library says {said}, clause {clause}");
            differ += 1;
        } else if clause != sound::number(fault) {
            others
                .entry((fault, clause))
                .and_modify(|n| *n += 1)
                .or_insert(1);
            unsound += 1;
        } else if said {
            sound += 1;
        } else {
            unsound += 1;
        }
    };
    for index in 0..count {
        let case = generate::case(seed, index, Profile::Full);
        look(index, &case.tables, case.counter);
        case.play(|t| {
            look(index, &t.after.tables, t.after.counter);
            true
        });
    }
    for ((fault, clause), n) in &others {
        println!("{n} times {fault:?}, told as clause {clause}");
    }
    println!("{sound} sound, {unsound} unsound, {differ} differ");
    differ == 0
}

fn replay(bytes: &[u8]) -> bool {
    let said = lines::replay(bytes)
        .map(|(groups, calls)| format!("{groups} groups, {calls} calls, all as stored"));
    let good = said.is_ok();
    println!("{}", said.unwrap_or_else(|e| e));
    good
}

fn main() {
    let words: Vec<String> = std::env::args().skip(1).collect();
    let words: Vec<&str> = words.iter().map(String::as_str).collect();
    let number = |w: &str| -> u64 {
        w.parse().unwrap_or_else(|_| {
            eprintln!("{w} is not a number");
            std::process::exit(2);
        })
    };
    let good = match words[..] {
        ["cases"] => cases::run(),
        ["bench"] => bench::run(),
        ["bench", "jobs"] => bench::jobs(),
        ["bench", "sound"] => bench::sound(),
        ["bench", "once", "job"] => bench::once_job(),
        ["bench", "once", name] => bench::once(name),
        ["yard"] => yard::run(),
        ["calls", seed, count, names] => {
            calls(number(seed), number(count) as usize, &edits(names)).expect("standard output")
        }
        ["stored", seed, count] => {
            stored(number(seed), number(count) as usize).expect("standard output")
        }
        ["digests", file] => digest::run(&std::fs::read(file).expect("a file")),
        ["lines", seed, count] => {
            lines::make(number(seed), number(count) as usize).expect("standard output")
        }
        ["check", seed, count] => check(number(seed), number(count) as usize),
        ["against", seed, count] => against::run(number(seed), number(count) as usize),
        ["jobs", seed, count] => jobs::run(number(seed), number(count) as usize),
        ["sound", seed, count] => verdicts(number(seed), number(count) as usize),
        ["try", seed, count] => against::try_out(number(seed), number(count) as usize),
        ["rows", seed, count, dir] => {
            rows::make(number(seed), number(count) as usize, dir.as_ref()).expect("a folder")
        }
        ["replay", file] => replay(&std::fs::read(file).expect("a file")),
        _ => {
            eprintln!("{USAGE}");
            std::process::exit(2);
        }
    };
    std::process::exit(!good as i32);
}
