//! Counts of what a run reached: by edit, refusal number, warning and clause of soundness.

use std::collections::BTreeMap;

use vectormap_core::*;

use crate::generate::{Case, Turn};
use crate::sound;
use crate::step::{Answer, CODES, COMMANDS, Call};

#[derive(Default)]
pub struct Tally {
    pub maps: usize,
    pub calls: usize,
    /// By command: changed, then refusals 1 to 11.
    answers: [[usize; 12]; 6],
    /// Code, command, severity, entity's kind, how many related, fix.
    warnings: BTreeMap<(u64, usize, u64, u64, u64, u64), usize>,
    faults: BTreeMap<&'static str, usize>,
    passed: BTreeMap<&'static str, usize>,
    /// What accepted merges did to each side and to the centreline.
    merges: BTreeMap<&'static str, usize>,
    groups: usize,
    reordered: usize,
    panicked: usize,
}

const KINDS: [&str; 8] = [
    "lane",
    "boundary",
    "road",
    "junction",
    "stop line",
    "signal",
    "crosswalk",
    "rule",
];

impl Tally {
    pub fn case(&mut self, case: &Case) {
        self.maps += 1;
        if let Some(clause) = sound::fault(&case.tables, case.counter) {
            *self.faults.entry(clause).or_default() += 1;
        }
    }

    pub fn turn(&mut self, turn: &Turn) {
        self.calls += 1;
        self.reordered += turn.after.reordered - turn.before.reordered;
        self.panicked += turn.after.panicked - turn.before.panicked;
        let command = turn.call.command();
        match turn.answer {
            Answer::Refused { number, .. } => {
                self.answers[command][*number as usize] += 1;
                if *number == 10 {
                    let passed = turn.after.passed.expect("a reason");
                    *self.passed.entry(passed).or_default() += 1;
                }
            }
            Answer::Changed {
                warnings,
                created,
                second,
                ..
            } => {
                self.answers[command][0] += 1;
                self.merge(turn);
                let cut = created.iter().filter(|e| e.0 == 0).count();
                self.groups += (second.is_some() && cut > 1) as usize;
                for w in warnings {
                    let shape = (w[1], command, w[0], w[2], w[4], w[9]);
                    *self.warnings.entry(shape).or_default() += 1;
                }
            }
        }
    }

    fn merge(&mut self, turn: &Turn) {
        let (Call::MergeLanes { first, second }, Some(m)) = (&turn.call, &turn.before.map) else {
            return;
        };
        let (first, second) = (LaneId(*first), LaneId(*second));
        let (Some(a), Some(b)) = (m.lane(first), m.lane(second)) else {
            return;
        };
        let alone = |x: BoundaryId, l: LaneId| m.lanes_using_boundary(x) == [l];
        let mut placed = Vec::new();
        for side in [Side::Left, Side::Right] {
            let (ra, rb) = (a.boundary(side), b.boundary(side));
            let plan = if ra.boundary == rb.boundary {
                "sides kept"
            } else if !alone(ra.boundary, first) || !alone(rb.boundary, second) {
                "sides with a new boundary"
            } else if ra.reversed {
                placed.push(ra.boundary);
                "sides joined in place, stored reversed"
            } else {
                placed.push(ra.boundary);
                "sides joined in place"
            };
            *self.merges.entry(plan).or_default() += 1;
        }
        if placed.len() == 2 && placed[0] == placed[1] {
            *self.merges.entry("both sides joined in one boundary").or_default() += 1;
        }
        if m.successors(second).contains(&first) {
            *self.merges.entry("rings of two lanes").or_default() += 1;
        }
        let centers = match (a.centerline.is_some(), b.centerline.is_some()) {
            (true, true) => "explicit centrelines joined",
            (false, false) => return,
            _ => "explicit centrelines dropped",
        };
        *self.merges.entry(centers).or_default() += 1;
    }

    /// The refusals that no call met.
    pub fn unreached(&self) -> Vec<usize> {
        (1..12)
            .filter(|n| self.answers.iter().all(|row| row[*n] == 0))
            .collect()
    }

    pub fn print(&self) {
        eprintln!("{} maps, {} calls", self.maps, self.calls);
        eprint!("{:14}{:>8}", "", "changed");
        (1..12).for_each(|n| eprint!("{n:>7}"));
        eprintln!();
        for (name, row) in COMMANDS.iter().zip(&self.answers) {
            eprint!("{name:14}{:>8}", row[0]);
            row[1..].iter().for_each(|n| eprint!("{n:>7}"));
            eprintln!();
        }
        for ((code, command, severity, kind, related, fix), n) in &self.warnings {
            eprintln!(
                "{n:>8} {} of {}: {} on a {}, {related} related{}",
                CODES[*code as usize].as_str(),
                COMMANDS[*command],
                ["info", "warning", "error"][*severity as usize],
                KINDS[*kind as usize],
                if *fix == 1 {
                    ", with the removal fix"
                } else {
                    ""
                },
            );
        }
        for (clause, n) in &self.faults {
            eprintln!("{n:>8} maps not sound: {clause}");
        }
        for (passed, n) in &self.passed {
            eprintln!("{n:>8} times 10: {passed}");
        }
        for (plan, n) in &self.merges {
            eprintln!("{n:>8} in merges: {plan}");
        }
        eprintln!("{:>8} splits of more than one lane", self.groups);
        eprintln!("{:>8} times 7 where the Rust panics", self.panicked);
        eprintln!("{:>8} link lists put in order", self.reordered);
        if !self.unreached().is_empty() {
            eprintln!("refusals not reached: {:?}", self.unreached());
        }
    }
}
