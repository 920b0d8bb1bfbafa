//! What a replay must write: a line for each call of a stored stream, the answer's numbers and a digest of all that was lent.

use crate::against::{FILL, expected, lend};
use crate::format::{self, bits};
use crate::generate::Case;
use crate::jobs;
use crate::tables::Tables;

/// What a digest begins with.
const START: u64 = 1;

/// A word into a digest, as crates/stream has it.
fn mix(state: u64, word: u64) -> u64 {
    let a = state ^ word;
    let b = a ^ (a << 13);
    let c = b ^ (b >> 7);
    c ^ (c << 17)
}

/// Words of the arrays that the lists of a call are lent from.
const ARRAYS: [usize; 4] = [64, 64, 64, 160];

/// Maps one after the other, of each the seven tables of words and the coordinates by their bits, and then lists.
pub fn of<const N: usize>(maps: [&Tables; N], lists: &[Vec<u64>; 4]) -> u64 {
    let mut state = START;
    for t in maps {
        let words = t.words.iter().flatten().copied();
        let floats = t.xyz.iter().map(|x| bits(*x));
        state = words.chain(floats).fold(state, mix);
    }
    lists.iter().flatten().copied().fold(state, mix)
}

/// The lists as the arrays that they are lent from.
fn arrays(lists: &[Vec<u64>; 4]) -> [Vec<u64>; 4] {
    std::array::from_fn(|k| {
        let mut list = lists[k].clone();
        assert!(list.len() <= ARRAYS[k], "more lent than the array has");
        list.resize(ARRAYS[k], FILL);
        list
    })
}

fn lines(case: &Case) -> String {
    let mut text = String::new();
    case.play(|t| {
        let before = lend(t.before, t.room);
        let (raw, lists) = expected(t.answer, before.lists);
        let (kind, id) = raw.entity.map_or((0, 0), |(kind, id)| (kind + 1, id));
        let [created, modified, deleted, warnings] = raw.counts;
        let second = raw.second.unwrap_or(0);
        text += &format!(
            "{} {kind} {id} {created} {modified} {deleted} {warnings} {second} {} {}\n",
            raw.number,
            t.after.counter,
            of([&t.after.tables], &arrays(&lists))
        );
        true
    });
    text
}

/// What a replay of a stored stream must write, of calls or of jobs.
pub fn run(bytes: &[u8]) -> bool {
    let said = match format::In(bytes).number() {
        format::JOBS => format::jobs(bytes).map(|all| {
            let mut tally = jobs::Tally::new();
            all.iter().for_each(|m| print!("{}", m.lines(&mut tally)));
            tally.print();
        }),
        _ => format::cases(bytes).map(|all| all.iter().for_each(|c| print!("{}", lines(c)))),
    };
    if let Err(said) = &said {
        eprintln!("{said}");
    }
    said.is_ok()
}
