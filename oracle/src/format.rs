//! The streams of FORMAT.md: written, and read back.

use std::io::{self, Write};

use crate::generate::Case;
use crate::jobs::Stored;
use crate::step::{Call, Room};
use crate::tables::*;

/// The first number of a stream of lines.
pub const LINES: u64 = 2;
/// The first number of a stream of calls.
pub const CALLS: u64 = 3;
/// The first number of a stream of jobs.
pub const JOBS: u64 = 4;

/// A map with its calls has at most so many bytes: a reader takes it in at once.
const MOST: usize = 0x1_0000;

#[derive(Default)]
pub struct Out(pub Vec<u8>);

impl Out {
    /// Seven bits a byte, least first, the top bit set on all but the last.
    pub fn number(&mut self, mut n: u64) {
        while n >= 128 {
            self.0.push(n as u8 | 128);
            n >>= 7;
        }
        self.0.push(n as u8);
    }

    pub fn float(&mut self, x: f64) {
        self.0.extend(x.to_bits().to_le_bytes());
    }

    pub fn flush(&mut self, to: &mut impl Write) -> io::Result<()> {
        to.write_all(&self.0)?;
        self.0.clear();
        Ok(())
    }

    /// How many words, and those words.
    fn table(&mut self, words: impl ExactSizeIterator<Item = u64>) {
        self.number(words.len() as u64);
        words.for_each(|w| self.number(w));
    }

    fn map(&mut self, t: &Tables, counter: u64) {
        for w in &t.words {
            self.table(w.iter().copied());
        }
        self.table(t.xyz.iter().map(|x| bits(*x)));
        self.number(counter);
    }

    /// A map and its jobs: of each its rows, and the words lent for the area and for the lists.
    pub fn jobs(&mut self, stored: &Stored) {
        let start = self.0.len();
        self.map(&stored.tables, stored.counter);
        self.number(stored.jobs.len() as u64);
        for (rows, sizes) in &stored.jobs {
            self.table(rows.iter().copied());
            sizes.iter().for_each(|n| self.number(*n as u64));
        }
        assert!(self.0.len() - start <= MOST, "a map too large to be stored");
    }

    /// A map and its calls.
    pub fn case(&mut self, case: &Case) {
        let start = self.0.len();
        self.map(&case.tables, case.counter);
        self.number(case.calls.len() as u64);
        for (call, room) in &case.calls {
            let Room {
                created,
                modified,
                deleted,
                warnings,
            } = *room;
            call.row().iter().for_each(|w| self.number(*w));
            for n in [created, modified, deleted, warnings] {
                self.number(n as u64);
            }
        }
        assert!(self.0.len() - start <= MOST, "a map too large to be stored");
    }
}

/// The bits of a double, every NaN as one.
pub fn bits(x: f64) -> u64 {
    if x.is_nan() {
        0x7ff8_0000_0000_0000
    } else {
        x.to_bits()
    }
}

// ---- reading -----------------------------------------------------------------------------------

pub struct In<'a>(pub &'a [u8]);

impl In<'_> {
    pub fn number(&mut self) -> u64 {
        let (mut n, mut shift) = (0, 0);
        loop {
            let byte = self.0[0];
            self.0 = &self.0[1..];
            n |= (byte as u64 & 127) << shift;
            if byte < 128 {
                return n;
            }
            shift += 7;
        }
    }

    pub fn float(&mut self) -> f64 {
        let (bytes, rest) = self.0.split_at(8);
        self.0 = rest;
        f64::from_bits(u64::from_le_bytes(bytes.try_into().expect("eight")))
    }

    fn table(&mut self) -> Vec<u64> {
        (0..self.number()).map(|_| self.number()).collect()
    }

    fn map(&mut self) -> (Tables, u64) {
        let words = std::array::from_fn(|_| self.table());
        let xyz = self.table().into_iter().map(f64::from_bits).collect();
        (Tables { words, xyz }, self.number())
    }

    fn jobs(&mut self) -> Stored {
        let (tables, counter) = self.map();
        let jobs = (0..self.number())
            .map(|_| {
                let rows = self.table();
                (rows, std::array::from_fn(|_| self.number() as usize))
            })
            .collect();
        Stored {
            tables,
            counter,
            jobs,
        }
    }

    fn case(&mut self) -> Case {
        let (tables, counter) = self.map();
        let calls = (0..self.number())
            .map(|_| {
                let call = Call::of(std::array::from_fn(|_| self.number()));
                let [created, modified, deleted, warnings] =
                    std::array::from_fn(|_| self.number() as usize);
                let room = Room {
                    created,
                    modified,
                    deleted,
                    warnings,
                };
                (call, room)
            })
            .collect();
        Case {
            tables,
            counter,
            calls,
        }
    }
}

/// The maps of a stored stream of this form, each read by `one`.
fn maps<T>(bytes: &[u8], form: u64, one: impl Fn(&mut In) -> T) -> Result<Vec<T>, String> {
    let mut from = In(bytes);
    if from.number() != form {
        return Err("a stream of another form".into());
    }
    let all = (0..from.number()).map(|_| one(&mut from)).collect();
    if !from.0.is_empty() {
        return Err("bytes left over".into());
    }
    Ok(all)
}

/// The maps and calls of a stored stream.
pub fn cases(bytes: &[u8]) -> Result<Vec<Case>, String> {
    maps(bytes, CALLS, |from| from.case())
}

/// The maps and jobs of a stored stream.
pub fn jobs(bytes: &[u8]) -> Result<Vec<Stored>, String> {
    maps(bytes, JOBS, |from| from.jobs())
}
