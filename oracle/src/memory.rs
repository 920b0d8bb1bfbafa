//! Lent memory between guard words: a call may write the slices that it is lent, and nothing beside
//! them.

use crate::step::{Room, State};
use crate::tables::Tables;

/// Guard words before and behind a slice.
pub const GUARD: usize = 8;

/// What the lists hold before a call: what lies past an answer must stay so.
pub const FILL: u64 = 0xA5A5_5A5A_A5A5_5A5A;

pub trait Word: Copy {
    const GUARD: Self;
    fn bits(self) -> u64;
}

impl Word for u64 {
    const GUARD: u64 = 0xC3C3_3C3C_C3C3_3C3C;
    fn bits(self) -> u64 {
        self
    }
}

impl Word for f64 {
    // A NaN that signals: whoever computes with it changes it.
    const GUARD: f64 = f64::from_bits(0x7FF4_3C3C_C3C3_3C3C);
    fn bits(self) -> u64 {
        self.to_bits()
    }
}

#[derive(Clone)]
pub struct Slice<T>(Vec<T>);

impl<T: Word> Slice<T> {
    pub fn new(words: &[T]) -> Self {
        let guard = [T::GUARD; GUARD];
        Slice([&guard, words, &guard].concat())
    }

    pub fn get(&self) -> &[T] {
        &self.0[GUARD..self.0.len() - GUARD]
    }

    pub fn get_mut(&mut self) -> &mut [T] {
        let end = self.0.len() - GUARD;
        &mut self.0[GUARD..end]
    }

    /// With its guards, for faults that are planted.
    pub fn whole(&mut self) -> &mut [T] {
        &mut self.0
    }

    /// The guard word that was written, counted from the slice's start.
    pub fn trespass(&self) -> Option<isize> {
        let end = self.0.len() - GUARD;
        let guards = (0..GUARD).chain(end..self.0.len());
        let hit = |i: &usize| self.0[*i].bits() != T::GUARD.bits();
        guards
            .into_iter()
            .find(hit)
            .map(|i| i as isize - GUARD as isize)
    }

    /// The first word that is not this one, bit by bit.
    pub fn difference(&self, want: &[T]) -> Option<usize> {
        let pairs = self.get().iter().zip(want);
        pairs
            .enumerate()
            .find(|(_, (a, b))| a.bits() != b.bits())
            .map(|(i, _)| i)
    }
}

/// A second map area.
#[derive(Clone)]
pub struct Area {
    pub words: [Slice<u64>; 7],
    pub xyz: Slice<f64>,
}

impl Area {
    pub fn new(tables: &Tables) -> Self {
        Area {
            words: std::array::from_fn(|k| Slice::new(&tables.words[k])),
            xyz: Slice::new(&tables.xyz),
        }
    }

    /// The slice whose guard was written, and where.
    pub fn trespass(&self) -> Option<String> {
        let words = self.words.iter().zip(crate::tables::NAMES);
        let hit = words
            .into_iter()
            .find_map(|(s, name)| s.trespass().map(|i| (name, i)));
        let hit = hit.or(self.xyz.trespass().map(|i| ("coordinates", i)));
        hit.map(|(name, i)| format!("the area's {name}: word {i} is outside, and was written"))
    }
}

/// Everything that a call is lent, and after it what it left.
#[derive(Clone)]
pub struct Memory {
    pub words: [Slice<u64>; 7],
    pub xyz: Slice<f64>,
    pub counter: u64,
    /// created, modified, deleted (two words a pair) and warnings (ten each).
    pub lists: [Slice<u64>; 4],
    /// The command as a row of words, or a job's rows.
    pub row: Slice<u64>,
}

impl Memory {
    /// `odd` is how many words more than whole entries each list has.
    pub fn new(state: &State, room: &Room, row: &[u64], odd: [usize; 4]) -> Self {
        Memory {
            words: std::array::from_fn(|k| Slice::new(&state.tables.words[k])),
            xyz: Slice::new(&state.tables.xyz),
            counter: state.counter,
            lists: lists(room, odd),
            row: Slice::new(row),
        }
    }

    pub fn tables(&self) -> Tables {
        Tables {
            words: std::array::from_fn(|k| self.words[k].get().to_vec()),
            xyz: self.xyz.get().to_vec(),
        }
    }

    pub fn store(&mut self, tables: &Tables) {
        for (slice, words) in self.words.iter_mut().zip(&tables.words) {
            slice.get_mut().copy_from_slice(words);
        }
        self.xyz.get_mut().copy_from_slice(&tables.xyz);
    }

    /// The slice whose guard was written, and where.
    pub fn trespass(&self) -> Option<String> {
        let tables = self.words.iter().zip(crate::tables::NAMES);
        let lists = self.lists.iter().zip(LISTS);
        let row = [(&self.row, "command")];
        let words = tables.chain(lists).chain(row);
        let hit = words
            .into_iter()
            .find_map(|(s, name)| s.trespass().map(|i| (name, i)));
        let hit = hit.or(self.xyz.trespass().map(|i| ("coordinates", i)));
        hit.map(|(name, i)| format!("{name}: word {i} is outside the slice, and was written"))
    }
}

pub const LISTS: [&str; 4] = ["created", "modified", "deleted", "warnings"];

/// Words of an entry of each list.
pub const ENTRY: [usize; 4] = [2, 2, 2, 10];

pub fn lists(room: &Room, odd: [usize; 4]) -> [Slice<u64>; 4] {
    let n = [room.created, room.modified, room.deleted, room.warnings];
    std::array::from_fn(|k| Slice::new(&vec![FILL; n[k] * ENTRY[k] + odd[k] % ENTRY[k]]))
}
