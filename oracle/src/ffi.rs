//! The editor under test, as the comparison sees it, and the library's functions behind that.

use crate::memory::{Area, Memory};
use crate::step::{Call, Entity};
use crate::tables::Tables;

/// What a call is lent, and after it what it left: the tables, the counter, and the words of
/// created, modified, deleted (two a pair) and warnings (ten each).
#[derive(Clone)]
#[cfg_attr(not(feature = "against"), allow(dead_code))]
pub struct Lent {
    pub tables: Tables,
    pub counter: u64,
    pub lists: [Vec<u64>; 4],
}

/// The answer by value: a refusal's number (0: changed) and entity, or the counts of the four lists
/// and, of a split, the second half's id.
#[derive(Clone, Debug, PartialEq, Default)]
pub struct Raw {
    pub number: u64,
    pub entity: Option<Entity>,
    pub counts: [usize; 4],
    pub second: Option<u64>,
}

pub trait Editor {
    /// A call between guards, the row as it stands there.
    fn on(&mut self, memory: &mut Memory) -> Raw;

    /// A call for a benchmark, with nothing beside it.
    fn call(&mut self, _call: &Call, _lent: &mut Lent) -> Raw {
        unreachable!("the library alone is timed")
    }
}

/// The answer to a job by value: number, place and own number of the refused edit with its entity, the counts of the four lists, and the counter.
#[derive(Clone, Debug, PartialEq, Default)]
pub struct Told {
    pub number: u64,
    pub place: u64,
    pub own: u64,
    pub entity: Option<Entity>,
    pub counts: [usize; 4],
    pub counter: u64,
}

pub trait Jobs {
    /// A job between guards, its rows as they stand there.
    fn on(&mut self, memory: &mut Memory, area: &mut Area) -> Told;

    /// A job for a benchmark, with nothing beside it.
    fn call(&mut self, _rows: &[u64], _lent: &mut Lent, _area: &mut Tables) -> Told {
        unreachable!("the library alone is timed")
    }
}

/// The library of `rt lib`, if this program was built with it.
pub fn library() -> Option<Box<dyn Editor>> {
    #[cfg(feature = "against")]
    return Some(Box::new(linked::Library));
    #[cfg(not(feature = "against"))]
    None
}

/// The library for jobs.
pub fn jobs() -> Option<Box<dyn Jobs>> {
    #[cfg(feature = "against")]
    return Some(Box::new(linked::Library));
    #[cfg(not(feature = "against"))]
    None
}

/// The library's test of soundness, if this program was built with it.
pub fn sound(t: &Tables, counter: u64) -> Option<bool> {
    #[cfg(feature = "against")]
    return Some(linked::sound(t, counter));
    #[cfg(not(feature = "against"))]
    {
        let _ = (t, counter);
        None
    }
}

/// The clause of soundness that the library says fails first (0: none), if this program was built with it.
pub fn clause(t: &Tables, counter: u64) -> Option<u64> {
    #[cfg(feature = "against")]
    return Some(linked::clause(t, counter));
    #[cfg(not(feature = "against"))]
    {
        let _ = (t, counter);
        None
    }
}

#[cfg(feature = "against")]
mod linked {
    use voldrekka::sys;

    use super::{Area, Call, Editor, Jobs, Lent, Memory, Raw, Tables, Told};

    pub fn sound(t: &Tables, counter: u64) -> bool {
        sys::sound(counter, t.words.each_ref().map(|w| &w[..]), &t.xyz)
    }

    pub fn clause(t: &Tables, counter: u64) -> u64 {
        sys::fault(counter, t.words.each_ref().map(|w| &w[..]), &t.xyz).clause
    }

    pub struct Library;

    impl Editor for Library {
        fn on(&mut self, memory: &mut Memory) -> Raw {
            raw(sys::apply(
                &mut memory.counter,
                memory.words.each_mut().map(|s| s.get_mut()),
                memory.xyz.get_mut(),
                memory.row.get(),
                memory.lists.each_mut().map(|s| s.get_mut()),
            ))
        }

        fn call(&mut self, call: &Call, lent: &mut Lent) -> Raw {
            raw(sys::apply(
                &mut lent.counter,
                lent.tables.words.each_mut().map(|w| &mut w[..]),
                &mut lent.tables.xyz,
                &call.row(),
                lent.lists.each_mut().map(|l| &mut l[..]),
            ))
        }
    }

    impl Jobs for Library {
        fn on(&mut self, memory: &mut Memory, area: &mut Area) -> Told {
            told(sys::job(
                &mut memory.counter,
                memory.words.each_mut().map(|s| s.get_mut()),
                memory.xyz.get_mut(),
                memory.row.get(),
                area.words.each_mut().map(|s| s.get_mut()),
                area.xyz.get_mut(),
                memory.lists.each_mut().map(|s| s.get_mut()),
            ))
        }

        fn call(&mut self, rows: &[u64], lent: &mut Lent, area: &mut Tables) -> Told {
            told(sys::job(
                &mut lent.counter,
                lent.tables.words.each_mut().map(|w| &mut w[..]),
                &mut lent.tables.xyz,
                rows,
                area.words.each_mut().map(|w| &mut w[..]),
                &mut area.xyz,
                lent.lists.each_mut().map(|l| &mut l[..]),
            ))
        }
    }

    fn told(t: sys::JobAnswer) -> Told {
        if t.kind == 0 {
            assert_eq!(t.id, 0, "no entity, and an id");
        }
        Told {
            number: t.number,
            place: t.place,
            own: t.own,
            entity: (t.kind > 0).then(|| (t.kind - 1, t.id)),
            counts: [t.created, t.modified, t.deleted, t.warnings].map(|n| n as usize),
            counter: t.counter,
        }
    }

    fn raw(t: sys::Answer) -> Raw {
        if t.kind == 0 {
            assert_eq!(t.id, 0, "no entity, and an id");
        }
        Raw {
            number: t.number,
            entity: (t.kind > 0).then(|| (t.kind - 1, t.id)),
            counts: [t.created, t.modified, t.deleted, t.warnings].map(|n| n as usize),
            second: (t.second > 0).then_some(t.second),
        }
    }
}
