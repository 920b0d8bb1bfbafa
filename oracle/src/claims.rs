//! What document 01 claims of every accepted call, tried on the Rust: the lists are exact, and the
//! link book gives the links.

use std::collections::BTreeSet;

use vectormap_core::{LaneId, Map, Neighbor, NeighborDirection, Side};

use crate::generate::Turn;
use crate::step::{Answer, Call, Entity};
use crate::tables::records;

type Book = BTreeSet<(u64, u64)>;

fn links(m: &Map) -> Book {
    m.lanes()
        .flat_map(|l| m.successors(l.id).iter().map(move |s| (l.id.0, s.0)))
        .collect()
}

/// A split's group and the second halves it created, both ascending.
fn cut(before: &Map, call: &Call, created: &[Entity]) -> (Vec<u64>, Vec<u64>) {
    let group = match *call {
        Call::SplitLane {
            lane,
            neighbors: true,
            ..
        } => before
            .lateral_group(LaneId(lane))
            .iter()
            .map(|l| l.0)
            .collect(),
        Call::SplitLane { lane, .. } => vec![lane],
        _ => vec![],
    };
    let made: Vec<u64> = created.iter().filter(|e| e.0 == 0).map(|e| e.1).collect();
    assert_eq!(group.len(), made.len(), "one second half for each lane cut");
    (group, made)
}

/// The book after an accepted call. A split's group and the lanes it creates come from the answer:
/// both ascending, the second half at the same place.
fn booked(before: &Map, call: &Call, created: &[Entity], mut book: Book) -> Book {
    match *call {
        Call::SetNeighbor { .. } => {}
        Call::Connect { from, to } => {
            book.insert((from, to));
        }
        Call::Disconnect { from, to } => {
            book.remove(&(from, to));
        }
        Call::RemoveLane { lane } => book.retain(|p| p.0 != lane && p.1 != lane),
        Call::MergeLanes { first, second } => {
            book.remove(&(first, second));
            let read = |id| if id == second { first } else { id };
            book = book.into_iter().map(|(a, b)| (read(a), read(b))).collect();
        }
        Call::SplitLane { .. } => {
            let (group, made) = cut(before, call, created);
            let place = |id| group.iter().position(|g| *g == id);
            book = book
                .into_iter()
                .map(|(a, b)| (place(a).map_or(a, |i| made[i]), b))
                .collect();
            book.extend(group.into_iter().zip(made));
        }
    }
    book
}

/// The neighbours after a split by the pairing rule: same direction pairs first with first, opposite
/// first with second; beside a lane that is not cut, the first half alone keeps its neighbour.
fn paired(before: &Map, after: &Map, group: &[u64], made: &[u64]) -> bool {
    let second = |id: LaneId| {
        let place = group.iter().position(|g| *g == id.0);
        place.map(|i| LaneId(made[i]))
    };
    before.lanes().all(|l| {
        [Side::Left, Side::Right].into_iter().all(|side| {
            let held = before.neighbor(l.id, side);
            let (first, other) = match (second(l.id), held.and_then(|n| second(n.lane)), held) {
                (None, _, _) => (held, None),
                (Some(_), None, _) | (_, _, None) => (held, None),
                (Some(_), Some(n2), Some(n)) => match n.direction {
                    NeighborDirection::Same => (held, Some(Neighbor::same(n2))),
                    NeighborDirection::Opposite => (
                        Some(Neighbor::opposite(n2)),
                        Some(Neighbor::opposite(n.lane)),
                    ),
                },
            };
            let half = second(l.id).map(|g2| after.neighbor(g2, side));
            after.neighbor(l.id, side) == first && half.is_none_or(|h| h == other)
        })
    })
}

pub fn hold(t: &Turn) -> Result<(), String> {
    let Answer::Changed {
        created,
        modified,
        deleted,
        second,
        ..
    } = t.answer
    else {
        let kept = t.after.tables.same(&t.before.tables) && t.after.counter == t.before.counter;
        return if kept {
            Ok(())
        } else {
            Err("a refused call changed something".into())
        };
    };
    t.after.check()?;
    let (Some(m), Some(n)) = (&t.before.map, &t.after.map) else {
        return Err("an accepted call on a map that is not sound".into());
    };
    let (old, new) = (records(m), records(n));
    let appeared: Vec<Entity> = new
        .keys()
        .filter(|e| !old.contains_key(e))
        .copied()
        .collect();
    let vanished: Vec<Entity> = old
        .keys()
        .filter(|e| !new.contains_key(e))
        .copied()
        .collect();
    if *created != appeared || *deleted != vanished {
        return Err("created or deleted is not exact".into());
    }
    if !modified.is_sorted_by(|a, b| a < b) {
        return Err("modified is not sorted, or repeats".into());
    }
    for (e, record) in &old {
        match new.get(e) {
            Some(r) if r != record && modified.binary_search(e).is_err() => {
                return Err(format!("{e:?} differs and is not in modified"));
            }
            _ => {}
        }
    }
    if modified
        .iter()
        .any(|e| !old.contains_key(e) || !new.contains_key(e))
    {
        return Err("modified holds what does not survive".into());
    }
    if booked(m, t.call, created, links(m)) != links(n) {
        return Err("the links are not those of the book".into());
    }
    if let (Some(id), Call::SplitLane { lane, .. }) = (second, t.call) {
        if !links(n).contains(&(*lane, *id)) {
            return Err("the second half does not follow the first".into());
        }
        let (group, made) = cut(m, t.call, created);
        if !paired(m, n, &group, &made) {
            return Err("the neighbours are not those of the pairing rule".into());
        }
    }
    Ok(())
}
