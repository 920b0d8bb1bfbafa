//! Ways to break a clause of soundness, one at a time.

use crate::rng::Rng;
use crate::sound;
use crate::tables::*;

/// What is broken, and how; nothing if the map lacks what it takes.
type Damage = (
    &'static str,
    fn(&mut Rng, &mut Tables, &mut u64) -> Option<()>,
);

/// Some row of the table, if it has one.
fn any(rng: &mut Rng, t: &Tables, table: usize) -> Option<usize> {
    let n = t.count(table);
    (n > 0).then(|| rng.below(n))
}

/// Some row that the test picks.
fn which(rng: &mut Rng, t: &Tables, table: usize, test: impl Fn(&[u64]) -> bool) -> Option<usize> {
    let rows: Vec<usize> = (0..t.count(table))
        .filter(|i| test(t.row(table, *i)))
        .collect();
    (!rows.is_empty()).then(|| *rng.pick(&rows))
}

fn set(rng: &mut Rng, t: &mut Tables, table: usize, place: usize, value: u64) -> Option<()> {
    let i = any(rng, t, table)?;
    t.row_mut(table, i)[place] = value;
    Some(())
}

/// A line's start and length words: some row of some table with a line of at least `least` points.
fn line(rng: &mut Rng, t: &Tables, least: u64) -> Option<(usize, usize, usize)> {
    let mut all = Vec::new();
    for (table, place) in [
        (BOUNDARIES, 2),
        (LANES, lane::START),
        (STOP_LINES, 1),
        (CROSSWALKS, 1),
        (CROSSWALKS, 3),
    ] {
        for i in 0..t.count(table) {
            let r = t.row(table, i);
            if r[place + 1] >= least && (table != LANES || r[lane::CENTRE] == 1) {
                all.push((table, i, place));
            }
        }
    }
    (!all.is_empty()).then(|| *rng.pick(&all))
}

/// An id that no lane has, below the counter.
fn absent_lane(t: &Tables, counter: u64) -> Option<u64> {
    (0..counter.min(5000)).find(|id| t.rows(LANES).all(|r| r[0] != *id))
}

fn past(counter: &u64) -> u64 {
    (*counter).max(1)
}

macro_rules! table_damages {
    ($($k:ident)+) => {
        [
            $(
                (concat!("no word in ", stringify!($k)), |_, t, _| {
                    t.words[$k].clear();
                    Some(())
                }),
                (concat!("count past the limit in ", stringify!($k)), |rng, t, _| {
                    let n = LIMIT[$k] as u64 + 1;
                    t.words[$k][0] = *rng.pick(&[n, u64::MAX, 1 << 63]);
                    Some(())
                }),
                (concat!("count past the lent length in ", stringify!($k)), |_, t, _| {
                    let rows = (t.words[$k].len() - 1) / ROW[$k];
                    (rows < LIMIT[$k]).then(|| t.words[$k][0] = rows as u64 + 1)
                }),
                (concat!("one id twice in ", stringify!($k)), |_, t, _| {
                    let n = t.count($k);
                    let rows = (t.words[$k].len() - 1) / ROW[$k];
                    if n == 0 || n >= rows || n >= LIMIT[$k] {
                        return None;
                    }
                    let row = t.row($k, n - 1).to_vec();
                    t.row_mut($k, n).copy_from_slice(&row);
                    t.words[$k][0] += 1;
                    Some(())
                }),
                (concat!("two rows changed about in ", stringify!($k)), |_, t, _| {
                    if t.count($k) < 2 {
                        return None;
                    }
                    let (a, b) = (t.row($k, 0).to_vec(), t.row($k, 1).to_vec());
                    t.row_mut($k, 0).copy_from_slice(&b);
                    t.row_mut($k, 1).copy_from_slice(&a);
                    Some(())
                }),
            )+
        ]
    };
}

const TABLES: [Damage; 35] =
    table_damages!(LANES BOUNDARIES ROADS JUNCTIONS RULES STOP_LINES CROSSWALKS);

const REST: [Damage; 66] = [
    ("lane kind", |r, t, _| set(r, t, LANES, lane::KIND, 8)),
    ("left reversed", |r, t, _| {
        set(r, t, LANES, lane::LEFT_REVERSED, 2)
    }),
    ("right reversed", |r, t, _| {
        set(r, t, LANES, lane::RIGHT_REVERSED, 2)
    }),
    ("centreline mark", |r, t, _| {
        set(r, t, LANES, lane::CENTRE, 2)
    }),
    ("speed mark", |r, t, _| set(r, t, LANES, lane::SPEED, 2)),
    ("one way", |r, t, _| set(r, t, LANES, lane::ONE_WAY, 2)),
    ("turn", |r, t, _| set(r, t, LANES, lane::TURN, 4)),
    ("lane attributes", |r, t, _| {
        set(r, t, LANES, lane::ATTRIBUTES, 1 << 16)
    }),
    ("left mark", |r, t, _| set(r, t, LANES, lane::LEFT_MARK, 3)),
    ("right mark", |r, t, _| {
        set(r, t, LANES, lane::RIGHT_MARK, u64::MAX)
    }),
    ("predecessor count", |r, t, _| {
        set(r, t, LANES, lane::PREDECESSORS, 17)
    }),
    ("successor count", |r, t, _| {
        set(r, t, LANES, lane::SUCCESSORS, u64::MAX)
    }),
    ("boundary kind", |r, t, _| set(r, t, BOUNDARIES, 1, 14)),
    ("boundary attributes", |r, t, _| {
        set(r, t, BOUNDARIES, 4, 1 << 16)
    }),
    ("road name", |r, t, _| set(r, t, ROADS, 1, 1 << 16)),
    ("road attributes", |r, t, _| set(r, t, ROADS, 2, 1 << 16)),
    ("road count", |r, t, _| set(r, t, ROADS, 3, 65)),
    ("junction name", |r, t, _| set(r, t, JUNCTIONS, 1, 1 << 16)),
    ("junction outline", |r, t, _| {
        set(r, t, JUNCTIONS, 2, 1 << 16)
    }),
    ("junction attributes", |r, t, _| {
        set(r, t, JUNCTIONS, 3, u64::MAX)
    }),
    ("junction count", |r, t, _| {
        set(r, t, JUNCTIONS, 4, u64::MAX)
    }),
    ("rule kind", |r, t, _| set(r, t, RULES, 1, 6)),
    ("rule data", |r, t, _| {
        let read = [kind::TRAFFIC_LIGHT, kind::TRAFFIC_SIGN, kind::OTHER];
        let i = which(r, t, RULES, |row| read.contains(&row[1]))?;
        t.row_mut(RULES, i)[rule::DATA] = 1 << 16;
        Some(())
    }),
    ("rule attributes", |r, t, _| {
        set(r, t, RULES, rule::ATTRIBUTES, 1 << 16)
    }),
    ("rule lanes count", |r, t, _| {
        set(r, t, RULES, rule::LANES, 65)
    }),
    ("rule controlled count", |r, t, _| {
        set(r, t, RULES, rule::CONTROLLED, 65)
    }),
    ("two stop lines of a light or sign", |r, t, _| {
        let i = which(r, t, RULES, |row| row[1] <= kind::TRAFFIC_SIGN)?;
        t.row_mut(RULES, i)[rule::STOP_LINES] = 2;
        Some(())
    }),
    ("no or two stop lines of a stop-line rule", |r, t, _| {
        let i = which(r, t, RULES, |row| row[1] == kind::STOP_LINE)?;
        t.row_mut(RULES, i)[rule::STOP_LINES] = *r.pick(&[0, 2]);
        Some(())
    }),
    ("65 stop lines", |r, t, _| {
        let read = [kind::RIGHT_OF_WAY, kind::CROSSWALK];
        let i = which(r, t, RULES, |row| read.contains(&row[1]))?;
        t.row_mut(RULES, i)[rule::STOP_LINES] = 65;
        Some(())
    }),
    ("priority count", |r, t, _| {
        let i = which(r, t, RULES, |row| row[1] == kind::RIGHT_OF_WAY)?;
        t.row_mut(RULES, i)[rule::PRIORITY] = 65;
        Some(())
    }),
    ("yielding count", |r, t, _| {
        let i = which(r, t, RULES, |row| row[1] == kind::RIGHT_OF_WAY)?;
        t.row_mut(RULES, i)[rule::YIELDING] = u64::MAX;
        Some(())
    }),
    ("stop line attributes", |r, t, _| {
        set(r, t, STOP_LINES, 3, 1 << 16)
    }),
    ("crosswalk outline", |r, t, _| {
        set(r, t, CROSSWALKS, 5, 1 << 16)
    }),
    ("crosswalk attributes", |r, t, _| {
        set(r, t, CROSSWALKS, 6, 1 << 16)
    }),
    ("a line of 257 points", |r, t, _| {
        let (table, i, place) = line(r, t, 1)?;
        t.row_mut(table, i)[place + 1] = 257;
        Some(())
    }),
    ("a line past the lent points", |r, t, _| {
        let (table, i, place) = line(r, t, 1)?;
        let points = (t.xyz.len() / 3) as u64;
        let row = t.row_mut(table, i);
        row[place] = points - row[place + 1] + 1;
        Some(())
    }),
    ("a line whose end passes 2^64", |r, t, _| {
        let (table, i, place) = line(r, t, 2)?;
        t.row_mut(table, i)[place] = u64::MAX - r.below(2) as u64;
        Some(())
    }),
    ("two lines over one point", |r, t, _| {
        let (table, i, place) = line(r, t, 1)?;
        let (other, j, at) = line(r, t, 1)?;
        if (table, i, place) == (other, j, at) {
            return None;
        }
        let start = t.row(other, j)[at];
        let row = t.row_mut(table, i);
        if start + row[place + 1] > (t.xyz.len() / 3) as u64 {
            return None;
        }
        t.row_mut(table, i)[place] = start;
        Some(())
    }),
    ("two lines that overlap by one point", |r, t, _| {
        let (table, i, place) = line(r, t, 1)?;
        let (other, j, at) = line(r, t, 1)?;
        let end = t.row(other, j)[at] + t.row(other, j)[at + 1];
        if (table, i, place) == (other, j, at) {
            return None;
        }
        let length = t.row(table, i)[place + 1];
        if end - 1 + length > (t.xyz.len() / 3) as u64 {
            return None;
        }
        t.row_mut(table, i)[place] = end - 1;
        Some(())
    }),
    ("a coordinate that is NaN", |r, t, _| {
        coordinate(r, t, f64::from_bits(0x7FF8 << 48))
    }),
    ("a coordinate that is infinite", |r, t, _| {
        coordinate(r, t, f64::NEG_INFINITY)
    }),
    ("a coordinate just past 2^24", |r, t, _| {
        coordinate(r, t, sound::EDGE.next_up())
    }),
    ("a coordinate just past -2^24", |r, t, _| {
        coordinate(r, t, (-sound::EDGE).next_down())
    }),
    ("a lane not below the counter", |r, t, c| {
        let i = any(r, t, LANES)?;
        *c = t.row(LANES, i)[0];
        Some(())
    }),
    ("a boundary not below the counter", |r, t, c| {
        let i = any(r, t, BOUNDARIES)?;
        *c = t.row(BOUNDARIES, i)[0];
        Some(())
    }),
    ("an absent boundary not below the counter", |r, t, c| {
        let place = *r.pick(&[lane::LEFT, lane::RIGHT]);
        set(r, t, LANES, place, past(c))
    }),
    ("a road not below the counter", |_, t, c| {
        last(t, ROADS, past(c))
    }),
    ("a junction not below the counter", |_, t, c| {
        last(t, JUNCTIONS, past(c))
    }),
    ("a rule not below the counter", |_, t, c| {
        last(t, RULES, past(c))
    }),
    ("a stop line not below the counter", |_, t, c| {
        last(t, STOP_LINES, past(c))
    }),
    ("a crosswalk not below the counter", |_, t, c| {
        last(t, CROSSWALKS, past(c))
    }),
    ("a road's absent lane not below the counter", |r, t, c| {
        listed(r, t, ROADS, 3, past(c), |_| true)
    }),
    (
        "a junction's absent lane not below the counter",
        |r, t, c| listed(r, t, JUNCTIONS, 4, past(c), |_| true),
    ),
    ("an id in a rule's list not below the counter", |r, t, c| {
        let place = *r.pick(&[
            rule::LANES,
            rule::CONTROLLED,
            rule::STOP_LINES,
            rule::PRIORITY,
            rule::YIELDING,
        ]);
        listed(r, t, RULES, place, past(c), |row| match place {
            rule::STOP_LINES => row[1] != kind::OTHER,
            rule::PRIORITY | rule::YIELDING => row[1] == kind::RIGHT_OF_WAY,
            _ => true,
        })
    }),
    ("a rule's crosswalk not below the counter", |r, t, c| {
        let i = which(r, t, RULES, |row| row[1] == kind::CROSSWALK)?;
        t.row_mut(RULES, i)[rule::CROSSWALK] = past(c);
        Some(())
    }),
    ("a lane twice in a road", |r, t, _| repeated(r, t, ROADS, 3, |_| true)),
    ("a lane twice in a junction", |r, t, _| {
        repeated(r, t, JUNCTIONS, 4, |_| true)
    }),
    ("a lane twice among a rule's lanes", |r, t, _| {
        repeated(r, t, RULES, rule::LANES, |_| true)
    }),
    ("a lane twice in priority", |r, t, _| {
        repeated(r, t, RULES, rule::PRIORITY, |row| row[1] == kind::RIGHT_OF_WAY)
    }),
    ("a lane twice in yielding", |r, t, _| {
        repeated(r, t, RULES, rule::YIELDING, |row| row[1] == kind::RIGHT_OF_WAY)
    }),
    ("an absent lane twice in a road", |r, t, c| {
        let id = absent_lane(t, *c)?;
        let i = which(r, t, ROADS, |row| row[3] > 1)?;
        let row = t.row_mut(ROADS, i);
        let (first, last) = (4, 3 + row[3] as usize);
        (row[first], row[last]) = (id, id);
        Some(())
    }),
    ("links that do not ascend", |r, t, _| {
        let place = *r.pick(&[lane::PREDECESSORS, lane::SUCCESSORS]);
        let i = which(r, t, LANES, |row| row[place] > 0)?;
        let row = t.row_mut(LANES, i);
        let n = row[place] as usize;
        if n == 1 || r.chance(50) {
            // The last one twice.
            if n == LINKS {
                return None;
            }
            row[place] += 1;
            row[place + n + 1] = row[place + n];
        } else {
            row.swap(place + 1, place + 2);
        }
        Some(())
    }),
    ("a link to an absent lane", |r, t, c| {
        let id = absent_lane(t, *c)?;
        let place = *r.pick(&[lane::PREDECESSORS, lane::SUCCESSORS]);
        let i = which(r, t, LANES, |row| row[place] == 0)?;
        let row = t.row_mut(LANES, i);
        row[place] = 1;
        row[place + 1] = id;
        Some(())
    }),
    ("a link one way only", |r, t, _| {
        let place = *r.pick(&[lane::PREDECESSORS, lane::SUCCESSORS]);
        let i = which(r, t, LANES, |row| row[place] > 0)?;
        t.row_mut(LANES, i)[place] -= 1;
        Some(())
    }),
    ("an absent neighbour", |r, t, c| {
        let id = absent_lane(t, *c)?;
        let place = *r.pick(&[lane::LEFT_MARK, lane::RIGHT_MARK]);
        let i = any(r, t, LANES)?;
        let row = t.row_mut(LANES, i);
        row[place] = r.within(1, 2) as u64;
        row[place + 1] = id;
        Some(())
    }),
    ("a neighbour that does not name the lane back", |r, t, _| {
        let place = *r.pick(&[lane::LEFT_MARK, lane::RIGHT_MARK]);
        let i = which(r, t, LANES, |row| row[place] > 0)?;
        let row = t.row_mut(LANES, i);
        match r.below(3) {
            0 => row[place] = 0,
            1 => row[place] = 3 - row[place],
            _ => {
                // In the other slot.
                let other = lane::LEFT_MARK + lane::RIGHT_MARK - place;
                if row[other] != 0 {
                    return None;
                }
                row[other] = row[place];
                row[other + 1] = row[place + 1];
                row[place] = 0;
            }
        }
        Some(())
    }),
];

fn coordinate(rng: &mut Rng, t: &mut Tables, value: f64) -> Option<()> {
    let (table, i, place) = line(rng, t, 1)?;
    let r = t.row(table, i);
    let (start, length) = (r[place] as usize, r[place + 1] as usize);
    t.xyz[3 * start + rng.below(3 * length)] = value;
    Some(())
}

/// The last row's id.
fn last(t: &mut Tables, table: usize, id: u64) -> Option<()> {
    let n = t.count(table);
    (n > 0).then(|| t.row_mut(table, n - 1)[0] = id)
}

/// An id in a list that is not empty.
fn listed(
    rng: &mut Rng,
    t: &mut Tables,
    table: usize,
    place: usize,
    id: u64,
    test: impl Fn(&[u64]) -> bool,
) -> Option<()> {
    let i = which(rng, t, table, |r| test(r) && r[place] > 0)?;
    let row = t.row_mut(table, i);
    row[place + 1 + rng.below(row[place] as usize)] = id;
    Some(())
}

/// One lane more in a list that is not empty, which stands there already: beside it or apart from it; in a full list it takes another's place.
fn repeated(rng: &mut Rng, t: &mut Tables, table: usize, place: usize, test: impl Fn(&[u64]) -> bool) -> Option<()> {
    let i = which(rng, t, table, |r| test(r) && r[place] > 0)?;
    let row = t.row_mut(table, i);
    let n = row[place] as usize;
    let id = row[place + 1 + rng.below(n)];
    let at = place + 1 + rng.below(n);
    if n < IDS {
        row.copy_within(at..place + 1 + n, at + 1);
        row[place] += 1;
    }
    row[at] = id;
    Some(())
}

pub fn ways() -> usize {
    TABLES.len() + REST.len()
}

/// Breaks a clause in the given way, if the map has what it takes.
pub fn apply(way: usize, rng: &mut Rng, t: &mut Tables, counter: &mut u64) -> bool {
    let way = way % ways();
    let (_, damage) = if way < TABLES.len() {
        TABLES[way]
    } else {
        REST[way - TABLES.len()]
    };
    let (mut broken, mut c) = (t.clone(), *counter);
    if damage(rng, &mut broken, &mut c).is_none() {
        return false;
    }
    // Some ways can meet a map that bears them, as an id of 0 with the counter put to it.
    if sound::fault(&broken, c).is_none() {
        return false;
    }
    (*t, *counter) = (broken, c);
    true
}
