//! The ten cases of document 01.

use vectormap_core::*;

use crate::step::{Answer, Call, Entity, Room, State};
use crate::tables::*;

/// Tables that hold the map, with the given rows and points to spare.
pub fn plain(m: &Map, spare: usize, points: usize) -> Tables {
    filled(m, spare, points, 0)
}

/// The same with a word, and the float of its bits, wherever nothing is used.
pub fn filled(m: &Map, spare: usize, points: usize, fill: u64) -> Tables {
    let used: usize = lines(m).iter().map(|l| l.len()).sum();
    let rows = |k: usize| (counts(m)[k] + spare).min(LIMIT[k]);
    let mut t = Tables {
        words: std::array::from_fn(|k| vec![fill; 1 + rows(k) * ROW[k]]),
        xyz: vec![f64::from_bits(fill); 3 * (used + points)],
    };
    let mut at = 0;
    let mut places = Vec::new();
    for l in lines(m) {
        write_line(&mut t.xyz, at, l);
        places.push(Some((at, l.len())));
        at += l.len();
    }
    write_rows(&mut t, m, places.into_iter());
    t
}

const N: [u64; 6] = [0, 1001, 1002, 1003, 1004, 1005];

fn boundary(m: &mut Map, id: u64, points: &[[f64; 2]]) {
    m.insert_boundary(Boundary::new(
        BoundaryId(id),
        BoundaryKind::SOLID,
        Polyline3::from_xy(points),
    ))
    .expect("a new id");
}

fn lane(m: &mut Map, id: u64, left: u64, right: u64) {
    m.insert_lane(Lane::new(LaneId(id), BoundaryId(left), BoundaryId(right)))
        .expect("a new id");
}

/// Lane 1 of document 01.
fn one() -> Map {
    let mut m = Map::new();
    boundary(&mut m, 101, &[[0.0, 2.0], [10.0, 2.0]]);
    boundary(&mut m, 102, &[[0.0, -2.0], [10.0, -2.0]]);
    lane(&mut m, 1, 101, 102);
    m
}

/// The map of case 5: lane 2 right of lane 1, same direction.
fn two() -> Map {
    let mut m = one();
    boundary(&mut m, 103, &[[0.0, -6.0], [10.0, -6.0]]);
    lane(&mut m, 2, 102, 103);
    m.set_neighbor(LaneId(1), Side::Right, Some(Neighbor::same(LaneId(2))))
        .expect("two lanes");
    m
}

fn state(m: &Map) -> State {
    State::new(plain(m, 16, 256), N[1])
}

fn split(at: SplitAt, neighbors: bool) -> Call {
    Call::SplitLane {
        lane: 1,
        at,
        neighbors,
    }
}

fn line(s: &State, id: u64) -> Vec<[f64; 3]> {
    let b = s.map.as_ref().expect("sound").boundary(BoundaryId(id));
    b.expect("present")
        .geometry
        .points
        .iter()
        .map(|p| [p.x, p.y, p.z])
        .collect()
}

fn links(s: &State, id: u64) -> Vec<u64> {
    let m = s.map.as_ref().expect("sound");
    m.successors(LaneId(id)).iter().map(|l| l.0).collect()
}

const LANE: u64 = 0;
const BOUNDARY: u64 = 1;

fn lists(a: &Answer) -> Option<(&[Entity], &[Entity], &[Entity])> {
    match a {
        Answer::Changed {
            created,
            modified,
            deleted,
            ..
        } => Some((created, modified, deleted)),
        _ => None,
    }
}

/// Code and entity of each warning.
fn warned(a: &Answer) -> Vec<(u64, Entity)> {
    match a {
        Answer::Changed { warnings, .. } => warnings.iter().map(|w| (w[1], (w[2], w[3]))).collect(),
        _ => vec![],
    }
}

fn number(a: &Answer) -> u64 {
    match a {
        Answer::Refused { number, .. } => *number,
        _ => 0,
    }
}

const NO_OP: u64 = 1;
const GEOMETRIC_GAP: u64 = 2;
const BOUNDARY_UNSHARED: u64 = 3;
const NEIGHBOR_DROPPED: u64 = 4;

fn case(n: usize) -> bool {
    let room = &Room::AMPLE;
    let half = SplitAt::Fraction(0.5);
    match n {
        1 => {
            let mut s = state(&one());
            let a = s.step(&split(half, true), room);
            lists(&a)
                == Some((
                    &[(LANE, N[3]), (BOUNDARY, N[1]), (BOUNDARY, N[2])],
                    &[(LANE, 1), (BOUNDARY, 101), (BOUNDARY, 102)],
                    &[],
                ))
                && line(&s, 101) == [[0.0, 2.0, 0.0], [5.0, 2.0, 0.0]]
                && line(&s, 102) == [[0.0, -2.0, 0.0], [5.0, -2.0, 0.0]]
                && links(&s, 1) == [N[3]]
                && s.counter == N[4]
                && s.check().is_ok()
        }
        2 => {
            let mut s = state(&one());
            s.step(&split(half, true), room);
            let merge = Call::MergeLanes {
                first: 1,
                second: N[3],
            };
            let a = s.step(&merge, room);
            line(&s, 101) == [[0.0, 2.0, 0.0], [5.0, 2.0, 0.0], [10.0, 2.0, 0.0]]
                && lists(&a)
                    .is_some_and(|l| l.2 == [(LANE, N[3]), (BOUNDARY, N[1]), (BOUNDARY, N[2])])
                && s.check().is_ok()
        }
        3 => {
            let at = |x| number(&state(&one()).step(&split(SplitAt::Station(x), true), room));
            at(0.1) == 3 && at(9.9) == 3 && at(9.8) == 0
        }
        4 => [0.0, 1.0, f64::NAN]
            .into_iter()
            .all(|f| number(&state(&one()).step(&split(SplitAt::Fraction(f), true), room)) == 2),
        5 => {
            let mut s = state(&two());
            let a = s.step(&split(half, false), room);
            lists(&a)
                == Some((
                    &[
                        (LANE, N[4]),
                        (BOUNDARY, N[1]),
                        (BOUNDARY, N[2]),
                        (BOUNDARY, N[3]),
                    ],
                    &[(LANE, 1), (BOUNDARY, 101)],
                    &[],
                ))
                && warned(&a)
                    == [
                        (BOUNDARY_UNSHARED, (BOUNDARY, 102)),
                        (NEIGHBOR_DROPPED, (LANE, N[4])),
                    ]
                && s.check().is_ok()
        }
        6 => {
            let a = state(&two()).step(&Call::RemoveLane { lane: 2 }, room);
            lists(&a) == Some((&[], &[(LANE, 1)], &[(LANE, 2), (BOUNDARY, 103)]))
        }
        7 => {
            let mut s = state(&one());
            let connect = Call::Connect { from: 1, to: 1 };
            let disconnect = Call::Disconnect { from: 1, to: 1 };
            number(&s.step(&connect, room)) == 4
                && warned(&s.step(&disconnect, room)) == [(NO_OP, (LANE, 1))]
        }
        8 => {
            let mut s = state(&two());
            for (from, to) in [(1, 2), (2, 1)] {
                s.step(&Call::Connect { from, to }, room);
            }
            let merge = Call::MergeLanes {
                first: 1,
                second: 2,
            };
            number(&s.step(&merge, room)) == 0 && links(&s, 1) == [1] && s.check().is_ok()
        }
        9 => {
            // A lane that ends at 0 along, another that starts at 0.1 along.
            let mut m = Map::new();
            boundary(&mut m, 101, &[[-10.0, 2.0], [0.0, 2.0]]);
            boundary(&mut m, 102, &[[-10.0, -2.0], [0.0, -2.0]]);
            boundary(&mut m, 103, &[[0.1, 2.0], [10.0, 2.0]]);
            boundary(&mut m, 104, &[[0.1, -2.0], [10.0, -2.0]]);
            lane(&mut m, 1, 101, 102);
            lane(&mut m, 2, 103, 104);
            let connect = Call::Connect { from: 1, to: 2 };
            let touching = warned(&state(&m).step(&connect, room));
            boundary(&mut m, 105, &[[0.2, 2.0], [10.0, 2.0]]);
            lane(&mut m, 3, 105, 104);
            let apart = warned(&state(&m).step(&Call::Connect { from: 1, to: 3 }, room));
            touching.is_empty() && apart == [(GEOMETRIC_GAP, (LANE, 1))]
        }
        _ => {
            let mut m = one();
            m.insert_stop_line(StopLine {
                id: StopLineId(201),
                geometry: Polyline3::from_xy(&[[8.0, 2.0], [8.0, -2.0]]),
                attributes: Attributes(0),
            })
            .expect("a new id");
            m.insert_regulatory_element(RegulatoryElement {
                id: RegulatoryElementId(301),
                rule: Rule::StopLine {
                    stop_line: StopLineId(201),
                },
                lanes: vec![LaneId(1)],
                controlled_crosswalks: vec![],
                attributes: Attributes(0),
            })
            .expect("a new id");
            let mut s = state(&m);
            s.step(&split(SplitAt::Station(5.0), true), room);
            let m = s.map.as_ref().expect("sound");
            let rule = m.regulatory_element(RegulatoryElementId(301));
            rule.expect("present").lanes == [LaneId(N[3])] && s.check().is_ok()
        }
    }
}

pub fn run() -> bool {
    let mut all = true;
    for n in 1..=10 {
        let pass = case(n);
        all &= pass;
        println!("case {n}: {}", if pass { "pass" } else { "fail" });
    }
    all
}
