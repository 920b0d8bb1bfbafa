//! When a map is sound (document 01, "The map"), on the lent tables and on the Rust's own map.

use vectormap_core::{LaneId, LaneLinks, Map, Neighbor, Rule, Side, reciprocal_side};

use crate::tables::*;

pub const EDGE: f64 = 16_777_216.0;

/// The clause that fails, if one does.
pub type Fault = Option<&'static str>;

macro_rules! clause {
    ($holds:expr, $name:literal) => {
        if !$holds {
            return Some($name);
        }
    };
}

/// The stop lines that the rule's kind has: how many at least and at most.
fn stop_line_count(kind: u64) -> Option<(u64, u64)> {
    match kind {
        kind::TRAFFIC_LIGHT | kind::TRAFFIC_SIGN => Some((0, 1)),
        kind::STOP_LINE => Some((1, 1)),
        kind::RIGHT_OF_WAY | kind::CROSSWALK => Some((0, IDS as u64)),
        _ => None,
    }
}

/// The number that the library gives a clause (crates/row_faults); 0 is none.
pub fn number(fault: Fault) -> u64 {
    match fault {
        None => 0,
        Some(name) => match name {
            "a table without a count" | "a count past its limit" | "a count past the lent length" => 1,
            "a lane's mark" | "a neighbour's mark" | "a link list's count" | "a list's count" => 2,
            "a lane's kind" | "a lane's turn" | "a boundary's kind" | "a rule's kind" => 3,
            "a handle" | "a rule's stop lines" => 3,
            "ids that do not ascend" => 4,
            "an id not below the counter" | "a named id not below the counter" => 5,
            "links that do not ascend" => 6,
            "a line past what is stored" | "a line of more than 256 points" => 7,
            "a coordinate out of range" => 7,
            "a point in two lines" => 8,
            "a link to an absent lane" | "a link one way only" => 9,
            "an absent neighbour" | "a neighbour that does not name the lane back" => 10,
            "a lane twice in a list" => 11,
            other => unreachable!("{other}"),
        },
    }
}

pub fn fault(t: &Tables, counter: u64) -> Fault {
    for k in 0..7 {
        clause!(!t.words[k].is_empty(), "a table without a count");
        let n = t.words[k][0];
        clause!(n <= LIMIT[k] as u64, "a count past its limit");
        clause!(
            1 + n as usize * ROW[k] <= t.words[k].len(),
            "a count past the lent length"
        );
    }
    for k in 0..7 {
        let ids: Vec<u64> = t.rows(k).map(|r| r[0]).collect();
        clause!(ids.is_sorted_by(|a, b| a < b), "ids that do not ascend");
    }

    // Kinds, marks, handles and the counts of lists.
    for r in t.rows(LANES) {
        clause!(r[lane::KIND] < 8, "a lane's kind");
        for mark in [
            lane::LEFT_REVERSED,
            lane::RIGHT_REVERSED,
            lane::CENTRE,
            lane::SPEED,
            lane::ONE_WAY,
        ] {
            clause!(r[mark] < 2, "a lane's mark");
        }
        clause!(r[lane::TURN] < 4, "a lane's turn");
        clause!(r[lane::ATTRIBUTES] < 1 << 16, "a handle");
        clause!(
            r[lane::LEFT_MARK] < 3 && r[lane::RIGHT_MARK] < 3,
            "a neighbour's mark"
        );
        clause!(
            r[lane::PREDECESSORS] <= LINKS as u64 && r[lane::SUCCESSORS] <= LINKS as u64,
            "a link list's count"
        );
    }
    for r in t.rows(BOUNDARIES) {
        clause!(r[1] < 14, "a boundary's kind");
        clause!(r[4] < 1 << 16, "a handle");
    }
    for r in t.rows(ROADS) {
        clause!(r[1].max(r[2]) < 1 << 16, "a handle");
        clause!(r[3] <= IDS as u64, "a list's count");
    }
    for r in t.rows(JUNCTIONS) {
        clause!(r[1].max(r[2]).max(r[3]) < 1 << 16, "a handle");
        clause!(r[4] <= IDS as u64, "a list's count");
    }
    for r in t.rows(RULES) {
        clause!(r[1] < 6, "a rule's kind");
        clause!(r[rule::ATTRIBUTES] < 1 << 16, "a handle");
        if matches!(r[1], kind::TRAFFIC_LIGHT | kind::TRAFFIC_SIGN | kind::OTHER) {
            clause!(r[rule::DATA] < 1 << 16, "a handle");
        }
        clause!(
            r[rule::LANES].max(r[rule::CONTROLLED]) <= IDS as u64,
            "a list's count"
        );
        if let Some((least, most)) = stop_line_count(r[1]) {
            clause!(
                least <= r[rule::STOP_LINES] && r[rule::STOP_LINES] <= most,
                "a rule's stop lines"
            );
        }
        if r[1] == kind::RIGHT_OF_WAY {
            clause!(
                r[rule::PRIORITY].max(r[rule::YIELDING]) <= IDS as u64,
                "a list's count"
            );
        }
    }
    for r in t.rows(STOP_LINES) {
        clause!(r[3] < 1 << 16, "a handle");
    }
    for r in t.rows(CROSSWALKS) {
        clause!(r[5].max(r[6]) < 1 << 16, "a handle");
    }

    // Lines: within what is stored, none on another's points, coordinates in range.
    let points = (t.xyz.len() / 3).min(POINTS) as u64;
    let mut spans: Vec<(u64, u64)> = Vec::new();
    spans.extend(t.rows(BOUNDARIES).map(|r| (r[2], r[3])));
    spans.extend(
        t.rows(LANES)
            .filter(|r| r[lane::CENTRE] == 1)
            .map(|r| (r[lane::START], r[lane::LENGTH])),
    );
    spans.extend(t.rows(STOP_LINES).map(|r| (r[1], r[2])));
    spans.extend(
        t.rows(CROSSWALKS)
            .flat_map(|r| [(r[1], r[2]), (r[3], r[4])]),
    );
    spans.retain(|s| s.1 > 0);
    for &(start, length) in &spans {
        clause!(length <= LINE as u64, "a line of more than 256 points");
        clause!(
            start <= points && length <= points - start,
            "a line past what is stored"
        );
    }
    spans.sort();
    clause!(
        spans.windows(2).all(|w| w[0].0 + w[0].1 <= w[1].0),
        "a point in two lines"
    );
    for &(start, length) in &spans {
        clause!(
            t.xyz[3 * start as usize..3 * (start + length) as usize]
                .iter()
                .all(|x| x.abs() <= EDGE),
            "a coordinate out of range"
        );
    }

    // Ids below the counter. At 2^64 - 1 nothing is left to allocate.
    if counter != u64::MAX {
        let next = counter.max(1);
        for k in 0..7 {
            clause!(
                t.rows(k).all(|r| r[0] < next),
                "an id not below the counter"
            );
        }
        let below = |words: &[u64]| words[1..1 + words[0] as usize].iter().all(|w| *w < next);
        for r in t.rows(LANES) {
            clause!(
                r[lane::LEFT].max(r[lane::RIGHT]) < next,
                "a named id not below the counter"
            );
        }
        for r in t.rows(ROADS) {
            clause!(below(&r[3..]), "a named id not below the counter");
        }
        for r in t.rows(JUNCTIONS) {
            clause!(below(&r[4..]), "a named id not below the counter");
        }
        for r in t.rows(RULES) {
            clause!(
                below(&r[rule::LANES..])
                    && below(&r[rule::CONTROLLED..])
                    && (r[1] == kind::OTHER || below(&r[rule::STOP_LINES..]))
                    && (r[1] != kind::RIGHT_OF_WAY
                        || below(&r[rule::PRIORITY..]) && below(&r[rule::YIELDING..]))
                    && (r[1] != kind::CROSSWALK || r[rule::CROSSWALK] < next),
                "a named id not below the counter"
            );
        }
    }

    // No lane stands twice in a list.
    let once = |words: &[u64]| {
        let mut ids = words[1..1 + words[0] as usize].to_vec();
        ids.sort_unstable();
        ids.windows(2).all(|w| w[0] != w[1])
    };
    clause!(
        t.rows(ROADS).all(|r| once(&r[3..]))
            && t.rows(JUNCTIONS).all(|r| once(&r[4..]))
            && t.rows(RULES).all(|r| {
                once(&r[rule::LANES..]) && (r[1] != kind::RIGHT_OF_WAY || once(&r[rule::PRIORITY..]) && once(&r[rule::YIELDING..]))
            }),
        "a lane twice in a list"
    );

    // Links and neighbours.
    let ids: Vec<u64> = t.rows(LANES).map(|r| r[lane::ID]).collect();
    let find = |id: u64| ids.binary_search(&id).ok().map(|i| t.row(LANES, i));
    fn links(r: &[u64], at: usize) -> &[u64] {
        &r[at + 1..at + 1 + r[at] as usize]
    }
    for r in t.rows(LANES) {
        for (here, there) in [
            (lane::PREDECESSORS, lane::SUCCESSORS),
            (lane::SUCCESSORS, lane::PREDECESSORS),
        ] {
            let list = links(r, here);
            clause!(list.is_sorted_by(|a, b| a < b), "links that do not ascend");
            for &id in list {
                let Some(other) = find(id) else {
                    return Some("a link to an absent lane");
                };
                clause!(links(other, there).contains(&r[0]), "a link one way only");
            }
        }
        for side in [lane::LEFT_MARK, lane::RIGHT_MARK] {
            let (mark, id) = (r[side], r[side + 1]);
            if mark == 0 {
                continue;
            }
            let Some(other) = find(id) else {
                return Some("an absent neighbour");
            };
            let there = match mark {
                1 => lane::LEFT_MARK + lane::RIGHT_MARK - side,
                _ => side,
            };
            clause!(
                other[there] == mark && other[there + 1] == r[0],
                "a neighbour that does not name the lane back"
            );
        }
    }
    None
}

/// No lane stands twice in a list: of lanes that ascend none does, others are sorted first.
fn once(lanes: &[LaneId]) -> bool {
    if lanes.is_sorted_by(|a, b| a < b) {
        return true;
    }
    let mut ids = lanes.to_vec();
    ids.sort_unstable();
    ids.windows(2).all(|w| w[0] != w[1])
}

/// The same test on the Rust's own map, as far as that can be unsound: for timing. `repeats` says whether it looks for lanes that stand twice.
pub fn map_sound(m: &Map, counter: u64, repeats: bool) -> bool {
    let once = |lanes: &[LaneId]| !repeats || once(lanes);
    let next = match counter {
        u64::MAX => u128::MAX,
        c => c.max(1) as u128,
    };
    let below = |id: u64| (id as u128) < next;
    let line = |l: &vectormap_core::Polyline3| {
        l.len() <= LINE
            && l.points
                .iter()
                .all(|p| p.x.abs() <= EDGE && p.y.abs() <= EDGE && p.z.abs() <= EDGE)
    };
    let all = lines(m);
    // One walk over the lanes and one over their links, for quick look-ups.
    let ids: Vec<u64> = m.lanes().map(|l| l.id.0).collect();
    let links: Vec<(u64, &LaneLinks)> = m.topology().iter().map(|(id, l)| (id.0, l)).collect();
    let of = |id: u64| {
        links
            .binary_search_by_key(&id, |l| l.0)
            .ok()
            .map(|i| links[i].1)
    };
    counts(m).iter().zip(&LIMIT).all(|(n, most)| n <= most)
        && all.iter().map(|l| l.len()).sum::<usize>() <= POINTS
        && all.iter().all(|l| line(l))
        && m.boundaries()
            .all(|b| below(b.id.0) && b.attributes.0 < 1 << 16)
        && m.stop_lines().all(|s| below(s.id.0))
        && m.crosswalks().all(|c| below(c.id.0))
        && m.roads()
            .all(|r| below(r.id.0) && r.lanes.len() <= IDS && r.lanes.iter().all(|l| below(l.0)) && once(&r.lanes))
        && m.junctions()
            .all(|j| below(j.id.0) && j.lanes.len() <= IDS && j.lanes.iter().all(|l| below(l.0)) && once(&j.lanes))
        && m.regulatory_elements().all(|r| {
            below(r.id.0)
                && r.lanes.len() <= IDS
                && r.lanes.iter().all(|l| below(l.0))
                && once(&r.lanes)
                && r.rule.stop_lines().iter().all(|s| below(s.0))
                && r.rule.crosswalk().is_none_or(|c| below(c.0))
                && match &r.rule {
                    Rule::RightOfWay {
                        priority, yielding, ..
                    } => {
                        priority.len().max(yielding.len()) <= IDS
                            && priority.iter().chain(yielding).all(|l| below(l.0))
                            && once(priority)
                            && once(yielding)
                    }
                    _ => true,
                }
        })
        && m.lanes().all(|l| {
            below(l.id.0)
                && below(l.left.boundary.0)
                && below(l.right.boundary.0)
                && l.attributes.0 < 1 << 16
        })
        && links.iter().all(|&(id, l)| {
            let (p, s) = (&l.predecessors, &l.successors);
            let this = LaneId(id);
            ids.binary_search(&id).is_ok()
                && p.len().max(s.len()) <= LINKS
                && p.is_sorted_by(|a, b| a < b)
                && s.is_sorted_by(|a, b| a < b)
                && p.iter()
                    .all(|x| of(x.0).is_some_and(|o| o.successors.contains(&this)))
                && s.iter()
                    .all(|x| of(x.0).is_some_and(|o| o.predecessors.contains(&this)))
                && [Side::Left, Side::Right].into_iter().all(|side| {
                    l.neighbor(side).is_none_or(|n| {
                        let back = Neighbor {
                            lane: this,
                            direction: n.direction,
                        };
                        let there = reciprocal_side(side, n.direction);
                        of(n.lane.0).is_some_and(|o| o.neighbor(there) == Some(back))
                    })
                })
        })
}
