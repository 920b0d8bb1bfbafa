//! One call: what the Rust makes of it, under the rules of document 01.

use std::panic::{AssertUnwindSafe, catch_unwind, set_hook, take_hook};
use std::sync::Once;
use std::sync::atomic::{AtomicBool, Ordering};

use vectormap_core::*;

use crate::rng::Rng;
use crate::sound;
use crate::tables::*;

#[derive(Clone, Copy, Debug)]
pub enum Call {
    Connect {
        from: u64,
        to: u64,
    },
    Disconnect {
        from: u64,
        to: u64,
    },
    SetNeighbor {
        lane: u64,
        side: Side,
        neighbor: Option<Neighbor>,
    },
    RemoveLane {
        lane: u64,
    },
    MergeLanes {
        first: u64,
        second: u64,
    },
    SplitLane {
        lane: u64,
        at: SplitAt,
        neighbors: bool,
    },
}

pub const COMMANDS: [&str; 6] = [
    "connect",
    "disconnect",
    "set_neighbor",
    "remove_lane",
    "merge_lanes",
    "split_lane",
];

impl Call {
    /// The place of its name in `COMMANDS`.
    pub fn command(&self) -> usize {
        match self {
            Call::Connect { .. } => 0,
            Call::Disconnect { .. } => 1,
            Call::SetNeighbor { .. } => 2,
            Call::RemoveLane { .. } => 3,
            Call::MergeLanes { .. } => 4,
            Call::SplitLane { .. } => 5,
        }
    }

    /// The command's row of words (crates/words): its number and up to four more.
    pub fn row(&self) -> [u64; 5] {
        match *self {
            Call::SplitLane {
                lane,
                at,
                neighbors,
            } => {
                let (kind, x) = match at {
                    SplitAt::Fraction(x) => (0, x),
                    SplitAt::Station(x) => (1, x),
                };
                [0, lane, kind, x.to_bits(), neighbors as u64]
            }
            Call::MergeLanes { first, second } => [1, first, second, 0, 0],
            Call::Connect { from, to } => [2, from, to, 0, 0],
            Call::Disconnect { from, to } => [3, from, to, 0, 0],
            Call::SetNeighbor {
                lane,
                side,
                neighbor,
            } => {
                let (mark, other) = match neighbor {
                    None => (0, 0),
                    Some(n) if n.direction == NeighborDirection::Same => (1, n.lane.0),
                    Some(n) => (2, n.lane.0),
                };
                [4, lane, (side == Side::Right) as u64, mark, other]
            }
            Call::RemoveLane { lane } => [5, lane, 0, 0, 0],
        }
    }

    /// The call that a row of words is, of any length: a word that is missing is 0.
    pub fn read(row: &[u64]) -> Call {
        Call::of(std::array::from_fn(|i| row.get(i).copied().unwrap_or(0)))
    }

    /// Another row that is the same call: numbers that mean the same, rubbish in words that are not
    /// read, zeros left out at the end, words that follow.
    pub fn spelled(&self, rng: &mut Rng) -> Vec<u64> {
        let mut row = self.row();
        let large = |rng: &mut Rng, least: u64| match rng.below(3) {
            0 => least,
            1 => least + 1 + rng.below(9) as u64,
            _ => u64::MAX - rng.below(3) as u64,
        };
        let unread = match self {
            Call::SplitLane { at, neighbors, .. } => {
                if matches!(at, SplitAt::Station(_)) {
                    row[2] = large(rng, 1);
                }
                if *neighbors {
                    row[4] = large(rng, 1);
                }
                5
            }
            Call::SetNeighbor { side, neighbor, .. } => {
                if *side == Side::Right {
                    row[2] = large(rng, 1);
                }
                match neighbor {
                    Some(n) if n.direction == NeighborDirection::Same => 5,
                    Some(_) => {
                        row[3] = large(rng, 2);
                        5
                    }
                    None => 4,
                }
            }
            Call::RemoveLane { .. } => {
                row[0] = large(rng, 5);
                2
            }
            _ => 3,
        };
        row[unread..]
            .iter_mut()
            .for_each(|w| *w = rng.below(4) as u64);
        let mut row = row.to_vec();
        if rng.chance(50) {
            while row.last() == Some(&0) {
                row.pop();
            }
        } else {
            (0..rng.below(3)).for_each(|_| row.push(rng.word()));
        }
        debug_assert_eq!(Call::read(&row).row(), self.row());
        row
    }

    /// The call that a row of words is.
    pub fn of(row: [u64; 5]) -> Call {
        let [command, lane, b, c, d] = row;
        match command {
            0 => Call::SplitLane {
                lane,
                at: match b {
                    0 => SplitAt::Fraction(f64::from_bits(c)),
                    _ => SplitAt::Station(f64::from_bits(c)),
                },
                neighbors: d != 0,
            },
            1 => Call::MergeLanes {
                first: lane,
                second: b,
            },
            2 => Call::Connect { from: lane, to: b },
            3 => Call::Disconnect { from: lane, to: b },
            4 => Call::SetNeighbor {
                lane,
                side: match b {
                    0 => Side::Left,
                    _ => Side::Right,
                },
                neighbor: match c {
                    0 => None,
                    1 => Some(Neighbor::same(LaneId(d))),
                    _ => Some(Neighbor::opposite(LaneId(d))),
                },
            },
            _ => Call::RemoveLane { lane },
        }
    }

    /// Split and merge lay all lines out anew; the others leave them where they are.
    fn lays_out(&self) -> bool {
        matches!(self, Call::MergeLanes { .. } | Call::SplitLane { .. })
    }
}

/// What is lent for the lists: pairs (two words each) and warnings (ten words each).
#[derive(Clone, Copy, Debug)]
pub struct Room {
    pub created: usize,
    pub modified: usize,
    pub deleted: usize,
    pub warnings: usize,
}

impl Room {
    pub const AMPLE: Room = Room {
        created: usize::MAX,
        modified: usize::MAX,
        deleted: usize::MAX,
        warnings: usize::MAX,
    };
}

/// A kind of document 01's order and an id.
pub type Entity = (u64, u64);

/// The ten words of a warning: severity, code, entity's kind and id, how many are related, two pairs
/// (0 where there is none), the mark of the removal fix.
pub type Warning = [u64; 10];

#[derive(Clone, Debug, PartialEq)]
pub enum Answer {
    Changed {
        created: Vec<Entity>,
        modified: Vec<Entity>,
        deleted: Vec<Entity>,
        warnings: Vec<Warning>,
        /// The second half's id, of a split.
        second: Option<u64>,
    },
    Refused {
        number: u64,
        entity: Option<Entity>,
    },
}

pub const CODES: [IssueCode; 11] = [
    codes::DUPLICATE_ID,
    codes::NO_OP,
    codes::GEOMETRIC_GAP,
    codes::BOUNDARY_UNSHARED,
    codes::NEIGHBOR_DROPPED,
    codes::ORPHAN_RULE,
    codes::GEOMETRY_SYNTHESIZED,
    codes::RULE_REPLACED,
    codes::ATTRIBUTE_CONFLICT,
    codes::AMBIGUOUS_TOPOLOGY,
    codes::PLACEMENT_CLAMPED,
];

const LANE: u64 = 0;
const BOUNDARY: u64 = 1;

fn entity(e: EntityRef) -> Entity {
    (e.kind() as u64, e.raw())
}

fn warning(issue: &Issue) -> Warning {
    let mut w = [0; 10];
    w[0] = issue.severity as u64;
    w[1] = CODES.iter().position(|c| *c == issue.code).expect("a code") as u64;
    let (kind, id) = entity(
        issue
            .entity
            .expect("every warning of the six names an entity"),
    );
    (w[2], w[3]) = (kind, id);
    w[4] = issue.related.len() as u64;
    for (i, e) in issue.related.iter().enumerate() {
        (w[5 + 2 * i], w[6 + 2 * i]) = entity(*e);
    }
    if let Some(fix) = &issue.fix {
        let Command::RemoveEntity { entity: e } = **fix else {
            panic!("a fix other than removal");
        };
        assert_eq!(entity(e), (kind, id), "the fix removes the entity named");
        w[9] = 1;
    }
    w
}

fn refused(number: u64, entity: Option<Entity>) -> Answer {
    Answer::Refused { number, entity }
}

/// The id behind `prefix` in a message text: the only place where the Rust tells it.
fn named(text: &str, prefix: &str) -> u64 {
    let at = text
        .find(prefix)
        .unwrap_or_else(|| panic!("no {prefix} in: {text}"))
        + prefix.len();
    let digits: String = text[at..]
        .chars()
        .take_while(char::is_ascii_digit)
        .collect();
    digits.parse().expect("an id")
}

/// Document 01's number and entity for an error of the Rust.
fn refusal(call: &Call, e: &EditError) -> Answer {
    match e {
        EditError::NotFound { entity: e } => match e {
            EntityRef::Lane(id) => refused(1, Some((LANE, id.0))),
            EntityRef::Boundary(id) => refused(6, Some((BOUNDARY, id.0))),
            _ => panic!("{e} absent"),
        },
        EditError::InvalidArgument { name, reason } => match (name.as_str(), call) {
            ("at", _) if reason.starts_with("fraction") => refused(2, None),
            ("at", Call::SplitLane { lane, .. }) if reason.starts_with("split position") => {
                refused(3, Some((LANE, *lane)))
            }
            ("at", _) => refused(3, Some((LANE, named(reason, "lane:")))),
            ("to", Call::Connect { from, .. }) => refused(4, Some((LANE, *from))),
            ("neighbor", Call::SetNeighbor { lane, .. }) => refused(4, Some((LANE, *lane))),
            _ => panic!("{e}"),
        },
        EditError::NotMergeable { first, .. } => refused(5, Some((LANE, first.0))),
        EditError::InvalidGeometry { reason } => match reason.find("boundary:") {
            Some(_) => refused(8, Some((BOUNDARY, named(reason, "boundary:")))),
            None => refused(7, Some((LANE, named(reason, "lane:")))),
        },
        _ => panic!("{e}"),
    }
}

// ---- where document 01 gives another answer than the Rust --------------------------------------
// Each stands in one place below, under its name in docs/DIFFERENCES.md.

/// DIFFERENCES "refusal 9": a map that is not sound is refused before anything else.
fn unsound() -> Answer {
    refused(9, None)
}

/// DIFFERENCES "refusal 7 for the panic": a neighbour with an explicit empty centreline.
fn neighbour_without_line(m: &Map, call: &Call) -> Answer {
    let Call::SplitLane { lane, .. } = call else {
        panic!("only a split looks for the nearest point");
    };
    let failing = m
        .lateral_group(LaneId(*lane))
        .into_iter()
        .find(|g| {
            let explicit = &m.lane(*g).expect("in the group").centerline;
            g.0 != *lane && explicit.as_ref().is_some_and(|c| c.is_empty())
        })
        .expect("a neighbour with an explicit empty centreline");
    refused(7, Some((LANE, failing.0)))
}

/// DIFFERENCES "refusal 11": where `alloc_raw` overflows, the counter plus the ids needed passes
/// 2^64 - 1. The build has overflow checks on, so that the Rust stops there.
fn counter_spent() -> Answer {
    refused(11, None)
}

/// DIFFERENCES "refusal 10": the finished result passes a limit or a lent length. Says which.
fn no_room(
    t: &Tables,
    m: &Map,
    anew: bool,
    cs: &ChangeSet,
    room: &Room,
) -> Option<(Answer, &'static str)> {
    let points: usize = lines(m).iter().map(|l| l.len()).sum();
    let rule_lists = |r: &RegulatoryElement| match &r.rule {
        Rule::RightOfWay {
            priority, yielding, ..
        } => r.lanes.len().max(priority.len()).max(yielding.len()),
        _ => r.lanes.len(),
    };
    let n = counts(m);
    let tests = [
        (n[LANES] <= LIMIT[LANES], "1,024 lanes"),
        (n[BOUNDARIES] <= LIMIT[BOUNDARIES], "4,096 boundaries"),
        (
            1 + n[LANES] * ROW[LANES] <= t.words[LANES].len(),
            "lanes lent",
        ),
        (
            1 + n[BOUNDARIES] * ROW[BOUNDARIES] <= t.words[BOUNDARIES].len(),
            "boundaries lent",
        ),
        (
            lines(m).iter().all(|l| l.len() <= LINE),
            "256 points a line",
        ),
        (points <= POINTS, "65,536 points"),
        (!anew || 3 * points <= t.xyz.len(), "coordinates lent"),
        (
            m.lanes().all(|l| m.successors(l.id).len() <= LINKS),
            "16 successors",
        ),
        (
            m.lanes().all(|l| m.predecessors(l.id).len() <= LINKS),
            "16 predecessors",
        ),
        (m.roads().all(|r| r.lanes.len() <= IDS), "64 ids of a road"),
        (
            m.junctions().all(|j| j.lanes.len() <= IDS),
            "64 ids of a junction",
        ),
        (
            m.regulatory_elements().all(|r| rule_lists(r) <= IDS),
            "64 ids of a rule",
        ),
        (cs.created.len() <= room.created, "created lent"),
        (cs.modified.len() <= room.modified, "modified lent"),
        (cs.deleted.len() <= room.deleted, "deleted lent"),
        (cs.warnings.len() <= room.warnings, "warnings lent"),
    ];
    let passed = tests.iter().find(|(fits, _)| !fits)?.1;
    Some((refused(10, None), passed))
}

/// DIFFERENCES "link order": an edit puts each link in its place, whatever order the Rust leaves.
fn links_in_order(m: &mut Map) -> usize {
    access::sort_links(m)
}

// ------------------------------------------------------------------------------------------------

/// Runs what may panic, without a word on standard error.
pub fn quietly<T>(run: impl FnOnce() -> T) -> std::thread::Result<T> {
    static QUIET: AtomicBool = AtomicBool::new(false);
    static HOOK: Once = Once::new();
    HOOK.call_once(|| {
        let loud = take_hook();
        set_hook(Box::new(move |info| {
            if !QUIET.load(Ordering::Relaxed) {
                loud(info);
            }
        }));
    });
    let within = QUIET.swap(true, Ordering::Relaxed);
    let result = catch_unwind(AssertUnwindSafe(run));
    QUIET.store(within, Ordering::Relaxed);
    result
}

/// The lent tables, the counter, and the Rust's map beside them (none if the tables are not sound).
#[derive(Clone, Default)]
pub struct State {
    pub tables: Tables,
    pub counter: u64,
    pub map: Option<Map>,
    /// How many link lists the Rust left out of order.
    pub reordered: usize,
    /// How often the Rust panicked over a neighbour's explicit empty centreline.
    pub panicked: usize,
    /// What the last 10 was given for.
    pub passed: Option<&'static str>,
}

impl State {
    pub fn new(tables: Tables, counter: u64) -> Self {
        let map = sound::fault(&tables, counter)
            .is_none()
            .then(|| view(&tables, counter));
        State {
            tables,
            counter,
            map,
            reordered: 0,
            panicked: 0,
            passed: None,
        }
    }

    /// Makes the call: the answer, and the state as it leaves it.
    pub fn step(&mut self, call: &Call, room: &Room) -> Answer {
        let Some(map) = &self.map else {
            return unsound();
        };
        let mut after = map.clone();
        let made = quietly(|| edit(&mut after, call));
        let (second, cs) = match made {
            Ok(Ok(made)) => made,
            Ok(Err(e)) => return refusal(call, &e),
            Err(panic) => {
                let text = panic
                    .downcast_ref::<String>()
                    .map(String::as_str)
                    .or(panic.downcast_ref::<&str>().copied())
                    .unwrap_or("");
                if text.contains("attempt to add with overflow") {
                    return counter_spent();
                }
                assert_eq!(
                    text, "non-empty",
                    "the Rust stopped in another way: {call:?}"
                );
                self.panicked += 1;
                return neighbour_without_line(map, call);
            }
        };
        if let Some((answer, passed)) = no_room(&self.tables, &after, call.lays_out(), &cs, room) {
            self.passed = Some(passed);
            return answer;
        }
        self.reordered += links_in_order(&mut after);
        self.tables = store(&self.tables, &after, call.lays_out());
        self.counter = access::counter(&after);
        self.map = Some(after);
        Answer::Changed {
            created: cs.created.iter().map(|e| entity(*e)).collect(),
            modified: cs.modified.iter().map(|e| entity(*e)).collect(),
            deleted: cs.deleted.iter().map(|e| entity(*e)).collect(),
            warnings: cs.warnings.iter().map(warning).collect(),
            second: second.map(|l| l.0),
        }
    }

    /// The claims that hold of every state an accepted call leaves: the tables are sound, and they
    /// hold the Rust's map.
    pub fn check(&self) -> Result<(), String> {
        let Some(map) = &self.map else {
            return Ok(());
        };
        if let Some(clause) = sound::fault(&self.tables, self.counter) {
            return Err(format!("the edit left a map that is not sound: {clause}"));
        }
        if records(&view(&self.tables, self.counter)) != records(map) {
            return Err("the tables do not hold the Rust's map".into());
        }
        Ok(())
    }
}

/// The Rust's method for the call.
pub fn edit(m: &mut Map, call: &Call) -> EditResult<(Option<LaneId>, ChangeSet)> {
    match *call {
        Call::Connect { from, to } => m.connect(LaneId(from), LaneId(to)).map(|cs| (None, cs)),
        Call::Disconnect { from, to } => {
            m.disconnect(LaneId(from), LaneId(to)).map(|cs| (None, cs))
        }
        Call::SetNeighbor {
            lane,
            side,
            neighbor,
        } => m
            .set_neighbor(LaneId(lane), side, neighbor)
            .map(|cs| (None, cs)),
        Call::RemoveLane { lane } => m.remove_lane(LaneId(lane)).map(|cs| (None, cs)),
        Call::MergeLanes { first, second } => m
            .merge_lanes(LaneId(first), LaneId(second))
            .map(|cs| (None, cs)),
        Call::SplitLane {
            lane,
            at,
            neighbors,
        } => m
            .split_lane(
                LaneId(lane),
                at,
                SplitOptions {
                    include_neighbors: neighbors,
                },
            )
            .map(|(second, cs)| (Some(second), cs)),
    }
}
