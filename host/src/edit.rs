//! The six edits: commands as the library's rows of words, room that grows, and answers as change sets.

use crate::changes::*;
use crate::ids::*;
use crate::layout::*;
use crate::map::Map;
use crate::messages::Messages;
use crate::records::*;
use crate::tables::{Table, neighbor_words};
use crate::{stack, sys};

/// Where to split a lane, along its centreline.
#[derive(Debug, Clone, Copy, PartialEq)]
pub enum SplitAt {
    /// A part of its length, inside (0, 1).
    Fraction(f64),
    /// Metres from its start.
    Station(f64),
}

/// How to split a lane.
#[derive(Debug, Clone, Copy, PartialEq, Eq)]
pub struct SplitOptions {
    /// Also split everything that is reached through neighbours, at the same cross-section. The default.
    pub include_neighbors: bool,
}

impl Default for SplitOptions {
    fn default() -> Self {
        Self { include_neighbors: true }
    }
}

/// An edit as data.
#[derive(Debug, Clone, Copy, PartialEq)]
pub enum Command {
    /// [`Map::split_lane`]
    SplitLane {
        /// The lane.
        lane: LaneId,
        /// Where.
        at: SplitAt,
        /// With its neighbours.
        include_neighbors: bool,
    },
    /// [`Map::merge_lanes`]
    MergeLanes {
        /// The lane that stays.
        first: LaneId,
        /// Its successor, which goes.
        second: LaneId,
    },
    /// [`Map::connect`]
    ConnectLanes {
        /// The predecessor.
        from: LaneId,
        /// The successor.
        to: LaneId,
    },
    /// [`Map::disconnect`]
    DisconnectLanes {
        /// The predecessor.
        from: LaneId,
        /// The successor.
        to: LaneId,
    },
    /// [`Map::set_neighbor`]
    SetNeighbor {
        /// The lane.
        lane: LaneId,
        /// On which side.
        side: Side,
        /// The neighbour, or none to clear it.
        neighbor: Option<Neighbor>,
    },
    /// [`Map::remove_lane`]
    RemoveLane {
        /// The lane.
        lane: LaneId,
    },
}

impl Command {
    /// Its name.
    pub const fn name(&self) -> &'static str {
        match self {
            Command::SplitLane { .. } => "split_lane",
            Command::MergeLanes { .. } => "merge_lanes",
            Command::ConnectLanes { .. } => "connect_lanes",
            Command::DisconnectLanes { .. } => "disconnect_lanes",
            Command::SetNeighbor { .. } => "set_neighbor",
            Command::RemoveLane { .. } => "remove_lane",
        }
    }

    /// The row of words that the library takes.
    pub fn row(&self) -> [u64; COMMAND_WORDS] {
        match *self {
            Command::SplitLane { lane, at, include_neighbors } => {
                let (place, bits) = match at {
                    SplitAt::Fraction(x) => (FRACTION, x.to_bits()),
                    SplitAt::Station(x) => (STATION, x.to_bits()),
                };
                [SPLIT, lane.0, place, bits, include_neighbors.into()]
            }
            Command::MergeLanes { first, second } => [MERGE, first.0, second.0, 0, 0],
            Command::ConnectLanes { from, to } => [CONNECT, from.0, to.0, 0, 0],
            Command::DisconnectLanes { from, to } => [DISCONNECT, from.0, to.0, 0, 0],
            Command::SetNeighbor { lane, side, neighbor } => {
                let (mark, other) = neighbor_words(neighbor);
                [SET_NEIGHBOR, lane.0, side.number(), mark, other]
            }
            Command::RemoveLane { lane } => [REMOVE, lane.0, 0, 0, 0],
        }
    }
}

impl Map {
    /// Makes `to` a successor of `from`. Warns where the two do not meet.
    pub fn connect(&mut self, from: LaneId, to: LaneId) -> EditResult<ChangeSet> {
        self.apply(&Command::ConnectLanes { from, to })
    }

    /// Removes the link from `from` to `to`.
    pub fn disconnect(&mut self, from: LaneId, to: LaneId) -> EditResult<ChangeSet> {
        self.apply(&Command::DisconnectLanes { from, to })
    }

    /// Sets or clears the neighbour of a lane on a side, and the slot that answers it.
    pub fn set_neighbor(&mut self, lane: LaneId, side: Side, neighbor: Option<Neighbor>) -> EditResult<ChangeSet> {
        self.apply(&Command::SetNeighbor { lane, side, neighbor })
    }

    /// Splits a lane in two. It keeps its id and becomes the first half; the second half's id comes back.
    pub fn split_lane(&mut self, lane: LaneId, at: SplitAt, options: SplitOptions) -> EditResult<(LaneId, ChangeSet)> {
        let include_neighbors = options.include_neighbors;
        let done = self.call(&Command::SplitLane { lane, at, include_neighbors }).map_err(|r| r.error)?;
        Ok((done.second.expect("a split names the second half"), done.changes))
    }

    /// Merges a lane's only successor into it.
    pub fn merge_lanes(&mut self, first: LaneId, second: LaneId) -> EditResult<ChangeSet> {
        self.apply(&Command::MergeLanes { first, second })
    }

    /// Removes a lane, every mention of it, and the boundaries that no lane is left to use.
    pub fn remove_lane(&mut self, lane: LaneId) -> EditResult<ChangeSet> {
        self.apply(&Command::RemoveLane { lane })
    }

    /// Makes a command.
    ///
    /// ```
    /// use voldrekka::{Command, EditError, LaneId, Map};
    ///
    /// let refused = Map::new().apply(&Command::RemoveLane { lane: LaneId(7) });
    /// assert_eq!(refused.unwrap_err().to_string(), "lane:7 does not exist");
    /// ```
    pub fn apply(&mut self, command: &Command) -> EditResult<ChangeSet> {
        self.call(command).map(|done| done.changes).map_err(|refused| refused.error)
    }

    /// Makes a command, and gives a refusal with its number and entity.
    ///
    /// The library runs on a thread with the stack that it asks for.
    pub fn call(&mut self, command: &Command) -> Result<Done, Refused> {
        let before = Messages::before(self, command);
        let answer = self.answer(&command.row());
        if answer.number == ACCEPTED {
            return Ok(Done {
                second: (answer.second > 0).then_some(LaneId(answer.second)),
                changes: self.change_set(&answer, &before),
            });
        }
        let refusal = Refusal { number: answer.number, entity: named(answer.kind, answer.id) };
        Err(Refused { refusal, error: before.refusal(self, refusal) })
    }

    /// The library's answer. Where what is lent is too small, it grows; refusal 10 is left for a limit.
    fn answer(&mut self, row: &[u64; COMMAND_WORDS]) -> sys::Answer {
        loop {
            let (lent, answer) = stack::apply(std::mem::take(&mut self.lent), *row);
            self.lent = lent;
            if answer.number != NO_ROOM || !self.grow(EDIT_LISTS) {
                return answer;
            }
        }
    }

    /// Doubles what an edit or a job may want more of, as far as a map may ever need it; whether anything grew.
    pub(crate) fn grow(&mut self, lists: [usize; 4]) -> bool {
        let [lanes, boundaries, ..] = &mut self.lent.tables.words;
        let mut grown = grow_to(&mut self.lent.tables.coordinates, 0.0, MAX_POINTS * POINT_FLOATS);
        grown |= grow_to(lanes, 0, Table::Lanes.max_len());
        grown |= grow_to(boundaries, 0, Table::Boundaries.max_len());
        for (words, most) in self.lent.lists.iter_mut().zip(lists) {
            grown |= grow_to(words, 0, most);
        }
        grown
    }

    fn change_set(&self, answer: &sys::Answer, before: &Messages) -> ChangeSet {
        let counts = [answer.created, answer.modified, answer.deleted, answer.warnings];
        let mut changes = self.lent.changes(counts);
        for i in 0..changes.warnings.len() {
            changes.warnings[i].message = before.warning(self, &changes.warnings[i], &changes.warnings[..i]);
        }
        changes
    }
}

impl stack::Lent {
    /// What the lists hold after a call that wrote so many entries; the warnings without their messages.
    pub(crate) fn changes(&self, counts: [u64; 4]) -> ChangeSet {
        let [created, modified, deleted, warnings] = &self.lists;
        ChangeSet {
            created: pairs(created, counts[0]),
            modified: pairs(modified, counts[1]),
            deleted: pairs(deleted, counts[2]),
            warnings: warnings.chunks_exact(WARNING_WORDS).take(counts[3] as usize).map(issue).collect(),
        }
    }
}

/// The most words that an edit wants of each list.
const EDIT_LISTS: [usize; 4] =
    [MAX_CREATED * PAIR_WORDS, MAX_MODIFIED * PAIR_WORDS, MAX_DELETED * PAIR_WORDS, MAX_WARNINGS * WARNING_WORDS];

/// The least that grows, so that a few calls suffice from nothing.
const LEAST_ROOM: usize = 512;

fn grow_to<T: Copy>(slice: &mut Vec<T>, with: T, most: usize) -> bool {
    let grown = most.min(slice.len() * 2).max(most.min(LEAST_ROOM));
    let grows = slice.len() < grown;
    if grows {
        slice.resize(grown, with);
    }
    grows
}

// ---- words of an answer

/// The entity that a refusal names: its kind plus 1, or 0.
pub(crate) fn named(kind: u64, id: u64) -> Option<EntityRef> {
    (kind > 0).then(|| entity(kind - 1, id))
}

fn entity(kind: u64, id: u64) -> EntityRef {
    EntityRef::new(EntityKind::ALL[kind as usize], id)
}

fn pairs(words: &[u64], count: u64) -> Vec<EntityRef> {
    words.chunks_exact(PAIR_WORDS).take(count as usize).map(|pair| entity(pair[0], pair[1])).collect()
}

/// A warning without its message.
fn issue(row: &[u64]) -> Issue {
    Issue {
        severity: Severity::ALL[row[WARNING_SEVERITY] as usize],
        code: IssueCode::of_number(row[WARNING_CODE]).expect("a code of the six edits"),
        message: String::new(),
        entity: entity(row[WARNING_ENTITY_KIND], row[WARNING_ENTITY_ID]),
        related: pairs(&row[WARNING_FIRST_RELATED..], row[WARNING_RELATED_AT]),
        fix: row[WARNING_FIX] != 0,
    }
}
