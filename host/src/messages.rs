//! The original's message texts, word for word. The library answers with codes and entities; what a text says besides is found in the
//! map, and of a merge in the two lanes as they were before.

use crate::changes::*;
use crate::edit::{Command, SplitAt};
use crate::ids::*;
use crate::layout::*;
use crate::map::Map;
use crate::records::*;

/// What the texts of a call need: the command, and the lanes of a merge before it.
pub struct Messages {
    command: Command,
    merged: Option<(Lane, Lane)>,
}

impl Messages {
    pub fn before(map: &Map, command: &Command) -> Self {
        let merged = match *command {
            Command::MergeLanes { first, second } => map.lane(first).zip(map.lane(second)),
            _ => None,
        };
        Self { command: *command, merged }
    }

    // ---- warnings, on the map after the call

    /// The text of a warning; `raised` are those before it.
    pub fn warning(&self, map: &Map, issue: &Issue, raised: &[Issue]) -> String {
        let nth = raised.iter().filter(|r| same_subject(r, issue)).count();
        match issue.code {
            IssueCode::NoOp => self.no_op(),
            IssueCode::GeometricGap => self.gap(map),
            IssueCode::BoundaryUnshared => self.unshared(map, issue),
            IssueCode::NeighborDropped => self.dropped(map, issue, nth),
            IssueCode::OrphanRule => format!("{} no longer applies to any lane", issue.entity),
            IssueCode::AttributeConflict => self.conflict(),
        }
    }

    fn no_op(&self) -> String {
        match self.command {
            Command::ConnectLanes { from, to } => format!("{from} is already connected to {to}"),
            Command::DisconnectLanes { from, to } => format!("{from} is not connected to {to}"),
            _ => "neighbor relation unchanged".into(),
        }
    }

    fn gap(&self, map: &Map) -> String {
        let Command::ConnectLanes { from, to } = self.command else {
            unreachable!("only connect warns of a gap");
        };
        let gap = map.connection_gap(from, to).unwrap_or(0.0);
        format!(
            "{to} starts {gap:.3} m away from the end of {from}; formats with implicit topology (Lanelet2) will not preserve this link"
        )
    }

    fn unshared(&self, map: &Map, issue: &Issue) -> String {
        match (self.command, &self.merged, &issue.related[..]) {
            (Command::SetNeighbor { lane, .. }, _, [other]) => format!(
                "{lane} and {other} do not share a boundary; formats with implicit topology (Lanelet2) will not preserve this neighbor relation"
            ),
            (_, Some((first, second)), _) => unshared_merge(map, first, second, issue.entity),
            (_, _, related) => {
                let copies: Vec<String> = related.iter().map(|e| e.to_string()).collect();
                format!(
                    "{} is also used by lanes outside the split group; the split lanes now use copies ({})",
                    issue.entity,
                    copies.join(", ")
                )
            }
        }
    }

    /// Of a merge: the sides on which the second lane's neighbour is not the first one's, in turn. Of a split: the sides on which the
    /// first half still has the neighbour that was not cut.
    fn dropped(&self, map: &Map, issue: &Issue, nth: usize) -> String {
        let neighbor = issue.related[0];
        let names = |lane: &Lane, side| lane.neighbor(side).is_some_and(|n| EntityRef::from(n.lane) == neighbor);
        if let Some((first, second)) = &self.merged {
            let mut sides = Side::BOTH.into_iter().filter(|&side| names(second, side) && !names(first, side));
            let side = sides.nth(nth).unwrap_or(Side::Left);
            return format!("{side:?} neighbor {neighbor} of {} was dropped", second.id);
        }
        let second = issue.entity;
        let first = map.lane(LaneId(second.raw())).and_then(|l| map.lane(*l.predecessors.first()?));
        let Some(first) = first else {
            unreachable!("a second half comes from its first");
        };
        let side = Side::BOTH.into_iter().filter(|&side| names(&first, side)).nth(nth).unwrap_or(Side::Left);
        format!(
            "{neighbor} was not split, so it stays the {side:?} neighbor of {} only; {second} has no {side:?} neighbor",
            first.id
        )
    }

    fn conflict(&self) -> String {
        let Command::MergeLanes { first, second } = self.command else {
            unreachable!("only a merge warns of a conflict");
        };
        format!("{first} and {second} differ in kind, speed limit or turn direction; the values of {first} were kept")
    }

    // ---- refusals, on the map as it is

    pub fn refusal(&self, map: &Map, refusal: Refusal) -> EditError {
        match (refusal.number, refusal.entity) {
            (LANE_ABSENT | BOUNDARY_ABSENT, Some(entity)) => EditError::NotFound { entity },
            (FRACTION_OUTSIDE, _) => EditError::invalid("at", "fraction must be in (0, 1)"),
            (POSITION_OUTSIDE, Some(lane)) => EditError::invalid("at", self.outside(map, lane)),
            (OWN_PARTNER, _) => self.own_partner(),
            (NOT_MERGEABLE, _) => self.not_mergeable(map),
            (NO_USABLE_LINE, Some(lane)) => EditError::geometry(format!("{lane} has no usable geometry")),
            (NOT_CROSSING, Some(boundary)) => EditError::geometry(not_crossing(map, boundary)),
            (NO_ROOM, _) => EditError::NoRoom,
            (NO_IDS, _) => EditError::NoIds,
            _ => EditError::Unsound,
        }
    }

    fn outside(&self, map: &Map, failing: EntityRef) -> String {
        let Command::SplitLane { lane, at, .. } = self.command else {
            unreachable!("only a split has a position");
        };
        if EntityRef::from(lane) != failing {
            return format!(
                "neighbor {failing} cannot be split at the same cross-section; use include_neighbors = false"
            );
        }
        let length = map.lane(lane).and_then(|l| map.centerline(&l)).map_or(0.0, |c| c.length());
        let station = match at {
            SplitAt::Fraction(f) => f * length,
            SplitAt::Station(s) => s,
        };
        format!(
            "split position {station:.3} m must be inside (0, {length:.3}) with at least {MIN_PIECE_LENGTH} m on each side"
        )
    }

    fn own_partner(&self) -> EditError {
        match self.command {
            Command::SetNeighbor { .. } => EditError::invalid("neighbor", "a lane cannot neighbor itself"),
            _ => EditError::invalid("to", "a lane cannot be its own successor"),
        }
    }

    fn not_mergeable(&self, map: &Map) -> EditError {
        let Command::MergeLanes { first, second } = self.command else {
            unreachable!("only a merge is not mergeable");
        };
        let successors = map.lane(first).map_or(Vec::new(), |l| l.successors);
        let predecessors = map.lane(second).map_or(Vec::new(), |l| l.predecessors);
        let reason = if first == second {
            "a lane cannot be merged with itself".into()
        } else if successors != [second] {
            format!("{second} must be the only successor of {first} (successors: [{}])", joined(&successors))
        } else {
            format!("{first} must be the only predecessor of {second} (predecessors: [{}])", joined(&predecessors))
        };
        EditError::NotMergeable { first, second, reason }
    }
}

/// The least length of a piece that a split leaves, in metres.
pub const MIN_PIECE_LENGTH: f64 = 0.1;

/// Of a merge: the new boundary is on the side on which the merged lane names it.
fn unshared_merge(map: &Map, first: &Lane, second: &Lane, new: EntityRef) -> String {
    let on_left = map.lane(first.id).is_some_and(|merged| EntityRef::from(merged.left.boundary) == new);
    let side = if on_left { Side::Left } else { Side::Right };
    let (a, b) = (first.boundary(side).boundary, second.boundary(side).boundary);
    format!("{a} or {b} is shared with other lanes; the merged lane uses a new boundary {new}")
}

fn not_crossing(map: &Map, boundary: EntityRef) -> String {
    match map.boundary(BoundaryId(boundary.raw())) {
        Some(b) if b.geometry.is_empty() => format!("{boundary} is empty"),
        _ => format!("{boundary} does not extend across the split position"),
    }
}

fn joined(ids: &[LaneId]) -> String {
    ids.iter().map(LaneId::to_string).collect::<Vec<_>>().join(", ")
}

/// Two warnings that differ in the side alone.
fn same_subject(a: &Issue, b: &Issue) -> bool {
    (a.code, a.entity, &a.related) == (b.code, b.entity, &b.related)
}
