//! Ids of the map's entities, one type a kind, and references to any of them.

use std::fmt;

macro_rules! define_id {
    ($(#[$meta:meta])* $name:ident, $kind:ident) => {
        $(#[$meta])*
        #[derive(Debug, Clone, Copy, PartialEq, Eq, PartialOrd, Ord, Hash)]
        pub struct $name(pub u64);

        impl fmt::Display for $name {
            fn fmt(&self, f: &mut fmt::Formatter<'_>) -> fmt::Result {
                EntityRef::from(*self).fmt(f)
            }
        }

        impl From<$name> for EntityRef {
            fn from(id: $name) -> Self {
                EntityRef::$kind(id)
            }
        }
    };
}

define_id!(
    /// Id of a [`Lane`](crate::Lane).
    LaneId, Lane
);
define_id!(
    /// Id of a [`Boundary`](crate::Boundary).
    BoundaryId, Boundary
);
define_id!(
    /// Id of a [`Road`](crate::Road).
    RoadId, Road
);
define_id!(
    /// Id of a [`Junction`](crate::Junction).
    JunctionId, Junction
);
define_id!(
    /// Id of a [`StopLine`](crate::StopLine).
    StopLineId, StopLine
);
define_id!(
    /// Id of a traffic signal.
    SignalId, TrafficSignal
);
define_id!(
    /// Id of a [`Crosswalk`](crate::Crosswalk).
    CrosswalkId, Crosswalk
);
define_id!(
    /// Id of a [`RegulatoryElement`](crate::RegulatoryElement).
    RegulatoryElementId, RegulatoryElement
);

/// The kind of an entity, in the order in which lists are sorted.
#[derive(Debug, Clone, Copy, PartialEq, Eq, PartialOrd, Ord, Hash)]
pub enum EntityKind {
    /// A lane.
    Lane,
    /// A lane boundary.
    Boundary,
    /// A road, a group of lanes.
    Road,
    /// A junction.
    Junction,
    /// A stop line.
    StopLine,
    /// A traffic signal: no table holds them, rules name them by a handle.
    TrafficSignal,
    /// A crosswalk.
    Crosswalk,
    /// A regulatory element, a rule.
    RegulatoryElement,
}

impl EntityKind {
    /// Every kind, each at the place of its number.
    pub const ALL: [EntityKind; 8] = [
        EntityKind::Lane,
        EntityKind::Boundary,
        EntityKind::Road,
        EntityKind::Junction,
        EntityKind::StopLine,
        EntityKind::TrafficSignal,
        EntityKind::Crosswalk,
        EntityKind::RegulatoryElement,
    ];

    /// The name in messages and JSON.
    pub const fn as_str(self) -> &'static str {
        match self {
            EntityKind::Lane => "lane",
            EntityKind::Boundary => "boundary",
            EntityKind::Road => "road",
            EntityKind::Junction => "junction",
            EntityKind::StopLine => "stop_line",
            EntityKind::TrafficSignal => "traffic_signal",
            EntityKind::Crosswalk => "crosswalk",
            EntityKind::RegulatoryElement => "regulatory_element",
        }
    }
}

impl fmt::Display for EntityKind {
    fn fmt(&self, f: &mut fmt::Formatter<'_>) -> fmt::Result {
        f.write_str(self.as_str())
    }
}

/// A reference to any entity of a map.
///
/// ```
/// use voldrekka::{EntityRef, LaneId};
/// assert_eq!(EntityRef::from(LaneId(12)).to_string(), "lane:12");
/// ```
#[derive(Debug, Clone, Copy, PartialEq, Eq, PartialOrd, Ord, Hash)]
pub enum EntityRef {
    /// A lane.
    Lane(LaneId),
    /// A boundary.
    Boundary(BoundaryId),
    /// A road.
    Road(RoadId),
    /// A junction.
    Junction(JunctionId),
    /// A stop line.
    StopLine(StopLineId),
    /// A traffic signal.
    TrafficSignal(SignalId),
    /// A crosswalk.
    Crosswalk(CrosswalkId),
    /// A regulatory element.
    RegulatoryElement(RegulatoryElementId),
}

impl EntityRef {
    /// The entity of a kind with an id.
    pub const fn new(kind: EntityKind, id: u64) -> Self {
        match kind {
            EntityKind::Lane => EntityRef::Lane(LaneId(id)),
            EntityKind::Boundary => EntityRef::Boundary(BoundaryId(id)),
            EntityKind::Road => EntityRef::Road(RoadId(id)),
            EntityKind::Junction => EntityRef::Junction(JunctionId(id)),
            EntityKind::StopLine => EntityRef::StopLine(StopLineId(id)),
            EntityKind::TrafficSignal => EntityRef::TrafficSignal(SignalId(id)),
            EntityKind::Crosswalk => EntityRef::Crosswalk(CrosswalkId(id)),
            EntityKind::RegulatoryElement => EntityRef::RegulatoryElement(RegulatoryElementId(id)),
        }
    }

    /// Its kind.
    pub const fn kind(self) -> EntityKind {
        match self {
            EntityRef::Lane(_) => EntityKind::Lane,
            EntityRef::Boundary(_) => EntityKind::Boundary,
            EntityRef::Road(_) => EntityKind::Road,
            EntityRef::Junction(_) => EntityKind::Junction,
            EntityRef::StopLine(_) => EntityKind::StopLine,
            EntityRef::TrafficSignal(_) => EntityKind::TrafficSignal,
            EntityRef::Crosswalk(_) => EntityKind::Crosswalk,
            EntityRef::RegulatoryElement(_) => EntityKind::RegulatoryElement,
        }
    }

    /// Its id as a number.
    pub const fn raw(self) -> u64 {
        match self {
            EntityRef::Lane(id) => id.0,
            EntityRef::Boundary(id) => id.0,
            EntityRef::Road(id) => id.0,
            EntityRef::Junction(id) => id.0,
            EntityRef::StopLine(id) => id.0,
            EntityRef::TrafficSignal(id) => id.0,
            EntityRef::Crosswalk(id) => id.0,
            EntityRef::RegulatoryElement(id) => id.0,
        }
    }
}

impl fmt::Display for EntityRef {
    fn fmt(&self, f: &mut fmt::Formatter<'_>) -> fmt::Result {
        write!(f, "{}:{}", self.kind(), self.raw())
    }
}
