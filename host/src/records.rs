//! The records of a map: what a row of each table holds, under the names of the original.

use std::fmt;

use crate::geometry::Polyline3;
use crate::ids::*;

/// A number by which the host names what the core only carries: names, attributes, outlines, signals and sign data.
pub type Handle = u16;

/// Kinds whose number is their place among all of them, and whose name is one word.
pub trait Kind: Copy + PartialEq + 'static {
    /// Every kind with its name, each at the place of its number.
    const NAMES: &'static [(Self, &'static str)];

    /// Its number in a table.
    fn number(self) -> u64 {
        Self::NAMES.iter().position(|(kind, _)| *kind == self).expect("every kind has a name") as u64
    }

    /// Its name.
    fn name(self) -> &'static str {
        Self::NAMES[self.number() as usize].1
    }

    /// The kind with a number.
    fn of_number(number: u64) -> Option<Self> {
        Some(Self::NAMES.get(usize::try_from(number).ok()?)?.0)
    }

    /// The kind with a name.
    fn of_name(name: &str) -> Option<Self> {
        Self::NAMES.iter().find(|(_, n)| *n == name).map(|(kind, _)| *kind)
    }
}

macro_rules! kinds {
    ($(#[$meta:meta])* $kind:ident { $($(#[$doc:meta])* $variant:ident = $name:literal,)* }) => {
        $(#[$meta])*
        #[derive(Debug, Clone, Copy, PartialEq, Eq, Hash)]
        pub enum $kind {
            $($(#[$doc])* $variant,)*
        }

        impl Kind for $kind {
            const NAMES: &'static [(Self, &'static str)] = &[$(($kind::$variant, $name),)*];
        }

        impl fmt::Display for $kind {
            fn fmt(&self, f: &mut fmt::Formatter<'_>) -> fmt::Result {
                f.write_str(self.name())
            }
        }
    };
}

kinds! {
    /// Left or right, along the direction of travel.
    Side {
        /// Left.
        Left = "left",
        /// Right.
        Right = "right",
    }
}

impl Side {
    /// Both sides, left first.
    pub const BOTH: [Side; 2] = [Side::Left, Side::Right];
}

kinds! {
    /// What a lane is for.
    LaneKind {
        /// A lane for motor vehicles.
        Driving = "driving",
        /// A shoulder.
        Shoulder = "shoulder",
        /// A bus lane.
        Bus = "bus",
        /// A bicycle lane.
        Bicycle = "bicycle",
        /// A way for pedestrians.
        Walkway = "walkway",
        /// A parking lane.
        Parking = "parking",
        /// An emergency lane.
        Emergency = "emergency",
        /// Anything else.
        Other = "other",
    }
}

kinds! {
    /// The turn that a lane takes in a junction.
    Turn {
        /// None is given.
        None = "none",
        /// Straight on.
        Straight = "straight",
        /// To the left.
        Left = "left",
        /// To the right.
        Right = "right",
    }
}

kinds! {
    /// What separates a lane from what lies beside it. A marking is its pattern, left line before right, and its weight.
    BoundaryKind {
        /// Nothing that can be seen.
        Virtual = "virtual",
        /// A solid line.
        SolidThin = "solid",
        /// A thick solid line.
        SolidThick = "solid-thick",
        /// A dashed line.
        DashedThin = "dashed",
        /// A thick dashed line.
        DashedThick = "dashed-thick",
        /// A double solid line.
        SolidSolidThin = "solid-solid",
        /// A thick double solid line.
        SolidSolidThick = "solid-solid-thick",
        /// Solid on the left, dashed on the right.
        SolidDashedThin = "solid-dashed",
        /// The same, thick.
        SolidDashedThick = "solid-dashed-thick",
        /// Dashed on the left, solid on the right.
        DashedSolidThin = "dashed-solid",
        /// The same, thick.
        DashedSolidThick = "dashed-solid-thick",
        /// A curb.
        Curb = "curb",
        /// The edge of the drivable surface.
        RoadEdge = "road-edge",
        /// Anything else.
        Other = "other",
    }
}

kinds! {
    /// Whether a neighbour runs the same way.
    NeighborDirection {
        /// The same way.
        Same = "same",
        /// The opposite way.
        Opposite = "opposite",
    }
}

/// A lane beside another.
#[derive(Debug, Clone, Copy, PartialEq, Eq, Hash)]
pub struct Neighbor {
    /// The lane.
    pub lane: LaneId,
    /// Its direction, seen from the other.
    pub direction: NeighborDirection,
}

impl Neighbor {
    /// A neighbour that runs the same way.
    pub const fn same(lane: LaneId) -> Self {
        Self { lane, direction: NeighborDirection::Same }
    }

    /// A neighbour that runs the opposite way.
    pub const fn opposite(lane: LaneId) -> Self {
        Self { lane, direction: NeighborDirection::Opposite }
    }

    /// On which side of this neighbour the lane stands that has it on `side`.
    pub const fn reciprocal_side(self, side: Side) -> Side {
        match (self.direction, side) {
            (NeighborDirection::Same, Side::Left) => Side::Right,
            (NeighborDirection::Same, Side::Right) => Side::Left,
            (NeighborDirection::Opposite, side) => side,
        }
    }
}

/// A lane's reference to one of its boundaries.
#[derive(Debug, Clone, Copy, PartialEq, Eq, Hash)]
pub struct BoundaryRef {
    /// The boundary.
    pub boundary: BoundaryId,
    /// Whether the lane runs against it.
    pub reversed: bool,
}

impl BoundaryRef {
    /// Along the boundary's direction.
    pub const fn forward(boundary: BoundaryId) -> Self {
        Self { boundary, reversed: false }
    }

    /// Against it.
    pub const fn backward(boundary: BoundaryId) -> Self {
        Self { boundary, reversed: true }
    }
}

impl From<BoundaryId> for BoundaryRef {
    fn from(id: BoundaryId) -> Self {
        BoundaryRef::forward(id)
    }
}

/// A speed limit. Every bit of it is kept, of a NaN too.
#[derive(Debug, Clone, Copy, PartialEq)]
pub struct SpeedLimit {
    /// Kilometres an hour.
    pub kmh: f64,
}

/// A lane, with its links and neighbours.
#[derive(Debug, Clone, PartialEq)]
pub struct Lane {
    /// Id.
    pub id: LaneId,
    /// What it is for.
    pub kind: LaneKind,
    /// Left boundary.
    pub left: BoundaryRef,
    /// Right boundary.
    pub right: BoundaryRef,
    /// A centreline of its own; without one it is halfway between the boundaries.
    pub centerline: Option<Polyline3>,
    /// Speed limit.
    pub speed_limit: Option<SpeedLimit>,
    /// `false` if it may be driven both ways.
    pub one_way: bool,
    /// Its turn in a junction.
    pub turn_direction: Turn,
    /// The host's attributes.
    pub attributes: Handle,
    /// The lane to its left.
    pub left_neighbor: Option<Neighbor>,
    /// The lane to its right.
    pub right_neighbor: Option<Neighbor>,
    /// Lanes that lead into it, ascending.
    pub predecessors: Vec<LaneId>,
    /// Lanes that it leads into, ascending.
    pub successors: Vec<LaneId>,
}

impl Lane {
    /// A one-way driving lane between two boundaries, without links.
    pub fn new(id: LaneId, left: impl Into<BoundaryRef>, right: impl Into<BoundaryRef>) -> Self {
        Self {
            id,
            kind: LaneKind::Driving,
            left: left.into(),
            right: right.into(),
            centerline: None,
            speed_limit: None,
            one_way: true,
            turn_direction: Turn::None,
            attributes: 0,
            left_neighbor: None,
            right_neighbor: None,
            predecessors: Vec::new(),
            successors: Vec::new(),
        }
    }

    /// Its boundary on a side.
    pub const fn boundary(&self, side: Side) -> BoundaryRef {
        match side {
            Side::Left => self.left,
            Side::Right => self.right,
        }
    }

    /// Its neighbour on a side.
    pub const fn neighbor(&self, side: Side) -> Option<Neighbor> {
        match side {
            Side::Left => self.left_neighbor,
            Side::Right => self.right_neighbor,
        }
    }

    /// The slot of its neighbour on a side.
    pub const fn neighbor_mut(&mut self, side: Side) -> &mut Option<Neighbor> {
        match side {
            Side::Left => &mut self.left_neighbor,
            Side::Right => &mut self.right_neighbor,
        }
    }
}

/// A line beside lanes. Lanes side by side share the one between them.
#[derive(Debug, Clone, PartialEq)]
pub struct Boundary {
    /// Id.
    pub id: BoundaryId,
    /// Kind.
    pub kind: BoundaryKind,
    /// The line.
    pub geometry: Polyline3,
    /// The host's attributes.
    pub attributes: Handle,
}

impl Boundary {
    /// A boundary without attributes.
    pub fn new(id: BoundaryId, kind: BoundaryKind, geometry: Polyline3) -> Self {
        Self { id, kind, geometry, attributes: 0 }
    }
}

/// A group of lanes with a name.
#[derive(Debug, Clone, PartialEq, Eq)]
pub struct Road {
    /// Id.
    pub id: RoadId,
    /// The host's name for it.
    pub name: Handle,
    /// The host's attributes.
    pub attributes: Handle,
    /// Its lanes, none twice.
    pub lanes: Vec<LaneId>,
}

/// Where roads meet.
#[derive(Debug, Clone, PartialEq, Eq)]
pub struct Junction {
    /// Id.
    pub id: JunctionId,
    /// The host's name for it.
    pub name: Handle,
    /// The host's outline of it.
    pub outline: Handle,
    /// The host's attributes.
    pub attributes: Handle,
    /// Its lanes, none twice.
    pub lanes: Vec<LaneId>,
}

/// A painted stop line. Rules say for which lanes.
#[derive(Debug, Clone, PartialEq)]
pub struct StopLine {
    /// Id.
    pub id: StopLineId,
    /// The line.
    pub geometry: Polyline3,
    /// The host's attributes.
    pub attributes: Handle,
}

/// A crossing for pedestrians, left and right as they walk.
#[derive(Debug, Clone, PartialEq)]
pub struct Crosswalk {
    /// Id.
    pub id: CrosswalkId,
    /// Its left edge.
    pub left_edge: Polyline3,
    /// Its right edge.
    pub right_edge: Polyline3,
    /// The host's outline of it.
    pub outline: Handle,
    /// The host's attributes.
    pub attributes: Handle,
}

/// What a regulatory element says.
#[derive(Debug, Clone, PartialEq, Eq)]
pub enum Rule {
    /// Traffic lights.
    TrafficLight {
        /// The host's signals.
        signals: Handle,
        /// Where to stop.
        stop_line: Option<StopLineId>,
    },
    /// A traffic sign.
    TrafficSign {
        /// The host's sign data.
        sign: Handle,
        /// Where to stop.
        stop_line: Option<StopLineId>,
    },
    /// A stop line without sign or light.
    StopLine {
        /// The stop line.
        stop_line: StopLineId,
    },
    /// Right of way between lanes.
    RightOfWay {
        /// Lanes that have priority, none twice.
        priority: Vec<LaneId>,
        /// Lanes that must yield, none twice.
        yielding: Vec<LaneId>,
        /// Where the yielding lanes stop.
        stop_lines: Vec<StopLineId>,
    },
    /// Lanes that give way to pedestrians.
    Crosswalk {
        /// The crosswalk.
        crosswalk: CrosswalkId,
        /// Where they stop.
        stop_lines: Vec<StopLineId>,
    },
    /// Anything else.
    Other {
        /// The host's kind.
        kind: Handle,
    },
}

impl Rule {
    /// The name of its kind in a map's text.
    pub const fn name(&self) -> &'static str {
        match self {
            Rule::TrafficLight { .. } => "traffic-light",
            Rule::TrafficSign { .. } => "traffic-sign",
            Rule::StopLine { .. } => "stop-line",
            Rule::RightOfWay { .. } => "right-of-way",
            Rule::Crosswalk { .. } => "crosswalk",
            Rule::Other { .. } => "other",
        }
    }
}

/// A rule and the lanes that it applies to.
#[derive(Debug, Clone, PartialEq, Eq)]
pub struct RegulatoryElement {
    /// Id.
    pub id: RegulatoryElementId,
    /// The rule.
    pub rule: Rule,
    /// Lanes that it applies to, none twice.
    pub lanes: Vec<LaneId>,
    /// Crosswalks that it controls.
    pub controlled_crosswalks: Vec<CrosswalkId>,
    /// The host's attributes.
    pub attributes: Handle,
}
