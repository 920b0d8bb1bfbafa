//! A map: its tables, built and read by records.

use std::fmt;

use crate::geometry::Polyline3;
use crate::ids::*;
use crate::layout::*;
use crate::records::*;
use crate::stack::Lent;
use crate::sys::{self, TABLES};
use crate::tables::{Record, Table, Tables};

/// Why a record cannot stand in a map.
#[derive(Debug, Clone, Copy, PartialEq, Eq)]
pub enum MapError {
    /// There is an entity with its id.
    DuplicateId(EntityRef),
    /// A map holds no more of them.
    TooMany {
        /// Of what.
        what: &'static str,
        /// How many at most.
        limit: usize,
    },
}

impl fmt::Display for MapError {
    fn fmt(&self, f: &mut fmt::Formatter<'_>) -> fmt::Result {
        match self {
            MapError::DuplicateId(entity) => write!(f, "duplicate id: {entity}"),
            MapError::TooMany { what, limit } => write!(f, "more than {limit} {what}"),
        }
    }
}

impl std::error::Error for MapError {}

/// Why a map is not sound.
#[derive(Debug, Clone, Copy, PartialEq, Eq)]
pub struct Fault {
    /// The clause of soundness that fails first, in words.
    pub clause: &'static str,
    /// Where it fails, if at one entity.
    pub entity: Option<EntityRef>,
}

/// The clauses of soundness in words, each at the place of its number; 0 is none.
const CLAUSES: [&str; 12] = [
    "sound",
    "a table has more rows than its limit or than its memory holds",
    "a mark is out of range, or a list of the row is longer than its limit",
    "a kind or a handle is out of range, or a rule has other stop lines than its kind",
    "ids do not ascend in their table",
    "an id is not below the next id to be given",
    "a list of links does not ascend",
    "a line is not stored, has more than 256 points, or leaves the range of coordinates",
    "two lines share a stored point",
    "a link names a lane that is absent or does not name it back",
    "a neighbour is absent or does not name the lane back",
    "a lane stands twice in a road, a junction, or one list of a rule",
];

/// A lane map that owns its tables.
///
/// It is built by inserting records and changed by the edits ([`Map::apply`]); records come back by value. A map need not be sound while it
/// is built: an edit of one that is not is refused.
///
/// ```
/// use voldrekka::*;
///
/// let mut map = Map::new();
/// let line = |y| Polyline3::from_xy(&[[0.0, y], [10.0, y]]);
/// map.insert_boundary(Boundary::new(BoundaryId(101), BoundaryKind::SolidThin, line(2.0)))?;
/// map.insert_boundary(Boundary::new(BoundaryId(102), BoundaryKind::SolidThin, line(-2.0)))?;
/// map.insert_lane(Lane::new(LaneId(1), BoundaryId(101), BoundaryId(102)))?;
/// assert!(map.is_sound());
///
/// let (second, changes) = map.split_lane(LaneId(1), SplitAt::Fraction(0.5), SplitOptions::default())?;
/// assert_eq!(second, LaneId(105));
/// assert_eq!(changes.created.len(), 3);
/// assert_eq!(map.lane(LaneId(1)).unwrap().successors, [second]);
/// # Ok::<(), Box<dyn std::error::Error>>(())
/// ```
#[derive(Debug, Clone)]
pub struct Map {
    /// What the library is lent. What the lists hold means nothing between calls.
    pub(crate) lent: Lent,
}

impl Default for Map {
    fn default() -> Self {
        Self::new()
    }
}

macro_rules! accessors {
    ($record:ident, $id:ident, $get:ident, $all:ident, $insert:ident) => {
        #[doc = concat!("The ", stringify!($record), " with an id.")]
        pub fn $get(&self, id: $id) -> Option<$record> {
            self.record(id.0)
        }

        #[doc = concat!("Every ", stringify!($record), ", ids ascending.")]
        pub fn $all(&self) -> impl ExactSizeIterator<Item = $record> + '_ {
            self.records()
        }

        #[doc = concat!("Inserts a ", stringify!($record), " as it is; the next id moves past every id that it names.")]
        pub fn $insert(&mut self, record: $record) -> Result<(), MapError> {
            self.insert(&record)
        }
    };
}

impl Map {
    /// A map without entities.
    pub fn new() -> Self {
        Self { lent: Lent { counter: 1, ..Lent::default() } }
    }

    /// A map from tables that a host kept itself (lanes, boundaries, roads, junctions, rules, stop lines, crosswalks), its coordinates and the next id;
    /// none if it is not sound.
    ///
    /// ```
    /// use voldrekka::Map;
    ///
    /// let empty = std::array::from_fn(|_| vec![0]);
    /// assert_eq!(Map::from_tables(1, empty, Vec::new()).unwrap().lanes().len(), 0);
    /// assert!(Map::from_tables(1, Default::default(), Vec::new()).is_none(), "a table has its count");
    /// ```
    pub fn from_tables(next: u64, words: [Vec<u64>; TABLES], coordinates: Vec<f64>) -> Option<Map> {
        let tables = Tables { words, coordinates };
        let map = Self { lent: Lent { counter: next, tables, ..Lent::default() } };
        map.is_sound().then_some(map)
    }

    /// Its tables, in the order of [`Map::from_tables`], and its coordinates.
    pub fn tables(&self) -> (&[Vec<u64>; TABLES], &[f64]) {
        (&self.lent.tables.words, &self.lent.tables.coordinates)
    }

    accessors!(Lane, LaneId, lane, lanes, insert_lane);
    accessors!(Boundary, BoundaryId, boundary, boundaries, insert_boundary);
    accessors!(Road, RoadId, road, roads, insert_road);
    accessors!(Junction, JunctionId, junction, junctions, insert_junction);
    accessors!(StopLine, StopLineId, stop_line, stop_lines, insert_stop_line);
    accessors!(Crosswalk, CrosswalkId, crosswalk, crosswalks, insert_crosswalk);
    accessors!(
        RegulatoryElement,
        RegulatoryElementId,
        regulatory_element,
        regulatory_elements,
        insert_regulatory_element
    );

    fn record<R: Record>(&self, id: u64) -> Option<R> {
        let row = self.lent.tables.find(R::TABLE, id).ok()?;
        Some(R::of_row(self.lent.tables.row(R::TABLE, row), &self.lent.tables))
    }

    fn records<R: Record>(&self) -> impl ExactSizeIterator<Item = R> + '_ {
        (0..self.lent.tables.count(R::TABLE))
            .map(|row| R::of_row(self.lent.tables.row(R::TABLE, row), &self.lent.tables))
    }

    fn insert<R: Record>(&mut self, record: &R) -> Result<(), MapError> {
        let Err(at) = self.lent.tables.find(R::TABLE, record.id()) else {
            return Err(MapError::DuplicateId(EntityRef::new(R::TABLE.kind(), record.id())));
        };
        self.fits(record)?;
        let starts = self.lent.tables.store(&record.lines());
        self.lent.tables.insert(R::TABLE, at, &record.row(&starts));
        let listed = record.lists().into_iter().flat_map(|(ids, _)| ids);
        for id in record.named().into_iter().chain(listed) {
            self.lent.counter = self.lent.counter.max(id.saturating_add(1));
        }
        Ok(())
    }

    /// Whether the limits leave room for one more record.
    fn fits<R: Record>(&self, record: &R) -> Result<(), MapError> {
        let points: usize = record.lines().iter().map(|l| l.len()).sum();
        let longest = record.lines().iter().map(|l| l.len()).max().unwrap_or(0);
        let counts = [
            ("entities of a kind", self.lent.tables.count(R::TABLE) + 1, R::TABLE.max_rows()),
            ("points in a line", longest, MAX_LINE_POINTS),
            ("points in a map", self.lent.tables.points() + points, MAX_POINTS),
        ];
        let lists = record.lists().into_iter().map(|(ids, limit)| ("ids in a list", ids.len(), limit));
        match counts.into_iter().chain(lists).find(|(_, n, limit)| n > limit) {
            Some((what, _, limit)) => Err(MapError::TooMany { what, limit }),
            None => Ok(()),
        }
    }

    /// The id that is allocated next.
    pub fn next_id(&self) -> u64 {
        self.lent.counter.max(1)
    }

    /// Sets the id that is allocated next. A map is sound only if it exceeds every id that the map names.
    pub fn set_next_id(&mut self, next: u64) {
        self.lent.counter = next;
    }

    /// Whether the map is sound: the library's own test.
    pub fn is_sound(&self) -> bool {
        let words = &self.lent.tables.words;
        sys::sound(self.lent.counter, std::array::from_fn(|t| &words[t][..]), &self.lent.tables.coordinates)
    }

    /// Why the map is not sound; none if it is.
    pub fn fault(&self) -> Option<Fault> {
        let words = &self.lent.tables.words;
        let flaw = sys::fault(self.lent.counter, std::array::from_fn(|t| &words[t][..]), &self.lent.tables.coordinates);
        let clause = CLAUSES.get(flaw.clause as usize).copied().unwrap_or("a clause of soundness fails");
        (flaw.clause != 0).then(|| Fault { clause, entity: self.entity_at(flaw.table, flaw.row) })
    }

    fn entity_at(&self, table: u64, row: u64) -> Option<EntityRef> {
        let table = *Table::ALL.get(table as usize)?;
        let row = usize::try_from(row).ok().filter(|row| *row < self.lent.tables.count(table))?;
        Some(EntityRef::new(table.kind(), self.lent.tables.row(table, row)[ROW_ID]))
    }

    /// Whether an entity is in the map.
    pub fn contains(&self, entity: EntityRef) -> bool {
        let table = Table::ALL.into_iter().find(|t| t.kind() == entity.kind());
        table.is_some_and(|t| self.lent.tables.find(t, entity.raw()).is_ok())
    }

    // ---- lines that follow from the records

    /// A lane's boundary on a side, along the lane.
    pub fn oriented_boundary(&self, lane: &Lane, side: Side) -> Option<Polyline3> {
        let reference = lane.boundary(side);
        let line = self.boundary(reference.boundary)?.geometry;
        Some(if reference.reversed { line.reversed() } else { line })
    }

    /// A lane's centreline: its own, or the one halfway between its boundaries.
    pub fn centerline(&self, lane: &Lane) -> Option<Polyline3> {
        if lane.centerline.is_some() {
            return lane.centerline.clone();
        }
        Polyline3::centerline(&self.oriented_boundary(lane, Side::Left)?, &self.oriented_boundary(lane, Side::Right)?)
    }

    /// How far the end of one lane is from the start of another: the larger distance of their left and of their right ends.
    pub fn connection_gap(&self, from: LaneId, to: LaneId) -> Option<f64> {
        let (from, to) = (self.lane(from)?, self.lane(to)?);
        let gap = |side| {
            let end = self.oriented_boundary(&from, side)?.last()?;
            Some(end.distance(self.oriented_boundary(&to, side)?.first()?))
        };
        Some(gap(Side::Left)?.max(gap(Side::Right)?))
    }
}
