//! The tables of a map, in memory that the map owns, and how their rows hold records.

use crate::geometry::{Point3, Polyline3};
use crate::ids::*;
use crate::layout::*;
use crate::records::*;
use crate::sys::TABLES;

/// A table of words, in the order in which they are lent.
#[derive(Debug, Clone, Copy, PartialEq, Eq)]
pub enum Table {
    Lanes,
    Boundaries,
    Roads,
    Junctions,
    Rules,
    StopLines,
    Crosswalks,
}

impl Table {
    /// Every table, in the order in which they are lent.
    pub const ALL: [Table; TABLES] = [
        Table::Lanes,
        Table::Boundaries,
        Table::Roads,
        Table::Junctions,
        Table::Rules,
        Table::StopLines,
        Table::Crosswalks,
    ];

    /// Words of a row, rows at most, and the kind of its entities.
    const fn shape(self) -> (usize, usize, EntityKind) {
        match self {
            Table::Lanes => (LANE_WORDS, MAX_LANES, EntityKind::Lane),
            Table::Boundaries => (BOUNDARY_WORDS, MAX_BOUNDARIES, EntityKind::Boundary),
            Table::Roads => (ROAD_WORDS, MAX_ROADS, EntityKind::Road),
            Table::Junctions => (JUNCTION_WORDS, MAX_JUNCTIONS, EntityKind::Junction),
            Table::Rules => (RULE_WORDS, MAX_RULES, EntityKind::RegulatoryElement),
            Table::StopLines => (STOP_LINE_WORDS, MAX_STOP_LINES, EntityKind::StopLine),
            Table::Crosswalks => (CROSSWALK_WORDS, MAX_CROSSWALKS, EntityKind::Crosswalk),
        }
    }

    pub const fn row_words(self) -> usize {
        self.shape().0
    }

    pub const fn max_rows(self) -> usize {
        self.shape().1
    }

    pub const fn kind(self) -> EntityKind {
        self.shape().2
    }

    /// The longest that its slice need ever be.
    pub const fn max_len(self) -> usize {
        1 + self.max_rows() * self.row_words()
    }

    fn row_start(self, row: usize) -> usize {
        1 + row * self.row_words()
    }
}

/// The columns that hold lines: the table, the start's column (the size stands behind it), and the column of the mark that says
/// whether there is one.
const LINES: [(Table, usize, Option<usize>); 5] = [
    (Table::Boundaries, BOUNDARY_START, None),
    (Table::Lanes, LANE_CENTERLINE_START, Some(LANE_CENTERLINE)),
    (Table::StopLines, STOP_LINE_START, None),
    (Table::Crosswalks, CROSSWALK_LEFT_START, None),
    (Table::Crosswalks, CROSSWALK_RIGHT_START, None),
];

/// A line in the coordinates, in points, and the words that say so.
struct Span {
    start: usize,
    size: usize,
    table: Table,
    word: usize,
}

#[derive(Debug, Clone)]
pub struct Tables {
    pub words: [Vec<u64>; TABLES],
    pub coordinates: Vec<f64>,
}

impl Default for Tables {
    /// Tables without rows.
    fn default() -> Self {
        Self { words: std::array::from_fn(|_| vec![0]), coordinates: Vec::new() }
    }
}

impl Tables {
    pub fn count(&self, table: Table) -> usize {
        self.words[table as usize][ROW_COUNT] as usize
    }

    pub fn row(&self, table: Table, row: usize) -> &[u64] {
        let start = table.row_start(row);
        &self.words[table as usize][start..start + table.row_words()]
    }

    /// The row with an id, or where it would stand.
    pub fn find(&self, table: Table, id: u64) -> Result<usize, usize> {
        let (mut low, mut high) = (0, self.count(table));
        while low < high {
            let middle = low + (high - low) / 2;
            match self.row(table, middle)[ROW_ID].cmp(&id) {
                std::cmp::Ordering::Less => low = middle + 1,
                std::cmp::Ordering::Equal => return Ok(middle),
                std::cmp::Ordering::Greater => high = middle,
            }
        }
        Err(low)
    }

    /// Puts a row in its place; words past the table's rows are used first.
    pub fn insert(&mut self, table: Table, at: usize, row: &[u64]) {
        let count = self.count(table);
        let words = &mut self.words[table as usize];
        let end = table.row_start(count + 1);
        if words.len() < end {
            words.resize(end, 0);
        }
        let start = table.row_start(at);
        words.copy_within(start..table.row_start(count), start + table.row_words());
        words[start..start + row.len()].copy_from_slice(row);
        words[ROW_COUNT] += 1;
    }

    // ---- lines

    pub fn line(&self, start: u64, size: u64) -> Polyline3 {
        let floats = start as usize * POINT_FLOATS..(start + size) as usize * POINT_FLOATS;
        let points = self.coordinates[floats].chunks_exact(POINT_FLOATS);
        Polyline3::new(points.map(|p| Point3::new(p[0], p[1], p[2])).collect())
    }

    /// Every line that has a point.
    fn spans(&self) -> Vec<Span> {
        let mut spans = Vec::new();
        for (table, column, mark) in LINES {
            for row in 0..self.count(table) {
                let words = self.row(table, row);
                let (start, size) = (words[column] as usize, words[column + 1] as usize);
                if mark.is_none_or(|m| words[m] == 1) && size > 0 {
                    spans.push(Span { start, size, table, word: table.row_start(row) + column });
                }
            }
        }
        spans
    }

    /// How many points the lines have.
    pub fn points(&self) -> usize {
        self.spans().iter().map(|s| s.size).sum()
    }

    /// Brings the lines to the front of the coordinates, in the order in which they lie; the point behind them.
    fn pack(&mut self) -> usize {
        let mut spans = self.spans();
        spans.sort_by_key(|s| s.start);
        let mut place = 0;
        for s in spans {
            let floats = s.start * POINT_FLOATS..(s.start + s.size) * POINT_FLOATS;
            self.coordinates.copy_within(floats, place * POINT_FLOATS);
            self.words[s.table as usize][s.word] = place as u64;
            place += s.size;
        }
        place
    }

    /// Stores lines behind all others, and gives the start of each. There must be points left for them.
    pub fn store(&mut self, lines: &[&Polyline3]) -> Vec<u64> {
        let wanted: usize = lines.iter().map(|l| l.len()).sum();
        let mut end = self.spans().iter().map(|s| s.start + s.size).max().unwrap_or(0);
        if end + wanted > MAX_POINTS {
            end = self.pack();
        }
        let floats = (end + wanted) * POINT_FLOATS;
        if self.coordinates.len() < floats {
            self.coordinates.resize(floats, 0.0);
        }
        let mut starts = Vec::with_capacity(lines.len());
        for line in lines {
            starts.push(end as u64);
            for p in &line.points {
                self.coordinates[end * POINT_FLOATS..][..POINT_FLOATS].copy_from_slice(&[p.x, p.y, p.z]);
                end += 1;
            }
        }
        starts
    }
}

/// A record that is a row of a table.
pub trait Record: Sized {
    const TABLE: Table;
    fn id(&self) -> u64;
    /// The lines that are stored with it.
    fn lines(&self) -> Vec<&Polyline3>;
    /// The row, where its lines start there.
    fn row(&self, starts: &[u64]) -> Vec<u64>;
    fn of_row(row: &[u64], tables: &Tables) -> Self;
    /// Its lists of ids, each with the most that it may have.
    fn lists(&self) -> Vec<(Vec<u64>, usize)>;
    /// The ids that it names outside of lists, its own among them.
    fn named(&self) -> Vec<u64> {
        vec![self.id()]
    }
}

// ---- parts of a row

fn row_of(words: usize, set: &[(usize, u64)]) -> Vec<u64> {
    let mut row = vec![0; words];
    for &(column, word) in set {
        row[column] = word;
    }
    row
}

fn put_list(row: &mut [u64], at: usize, ids: &[u64]) {
    row[at] = ids.len() as u64;
    row[at + 1..at + 1 + ids.len()].copy_from_slice(ids);
}

fn put_line(row: &mut [u64], at: usize, start: u64, line: &Polyline3) {
    row[at] = start;
    row[at + 1] = line.len() as u64;
}

fn list<Id>(row: &[u64], at: usize, id: impl Fn(u64) -> Id) -> Vec<Id> {
    row[at + 1..][..row[at] as usize].iter().map(|&i| id(i)).collect()
}

fn raw<Id: Copy + Into<EntityRef>>(ids: &[Id]) -> Vec<u64> {
    ids.iter().map(|&id| id.into().raw()).collect()
}

fn kind<K: Kind>(row: &[u64], column: usize) -> K {
    K::of_number(row[column]).expect("a table of a map has legal kinds")
}

fn handle(row: &[u64], column: usize) -> Handle {
    Handle::try_from(row[column]).expect("a table of a map has legal handles")
}

fn neighbor(mark: u64, lane: u64) -> Option<Neighbor> {
    match mark {
        NEIGHBOR_NONE => None,
        NEIGHBOR_SAME => Some(Neighbor::same(LaneId(lane))),
        _ => Some(Neighbor::opposite(LaneId(lane))),
    }
}

/// A neighbour's mark and lane.
pub fn neighbor_words(neighbor: Option<Neighbor>) -> (u64, u64) {
    match neighbor {
        None => (NEIGHBOR_NONE, 0),
        Some(n) if n.direction == NeighborDirection::Same => (NEIGHBOR_SAME, n.lane.0),
        Some(n) => (NEIGHBOR_OPPOSITE, n.lane.0),
    }
}

// ---- records

impl Record for Lane {
    const TABLE: Table = Table::Lanes;

    fn id(&self) -> u64 {
        self.id.0
    }

    fn lines(&self) -> Vec<&Polyline3> {
        self.centerline.iter().collect()
    }

    fn row(&self, starts: &[u64]) -> Vec<u64> {
        let (left_mark, left_lane) = neighbor_words(self.left_neighbor);
        let (right_mark, right_lane) = neighbor_words(self.right_neighbor);
        let mut row = row_of(
            LANE_WORDS,
            &[
                (ROW_ID, self.id.0),
                (LANE_KIND, self.kind.number()),
                (LANE_LEFT, self.left.boundary.0),
                (LANE_LEFT_REVERSED, self.left.reversed.into()),
                (LANE_RIGHT, self.right.boundary.0),
                (LANE_RIGHT_REVERSED, self.right.reversed.into()),
                (LANE_CENTERLINE, self.centerline.is_some().into()),
                (LANE_SPEED, self.speed_limit.is_some().into()),
                (LANE_SPEED_BITS, self.speed_limit.map_or(0, |s| s.kmh.to_bits())),
                (LANE_ONE_WAY, self.one_way.into()),
                (LANE_TURN, self.turn_direction.number()),
                (LANE_ATTRIBUTES, self.attributes.into()),
                (LEFT_SLOT, left_mark),
                (LEFT_SLOT_LANE, left_lane),
                (RIGHT_SLOT, right_mark),
                (RIGHT_SLOT_LANE, right_lane),
            ],
        );
        if let (Some(line), [start]) = (&self.centerline, starts) {
            put_line(&mut row, LANE_CENTERLINE_START, *start, line);
        }
        put_list(&mut row, PREDECESSORS_AT, &raw(&self.predecessors));
        put_list(&mut row, SUCCESSORS_AT, &raw(&self.successors));
        row
    }

    fn of_row(row: &[u64], tables: &Tables) -> Self {
        let reference =
            |column: usize| BoundaryRef { boundary: BoundaryId(row[column]), reversed: row[column + 1] != 0 };
        Self {
            id: LaneId(row[ROW_ID]),
            kind: kind(row, LANE_KIND),
            left: reference(LANE_LEFT),
            right: reference(LANE_RIGHT),
            centerline: (row[LANE_CENTERLINE] != 0)
                .then(|| tables.line(row[LANE_CENTERLINE_START], row[LANE_CENTERLINE_SIZE])),
            speed_limit: (row[LANE_SPEED] != 0).then(|| SpeedLimit { kmh: f64::from_bits(row[LANE_SPEED_BITS]) }),
            one_way: row[LANE_ONE_WAY] != 0,
            turn_direction: kind(row, LANE_TURN),
            attributes: handle(row, LANE_ATTRIBUTES),
            left_neighbor: neighbor(row[LEFT_SLOT], row[LEFT_SLOT_LANE]),
            right_neighbor: neighbor(row[RIGHT_SLOT], row[RIGHT_SLOT_LANE]),
            predecessors: list(row, PREDECESSORS_AT, LaneId),
            successors: list(row, SUCCESSORS_AT, LaneId),
        }
    }

    fn lists(&self) -> Vec<(Vec<u64>, usize)> {
        vec![(raw(&self.predecessors), MAX_LINKS), (raw(&self.successors), MAX_LINKS)]
    }

    fn named(&self) -> Vec<u64> {
        let neighbors = [self.left_neighbor, self.right_neighbor];
        let mut ids = vec![self.id.0, self.left.boundary.0, self.right.boundary.0];
        ids.extend(neighbors.iter().flatten().map(|n| n.lane.0));
        ids
    }
}

impl Record for Boundary {
    const TABLE: Table = Table::Boundaries;

    fn id(&self) -> u64 {
        self.id.0
    }

    fn lines(&self) -> Vec<&Polyline3> {
        vec![&self.geometry]
    }

    fn row(&self, starts: &[u64]) -> Vec<u64> {
        let mut row = row_of(
            BOUNDARY_WORDS,
            &[(ROW_ID, self.id.0), (BOUNDARY_KIND, self.kind.number()), (BOUNDARY_ATTRIBUTES, self.attributes.into())],
        );
        put_line(&mut row, BOUNDARY_START, starts[0], &self.geometry);
        row
    }

    fn of_row(row: &[u64], tables: &Tables) -> Self {
        Self {
            id: BoundaryId(row[ROW_ID]),
            kind: kind(row, BOUNDARY_KIND),
            geometry: tables.line(row[BOUNDARY_START], row[BOUNDARY_SIZE]),
            attributes: handle(row, BOUNDARY_ATTRIBUTES),
        }
    }

    fn lists(&self) -> Vec<(Vec<u64>, usize)> {
        Vec::new()
    }
}

impl Record for Road {
    const TABLE: Table = Table::Roads;

    fn id(&self) -> u64 {
        self.id.0
    }

    fn lines(&self) -> Vec<&Polyline3> {
        Vec::new()
    }

    fn row(&self, _: &[u64]) -> Vec<u64> {
        let mut row = row_of(
            ROAD_WORDS,
            &[(ROW_ID, self.id.0), (ROAD_NAME, self.name.into()), (ROAD_ATTRIBUTES, self.attributes.into())],
        );
        put_list(&mut row, ROAD_LANES_AT, &raw(&self.lanes));
        row
    }

    fn of_row(row: &[u64], _: &Tables) -> Self {
        Self {
            id: RoadId(row[ROW_ID]),
            name: handle(row, ROAD_NAME),
            attributes: handle(row, ROAD_ATTRIBUTES),
            lanes: list(row, ROAD_LANES_AT, LaneId),
        }
    }

    fn lists(&self) -> Vec<(Vec<u64>, usize)> {
        vec![(raw(&self.lanes), MAX_IDS)]
    }
}

impl Record for Junction {
    const TABLE: Table = Table::Junctions;

    fn id(&self) -> u64 {
        self.id.0
    }

    fn lines(&self) -> Vec<&Polyline3> {
        Vec::new()
    }

    fn row(&self, _: &[u64]) -> Vec<u64> {
        let mut row = row_of(
            JUNCTION_WORDS,
            &[
                (ROW_ID, self.id.0),
                (JUNCTION_NAME, self.name.into()),
                (JUNCTION_OUTLINE, self.outline.into()),
                (JUNCTION_ATTRIBUTES, self.attributes.into()),
            ],
        );
        put_list(&mut row, JUNCTION_LANES_AT, &raw(&self.lanes));
        row
    }

    fn of_row(row: &[u64], _: &Tables) -> Self {
        Self {
            id: JunctionId(row[ROW_ID]),
            name: handle(row, JUNCTION_NAME),
            outline: handle(row, JUNCTION_OUTLINE),
            attributes: handle(row, JUNCTION_ATTRIBUTES),
            lanes: list(row, JUNCTION_LANES_AT, LaneId),
        }
    }

    fn lists(&self) -> Vec<(Vec<u64>, usize)> {
        vec![(raw(&self.lanes), MAX_IDS)]
    }
}

impl Record for StopLine {
    const TABLE: Table = Table::StopLines;

    fn id(&self) -> u64 {
        self.id.0
    }

    fn lines(&self) -> Vec<&Polyline3> {
        vec![&self.geometry]
    }

    fn row(&self, starts: &[u64]) -> Vec<u64> {
        let mut row = row_of(STOP_LINE_WORDS, &[(ROW_ID, self.id.0), (STOP_LINE_ATTRIBUTES, self.attributes.into())]);
        put_line(&mut row, STOP_LINE_START, starts[0], &self.geometry);
        row
    }

    fn of_row(row: &[u64], tables: &Tables) -> Self {
        Self {
            id: StopLineId(row[ROW_ID]),
            geometry: tables.line(row[STOP_LINE_START], row[STOP_LINE_SIZE]),
            attributes: handle(row, STOP_LINE_ATTRIBUTES),
        }
    }

    fn lists(&self) -> Vec<(Vec<u64>, usize)> {
        Vec::new()
    }
}

impl Record for Crosswalk {
    const TABLE: Table = Table::Crosswalks;

    fn id(&self) -> u64 {
        self.id.0
    }

    fn lines(&self) -> Vec<&Polyline3> {
        vec![&self.left_edge, &self.right_edge]
    }

    fn row(&self, starts: &[u64]) -> Vec<u64> {
        let mut row = row_of(
            CROSSWALK_WORDS,
            &[
                (ROW_ID, self.id.0),
                (CROSSWALK_OUTLINE, self.outline.into()),
                (CROSSWALK_ATTRIBUTES, self.attributes.into()),
            ],
        );
        put_line(&mut row, CROSSWALK_LEFT_START, starts[0], &self.left_edge);
        put_line(&mut row, CROSSWALK_RIGHT_START, starts[1], &self.right_edge);
        row
    }

    fn of_row(row: &[u64], tables: &Tables) -> Self {
        Self {
            id: CrosswalkId(row[ROW_ID]),
            left_edge: tables.line(row[CROSSWALK_LEFT_START], row[CROSSWALK_LEFT_SIZE]),
            right_edge: tables.line(row[CROSSWALK_RIGHT_START], row[CROSSWALK_RIGHT_SIZE]),
            outline: handle(row, CROSSWALK_OUTLINE),
            attributes: handle(row, CROSSWALK_ATTRIBUTES),
        }
    }

    fn lists(&self) -> Vec<(Vec<u64>, usize)> {
        Vec::new()
    }
}

/// What the columns of a rule hold, of every kind of rule: a kind does not have all of them.
#[derive(Default)]
struct RuleParts {
    kind: u64,
    content: Handle,
    crosswalk: u64,
    stop_lines: Vec<StopLineId>,
    priority: Vec<LaneId>,
    yielding: Vec<LaneId>,
}

impl RuleParts {
    fn of(rule: &Rule) -> Self {
        let none = Self::default();
        match rule.clone() {
            Rule::TrafficLight { signals, stop_line } => {
                Self { kind: TRAFFIC_LIGHT, content: signals, stop_lines: stop_line.into_iter().collect(), ..none }
            }
            Rule::TrafficSign { sign, stop_line } => {
                Self { kind: TRAFFIC_SIGN, content: sign, stop_lines: stop_line.into_iter().collect(), ..none }
            }
            Rule::StopLine { stop_line } => Self { kind: STOP_LINE_RULE, stop_lines: vec![stop_line], ..none },
            Rule::RightOfWay { priority, yielding, stop_lines } => {
                Self { kind: RIGHT_OF_WAY, priority, yielding, stop_lines, ..none }
            }
            Rule::Crosswalk { crosswalk, stop_lines } => {
                Self { kind: CROSSWALK_RULE, crosswalk: crosswalk.0, stop_lines, ..none }
            }
            Rule::Other { kind } => Self { kind: OTHER_RULE, content: kind, ..none },
        }
    }

    fn rule(self) -> Rule {
        let first = self.stop_lines.first().copied();
        match self.kind {
            TRAFFIC_LIGHT => Rule::TrafficLight { signals: self.content, stop_line: first },
            TRAFFIC_SIGN => Rule::TrafficSign { sign: self.content, stop_line: first },
            STOP_LINE_RULE => Rule::StopLine { stop_line: first.expect("a stop-line rule has its stop line") },
            RIGHT_OF_WAY => {
                Rule::RightOfWay { priority: self.priority, yielding: self.yielding, stop_lines: self.stop_lines }
            }
            CROSSWALK_RULE => Rule::Crosswalk { crosswalk: CrosswalkId(self.crosswalk), stop_lines: self.stop_lines },
            _ => Rule::Other { kind: self.content },
        }
    }
}

impl Record for RegulatoryElement {
    const TABLE: Table = Table::Rules;

    fn id(&self) -> u64 {
        self.id.0
    }

    fn lines(&self) -> Vec<&Polyline3> {
        Vec::new()
    }

    fn row(&self, _: &[u64]) -> Vec<u64> {
        let parts = RuleParts::of(&self.rule);
        let mut row = row_of(
            RULE_WORDS,
            &[
                (ROW_ID, self.id.0),
                (RULE_KIND, parts.kind),
                (RULE_CONTENT, parts.content.into()),
                (RULE_ATTRIBUTES, self.attributes.into()),
                (RULE_CROSSWALK, parts.crosswalk),
            ],
        );
        put_list(&mut row, RULE_LANES_AT, &raw(&self.lanes));
        put_list(&mut row, RULE_CONTROLLED_AT, &raw(&self.controlled_crosswalks));
        put_list(&mut row, RULE_STOP_LINES_AT, &raw(&parts.stop_lines));
        put_list(&mut row, RULE_PRIORITY_AT, &raw(&parts.priority));
        put_list(&mut row, RULE_YIELDING_AT, &raw(&parts.yielding));
        row
    }

    fn of_row(row: &[u64], _: &Tables) -> Self {
        let parts = RuleParts {
            kind: row[RULE_KIND],
            content: handle(row, RULE_CONTENT),
            crosswalk: row[RULE_CROSSWALK],
            stop_lines: list(row, RULE_STOP_LINES_AT, StopLineId),
            priority: list(row, RULE_PRIORITY_AT, LaneId),
            yielding: list(row, RULE_YIELDING_AT, LaneId),
        };
        Self {
            id: RegulatoryElementId(row[ROW_ID]),
            rule: parts.rule(),
            lanes: list(row, RULE_LANES_AT, LaneId),
            controlled_crosswalks: list(row, RULE_CONTROLLED_AT, CrosswalkId),
            attributes: handle(row, RULE_ATTRIBUTES),
        }
    }

    fn lists(&self) -> Vec<(Vec<u64>, usize)> {
        let parts = RuleParts::of(&self.rule);
        let lists = [
            raw(&self.lanes),
            raw(&self.controlled_crosswalks),
            raw(&parts.stop_lines),
            raw(&parts.priority),
            raw(&parts.yielding),
        ];
        lists.into_iter().map(|ids| (ids, MAX_IDS)).collect()
    }

    fn named(&self) -> Vec<u64> {
        let mut ids = vec![self.id.0];
        if let Rule::Crosswalk { crosswalk, .. } = self.rule {
            ids.push(crosswalk.0);
        }
        ids
    }
}
