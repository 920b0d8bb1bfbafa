//! Writes a yard of a few hundred lanes to standard output, the same text at each run: `samples/terminal.yard`.
//!
//! Streets run from south to north in columns, each a chain of stretches along the container blocks: a loading lane and a passing lane to the
//! north, and the same to the south on the other side of a double line. At both ends turns lead from the loading lane of a street to that of
//! the next one.

use voldrekka::text::Document;
use voldrekka::*;

const COLUMNS: u64 = 12;
const ROWS: u64 = 6;
/// Metres: a lane's width, a stretch's length, and the distance of the streets.
const WIDTH: f64 = 4.0;
const LENGTH: f64 = 48.0;
const COLUMN: f64 = 28.0;
/// How far the handles of a turn's curve reach, in metres, and its segments.
const TURN: f64 = 16.0;
const SEGMENTS: u64 = 8;

/// Where ids begin, and how many a stretch takes.
const TURNS: u64 = 500;
const BOUNDARIES: u64 = 1000;
const TURN_BOUNDARIES: u64 = 1500;
const ROADS: u64 = 2000;
const STOP_LINES: u64 = 2500;
const RULES: u64 = 3000;
const LANES_OF_STRETCH: u64 = 4;
const BOUNDARIES_OF_STRETCH: u64 = 5;

/// The lanes of a stretch, from east to west.
const LOADING_NORTH: u64 = 0;
const PASSING_NORTH: u64 = 1;
const PASSING_SOUTH: u64 = 2;
const LOADING_SOUTH: u64 = 3;

/// A stretch of a street.
#[derive(Clone, Copy)]
struct Stretch {
    row: u64,
    column: u64,
}

impl Stretch {
    fn all() -> impl Iterator<Item = Stretch> {
        (0..ROWS).flat_map(|row| (0..COLUMNS).map(move |column| Stretch { row, column }))
    }

    fn number(self) -> u64 {
        self.row * COLUMNS + self.column
    }

    fn lane(self, lane: u64) -> LaneId {
        LaneId(1 + self.number() * LANES_OF_STRETCH + lane)
    }

    fn boundary(self, boundary: u64) -> BoundaryId {
        BoundaryId(BOUNDARIES + self.number() * BOUNDARIES_OF_STRETCH + boundary)
    }

    /// The street's double line.
    fn middle(self) -> f64 {
        (self.column as f64 + 0.5) * COLUMN
    }

    fn south(self) -> f64 {
        self.row as f64 * LENGTH
    }

    fn next(self) -> Option<Stretch> {
        (self.row + 1 < ROWS).then_some(Stretch { row: self.row + 1, ..self })
    }

    /// From west to east: edge, dashed, double, dashed, curb, all drawn to the north.
    fn boundaries(self) -> impl Iterator<Item = Boundary> {
        let kinds = [
            BoundaryKind::RoadEdge,
            BoundaryKind::DashedThin,
            BoundaryKind::SolidSolidThin,
            BoundaryKind::DashedThin,
            BoundaryKind::Curb,
        ];
        (0..BOUNDARIES_OF_STRETCH).zip(kinds).map(move |(i, kind)| {
            let (x, y) = (self.middle() + (i as f64 - 2.0) * WIDTH, self.south());
            Boundary::new(self.boundary(i), kind, Polyline3::from_xy(&[[x, y], [x, y + LENGTH]]))
        })
    }

    fn lanes(self) -> [Lane; LANES_OF_STRETCH as usize] {
        let along = |lane, left, right| Lane::new(self.lane(lane), self.boundary(left), self.boundary(right));
        let against = |lane, left, right| {
            let reference = |i| BoundaryRef::backward(self.boundary(i));
            Lane::new(self.lane(lane), reference(left), reference(right))
        };
        let mut lanes = [
            along(LOADING_NORTH, 3, 4),
            along(PASSING_NORTH, 2, 3),
            against(PASSING_SOUTH, 2, 1),
            against(LOADING_SOUTH, 1, 0),
        ];
        lanes[0].left_neighbor = Some(Neighbor::same(self.lane(PASSING_NORTH)));
        lanes[1].right_neighbor = Some(Neighbor::same(self.lane(LOADING_NORTH)));
        lanes[1].left_neighbor = Some(Neighbor::opposite(self.lane(PASSING_SOUTH)));
        lanes[2].left_neighbor = Some(Neighbor::opposite(self.lane(PASSING_NORTH)));
        lanes[2].right_neighbor = Some(Neighbor::same(self.lane(LOADING_SOUTH)));
        lanes[3].left_neighbor = Some(Neighbor::same(self.lane(PASSING_SOUTH)));
        for (lane, kmh) in lanes.iter_mut().zip([8.0, 25.0, 25.0, 8.0]) {
            lane.speed_limit = Some(SpeedLimit { kmh });
        }
        lanes
    }

    /// Where loading tractors stop for the crane, and the rule that says so.
    fn stop(self) -> (StopLine, RegulatoryElement) {
        let id = StopLineId(STOP_LINES + self.number());
        let (x, y) = (self.middle() + WIDTH, self.south() + LENGTH - 3.0);
        let geometry = Polyline3::from_xy(&[[x, y], [x + WIDTH, y]]);
        let rule = RegulatoryElement {
            id: RegulatoryElementId(RULES + self.number()),
            rule: Rule::StopLine { stop_line: id },
            lanes: vec![self.lane(LOADING_NORTH)],
            controlled_crosswalks: Vec::new(),
            attributes: 0,
        };
        (StopLine { id, geometry, attributes: 0 }, rule)
    }
}

/// A turn from the loading lane of one street to that of another, at the north or the south end.
struct Turn {
    number: u64,
    from: LaneId,
    to: LaneId,
    /// Where its left and its right boundary start and end, on the streets' end.
    left: [f64; 2],
    right: [f64; 2],
    y: f64,
    /// 1 at the north end, -1 at the south end.
    out: f64,
}

impl Turn {
    fn all() -> Vec<Turn> {
        let mut turns = Vec::new();
        for column in 1..COLUMNS {
            let end = |row| (Stretch { row, column: column - 1 }, Stretch { row, column });
            let (west, east) = end(ROWS - 1);
            let (w, e) = (west.middle(), east.middle());
            turns.push(Turn {
                number: turns.len() as u64,
                from: west.lane(LOADING_NORTH),
                to: east.lane(LOADING_SOUTH),
                left: [w + WIDTH, e - WIDTH],
                right: [w + 2.0 * WIDTH, e - 2.0 * WIDTH],
                y: ROWS as f64 * LENGTH,
                out: 1.0,
            });
            let (west, east) = end(0);
            turns.push(Turn {
                number: turns.len() as u64,
                from: east.lane(LOADING_SOUTH),
                to: west.lane(LOADING_NORTH),
                left: [e - WIDTH, w + WIDTH],
                right: [e - 2.0 * WIDTH, w + 2.0 * WIDTH],
                y: 0.0,
                out: -1.0,
            });
        }
        turns
    }

    /// A curve whose ends stand upright on the streets' end; `reach` is how far its handles reach.
    fn curve(&self, ends: [f64; 2], reach: f64) -> Polyline3 {
        let point = |i: u64| {
            let t = i as f64 / SEGMENTS as f64;
            let s = 1.0 - t;
            let x = ends[0] * (s * s * s + 3.0 * s * s * t) + ends[1] * (3.0 * s * t * t + t * t * t);
            [x, self.y + self.out * reach * 3.0 * s * t]
        };
        Polyline3::from_xy(&(0..=SEGMENTS).map(point).collect::<Vec<_>>())
    }

    fn boundaries(&self) -> [Boundary; 2] {
        let id = |i| BoundaryId(TURN_BOUNDARIES + self.number * 2 + i);
        [
            Boundary::new(id(0), BoundaryKind::RoadEdge, self.curve(self.left, TURN)),
            Boundary::new(id(1), BoundaryKind::Virtual, self.curve(self.right, TURN - WIDTH)),
        ]
    }

    fn lane(&self) -> Lane {
        let [left, right] = self.boundaries().map(|b| b.id);
        let mut lane = Lane::new(LaneId(TURNS + self.number), left, right);
        lane.turn_direction = voldrekka::Turn::Right;
        lane.speed_limit = Some(SpeedLimit { kmh: 12.0 });
        lane
    }
}

fn put_stretch(map: &mut Map, stretch: Stretch) -> Result<(), MapError> {
    for boundary in stretch.boundaries() {
        map.insert_boundary(boundary)?;
    }
    let lanes = stretch.lanes();
    let ids = lanes.iter().map(|l| l.id).collect();
    map.insert_road(Road { id: RoadId(ROADS + stretch.number()), name: 0, attributes: 0, lanes: ids })?;
    for lane in lanes {
        map.insert_lane(lane)?;
    }
    let (stop_line, rule) = stretch.stop();
    map.insert_stop_line(stop_line)?;
    map.insert_regulatory_element(rule)
}

fn link(map: &mut Map, from: LaneId, to: LaneId) {
    let changes = map.connect(from, to).expect("both lanes are there");
    assert!(changes.warnings.is_empty(), "{from} and {to} meet");
}

fn yard() -> Result<Map, MapError> {
    let mut map = Map::new();
    for stretch in Stretch::all() {
        put_stretch(&mut map, stretch)?;
    }
    for (south, north) in Stretch::all().filter_map(|s| Some((s, s.next()?))) {
        for lane in [LOADING_NORTH, PASSING_NORTH] {
            link(&mut map, south.lane(lane), north.lane(lane));
        }
        for lane in [PASSING_SOUTH, LOADING_SOUTH] {
            link(&mut map, north.lane(lane), south.lane(lane));
        }
    }
    for turn in Turn::all() {
        for boundary in turn.boundaries() {
            map.insert_boundary(boundary)?;
        }
        map.insert_lane(turn.lane())?;
        link(&mut map, turn.from, turn.lane().id);
        link(&mut map, turn.lane().id, turn.to);
    }
    Ok(map)
}

fn main() -> Result<(), MapError> {
    let map = yard()?;
    assert!(map.is_sound(), "the yard is sound");
    println!("# A terminal of {} lanes, written by make_yard (host/) and not by hand.", map.lanes().len());
    print!("{}", Document::new(map).write());
    Ok(())
}
