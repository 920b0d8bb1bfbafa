//! The lent tables of docs/DESIGN.md, section 3, and how they hold a `Map`.

use std::collections::{BTreeMap, BTreeSet};

use vectormap_core::*;

pub const LANES: usize = 0;
pub const BOUNDARIES: usize = 1;
pub const ROADS: usize = 2;
pub const JUNCTIONS: usize = 3;
pub const RULES: usize = 4;
pub const STOP_LINES: usize = 5;
pub const CROSSWALKS: usize = 6;
pub const COORDINATES: usize = 7;

pub const NAMES: [&str; 8] = [
    "lanes",
    "boundaries",
    "roads",
    "junctions",
    "rules",
    "stop lines",
    "crosswalks",
    "coordinates",
];

/// Words of a row.
pub const ROW: [usize; 7] = [52, 5, 68, 69, 330, 4, 7];
/// Rows at most (document 01, "The map").
pub const LIMIT: [usize; 7] = [1024, 4096, 256, 256, 512, 512, 128];
pub const LINE: usize = 256;
pub const POINTS: usize = 65_536;
pub const LINKS: usize = 16;
pub const IDS: usize = 64;

/// Places in a lane's row.
pub mod lane {
    pub const ID: usize = 0;
    pub const KIND: usize = 1;
    pub const LEFT: usize = 2;
    pub const LEFT_REVERSED: usize = 3;
    pub const RIGHT: usize = 4;
    pub const RIGHT_REVERSED: usize = 5;
    pub const CENTRE: usize = 6;
    pub const START: usize = 7;
    pub const LENGTH: usize = 8;
    pub const SPEED: usize = 9;
    pub const SPEED_BITS: usize = 10;
    pub const ONE_WAY: usize = 11;
    pub const TURN: usize = 12;
    pub const ATTRIBUTES: usize = 13;
    pub const LEFT_MARK: usize = 14;
    pub const RIGHT_MARK: usize = 16;
    pub const PREDECESSORS: usize = 18;
    pub const SUCCESSORS: usize = 35;
}

/// Places of a rule's lists.
pub mod rule {
    pub const DATA: usize = 2;
    pub const ATTRIBUTES: usize = 3;
    pub const CROSSWALK: usize = 4;
    pub const LANES: usize = 5;
    pub const CONTROLLED: usize = 70;
    pub const STOP_LINES: usize = 135;
    pub const PRIORITY: usize = 200;
    pub const YIELDING: usize = 265;
}

/// Rule kinds in the Rust's order.
pub mod kind {
    pub const TRAFFIC_LIGHT: u64 = 0;
    pub const TRAFFIC_SIGN: u64 = 1;
    pub const STOP_LINE: u64 = 2;
    pub const RIGHT_OF_WAY: u64 = 3;
    pub const CROSSWALK: u64 = 4;
    pub const OTHER: u64 = 5;
}

#[derive(Clone, Debug, Default)]
pub struct Tables {
    pub words: [Vec<u64>; 7],
    pub xyz: Vec<f64>,
}

impl Tables {
    pub fn count(&self, table: usize) -> usize {
        self.words[table][0] as usize
    }

    pub fn row(&self, table: usize, i: usize) -> &[u64] {
        let at = 1 + i * ROW[table];
        &self.words[table][at..at + ROW[table]]
    }

    pub fn row_mut(&mut self, table: usize, i: usize) -> &mut [u64] {
        let at = 1 + i * ROW[table];
        &mut self.words[table][at..at + ROW[table]]
    }

    pub fn rows(&self, table: usize) -> impl Iterator<Item = &[u64]> {
        (0..self.count(table)).map(move |i| self.row(table, i))
    }

    pub fn same(&self, other: &Tables) -> bool {
        self.words == other.words
            && self.xyz.len() == other.xyz.len()
            && self
                .xyz
                .iter()
                .zip(&other.xyz)
                .all(|(a, b)| a.to_bits() == b.to_bits())
    }

    fn line(&self, start: u64, length: u64) -> Polyline3 {
        let (a, n) = (start as usize, length as usize);
        if n == 0 {
            return Polyline3::default();
        }
        Polyline3::new(
            self.xyz[3 * a..3 * (a + n)]
                .chunks(3)
                .map(|p| Point3::new(p[0], p[1], p[2]))
                .collect(),
        )
    }
}

// ---- kinds and handles -------------------------------------------------------------------------

const LANE_KINDS: [LaneKind; 8] = [
    LaneKind::Driving,
    LaneKind::Shoulder,
    LaneKind::Bus,
    LaneKind::Bicycle,
    LaneKind::Walkway,
    LaneKind::Parking,
    LaneKind::Emergency,
    LaneKind::Other,
];

const TURNS: [Option<TurnDirection>; 4] = [
    None,
    Some(TurnDirection::Straight),
    Some(TurnDirection::Left),
    Some(TurnDirection::Right),
];

const PATTERNS: [MarkingPattern; 5] = [
    MarkingPattern::Solid,
    MarkingPattern::Dashed,
    MarkingPattern::SolidSolid,
    MarkingPattern::SolidDashed,
    MarkingPattern::DashedSolid,
];

const WEIGHTS: [MarkingWeight; 2] = [MarkingWeight::Thin, MarkingWeight::Thick];

pub fn lane_kind(word: u64) -> LaneKind {
    LANE_KINDS[word as usize]
}

pub fn turn(word: u64) -> Option<TurnDirection> {
    TURNS[word as usize]
}

/// 0 virtual, 1 to 10 markings, 11 curb, 12 road edge, 13 other.
pub fn boundary_kind(word: u64) -> BoundaryKind {
    match word {
        0 => BoundaryKind::Virtual,
        1..=10 => BoundaryKind::LaneMarking {
            pattern: PATTERNS[(word as usize - 1) / 2],
            weight: WEIGHTS[(word as usize - 1) % 2],
        },
        11 => BoundaryKind::Curb,
        12 => BoundaryKind::RoadEdge,
        _ => BoundaryKind::Other,
    }
}

fn boundary_word(kind: BoundaryKind) -> u64 {
    (0..14).find(|w| boundary_kind(*w) == kind).expect("a kind")
}

/// Names, sign data and other kinds are handles, in the Rust strings of digits.
pub fn handle_text(handle: u64) -> String {
    handle.to_string()
}

fn text_handle(text: &str) -> u64 {
    text.parse().expect("a handle")
}

/// An outline is a handle, in the Rust a polygon of one point.
pub fn handle_outline(handle: u64) -> Option<Polygon3> {
    Some(Polygon3 {
        points: vec![Point3::new(handle as f64, 0.0, 0.0)],
    })
}

fn outline_handle(outline: &Option<Polygon3>) -> u64 {
    outline.as_ref().expect("an outline").points[0].x as u64
}

// ---- view --------------------------------------------------------------------------------------

fn list<T>(words: &[u64], id: impl Fn(u64) -> T) -> Vec<T> {
    words[1..1 + words[0] as usize]
        .iter()
        .map(|w| id(*w))
        .collect()
}

fn neighbor(mark: u64, lane: u64) -> Option<Neighbor> {
    match mark {
        0 => None,
        1 => Some(Neighbor::same(LaneId(lane))),
        _ => Some(Neighbor::opposite(LaneId(lane))),
    }
}

/// The map that sound tables hold.
pub fn view(t: &Tables, counter: u64) -> Map {
    let mut m = Map::new();
    for r in t.rows(LANES) {
        let id = LaneId(r[lane::ID]);
        m.insert_lane(Lane {
            id,
            kind: lane_kind(r[lane::KIND]),
            left: BoundaryRef {
                boundary: BoundaryId(r[lane::LEFT]),
                reversed: r[lane::LEFT_REVERSED] == 1,
            },
            right: BoundaryRef {
                boundary: BoundaryId(r[lane::RIGHT]),
                reversed: r[lane::RIGHT_REVERSED] == 1,
            },
            centerline: (r[lane::CENTRE] == 1).then(|| t.line(r[lane::START], r[lane::LENGTH])),
            speed_limit: (r[lane::SPEED] == 1)
                .then(|| SpeedLimit::from_kmh(f64::from_bits(r[lane::SPEED_BITS]))),
            one_way: r[lane::ONE_WAY] == 1,
            turn_direction: turn(r[lane::TURN]),
            attributes: Attributes(r[lane::ATTRIBUTES]),
        })
        .expect("ids ascend");
        let links = LaneLinks {
            predecessors: list(&r[lane::PREDECESSORS..], LaneId),
            successors: list(&r[lane::SUCCESSORS..], LaneId),
            left: neighbor(r[lane::LEFT_MARK], r[lane::LEFT_MARK + 1]),
            right: neighbor(r[lane::RIGHT_MARK], r[lane::RIGHT_MARK + 1]),
        };
        access::set_links(&mut m, id, links);
    }
    for r in t.rows(BOUNDARIES) {
        m.insert_boundary(Boundary {
            id: BoundaryId(r[0]),
            kind: boundary_kind(r[1]),
            geometry: t.line(r[2], r[3]),
            attributes: Attributes(r[4]),
        })
        .expect("ids ascend");
    }
    for r in t.rows(ROADS) {
        m.insert_road(Road {
            id: RoadId(r[0]),
            name: Some(handle_text(r[1])),
            lanes: list(&r[3..], LaneId),
            attributes: Attributes(r[2]),
        })
        .expect("ids ascend");
    }
    for r in t.rows(JUNCTIONS) {
        m.insert_junction(Junction {
            id: JunctionId(r[0]),
            name: Some(handle_text(r[1])),
            lanes: list(&r[4..], LaneId),
            outline: handle_outline(r[2]),
            attributes: Attributes(r[3]),
        })
        .expect("ids ascend");
    }
    for r in t.rows(RULES) {
        // What the kind does not have is not read.
        let stop_line = || (r[rule::STOP_LINES] == 1).then(|| StopLineId(r[rule::STOP_LINES + 1]));
        let stop_lines = || list(&r[rule::STOP_LINES..], StopLineId);
        m.insert_regulatory_element(RegulatoryElement {
            id: RegulatoryElementId(r[0]),
            rule: match r[1] {
                kind::TRAFFIC_LIGHT => Rule::TrafficLight {
                    signals: vec![SignalId(r[rule::DATA])],
                    stop_line: stop_line(),
                },
                kind::TRAFFIC_SIGN => Rule::TrafficSign {
                    sign_type: handle_text(r[rule::DATA]),
                    sign: None,
                    stop_line: stop_line(),
                },
                kind::STOP_LINE => Rule::StopLine {
                    stop_line: StopLineId(r[rule::STOP_LINES + 1]),
                },
                kind::RIGHT_OF_WAY => Rule::RightOfWay {
                    priority: list(&r[rule::PRIORITY..], LaneId),
                    yielding: list(&r[rule::YIELDING..], LaneId),
                    stop_lines: stop_lines(),
                },
                kind::CROSSWALK => Rule::Crosswalk {
                    crosswalk: CrosswalkId(r[rule::CROSSWALK]),
                    stop_lines: stop_lines(),
                },
                _ => Rule::Other {
                    kind: handle_text(r[rule::DATA]),
                },
            },
            lanes: list(&r[rule::LANES..], LaneId),
            controlled_crosswalks: list(&r[rule::CONTROLLED..], CrosswalkId),
            attributes: Attributes(r[rule::ATTRIBUTES]),
        })
        .expect("ids ascend");
    }
    for r in t.rows(STOP_LINES) {
        m.insert_stop_line(StopLine {
            id: StopLineId(r[0]),
            geometry: t.line(r[1], r[2]),
            attributes: Attributes(r[3]),
        })
        .expect("ids ascend");
    }
    for r in t.rows(CROSSWALKS) {
        m.insert_crosswalk(Crosswalk {
            id: CrosswalkId(r[0]),
            left_edge: t.line(r[1], r[2]),
            right_edge: t.line(r[3], r[4]),
            polygon: handle_outline(r[5]),
            attributes: Attributes(r[6]),
        })
        .expect("ids ascend");
    }
    access::set_counter(&mut m, counter);
    m
}

// ---- records written onto rows -----------------------------------------------------------------

/// A list onto its slots: the count and the ids; the slots past them stay.
fn put_list(words: &mut [u64], ids: impl ExactSizeIterator<Item = u64>) {
    words[0] = ids.len() as u64;
    for (i, id) in ids.enumerate() {
        words[1 + i] = id;
    }
}

/// Where a line is to lie: its start and its length in points; `None` leaves the words as they are.
pub type Place = Option<(usize, usize)>;

fn put_place(words: &mut [u64], place: Place) {
    if let Some((start, length)) = place {
        words[0] = start as u64;
        words[1] = length as u64;
    }
}

fn put_neighbor(words: &mut [u64], n: Option<Neighbor>) {
    match n {
        None => words[0] = 0,
        Some(n) => {
            words[0] = match n.direction {
                NeighborDirection::Same => 1,
                NeighborDirection::Opposite => 2,
            };
            words[1] = n.lane.0;
        }
    }
}

pub fn lane_onto(r: &mut [u64], l: &Lane, m: &Map, centre: Place) {
    r[lane::ID] = l.id.0;
    r[lane::KIND] = LANE_KINDS
        .iter()
        .position(|k| *k == l.kind)
        .expect("a kind") as u64;
    r[lane::LEFT] = l.left.boundary.0;
    r[lane::LEFT_REVERSED] = l.left.reversed as u64;
    r[lane::RIGHT] = l.right.boundary.0;
    r[lane::RIGHT_REVERSED] = l.right.reversed as u64;
    r[lane::CENTRE] = l.centerline.is_some() as u64;
    if l.centerline.is_some() {
        put_place(&mut r[lane::START..], centre);
    }
    r[lane::SPEED] = l.speed_limit.is_some() as u64;
    if let Some(s) = l.speed_limit {
        r[lane::SPEED_BITS] = s.kmh.to_bits();
    }
    r[lane::ONE_WAY] = l.one_way as u64;
    r[lane::TURN] = TURNS
        .iter()
        .position(|t| *t == l.turn_direction)
        .expect("a turn") as u64;
    r[lane::ATTRIBUTES] = l.attributes.0;
    put_neighbor(&mut r[lane::LEFT_MARK..], m.neighbor(l.id, Side::Left));
    put_neighbor(&mut r[lane::RIGHT_MARK..], m.neighbor(l.id, Side::Right));
    put_list(
        &mut r[lane::PREDECESSORS..],
        m.predecessors(l.id).iter().map(|x| x.0),
    );
    put_list(
        &mut r[lane::SUCCESSORS..],
        m.successors(l.id).iter().map(|x| x.0),
    );
}

pub fn boundary_onto(r: &mut [u64], b: &Boundary, place: Place) {
    r[0] = b.id.0;
    r[1] = boundary_word(b.kind);
    put_place(&mut r[2..], place);
    r[4] = b.attributes.0;
}

pub fn road_onto(r: &mut [u64], x: &Road) {
    r[0] = x.id.0;
    r[1] = text_handle(x.name.as_ref().expect("a name"));
    r[2] = x.attributes.0;
    put_list(&mut r[3..], x.lanes.iter().map(|l| l.0));
}

pub fn junction_onto(r: &mut [u64], x: &Junction) {
    r[0] = x.id.0;
    r[1] = text_handle(x.name.as_ref().expect("a name"));
    r[2] = outline_handle(&x.outline);
    r[3] = x.attributes.0;
    put_list(&mut r[4..], x.lanes.iter().map(|l| l.0));
}

pub fn rule_onto(r: &mut [u64], x: &RegulatoryElement) {
    r[0] = x.id.0;
    r[rule::ATTRIBUTES] = x.attributes.0;
    put_list(&mut r[rule::LANES..], x.lanes.iter().map(|l| l.0));
    put_list(
        &mut r[rule::CONTROLLED..],
        x.controlled_crosswalks.iter().map(|l| l.0),
    );
    let stops = x.rule.stop_lines();
    if !matches!(x.rule, Rule::Other { .. }) {
        put_list(&mut r[rule::STOP_LINES..], stops.iter().map(|l| l.0));
    }
    match &x.rule {
        Rule::TrafficLight { signals, .. } => {
            r[1] = kind::TRAFFIC_LIGHT;
            r[rule::DATA] = signals[0].0;
        }
        Rule::TrafficSign { sign_type, .. } => {
            r[1] = kind::TRAFFIC_SIGN;
            r[rule::DATA] = text_handle(sign_type);
        }
        Rule::StopLine { .. } => r[1] = kind::STOP_LINE,
        Rule::RightOfWay {
            priority, yielding, ..
        } => {
            r[1] = kind::RIGHT_OF_WAY;
            put_list(&mut r[rule::PRIORITY..], priority.iter().map(|l| l.0));
            put_list(&mut r[rule::YIELDING..], yielding.iter().map(|l| l.0));
        }
        Rule::Crosswalk { crosswalk, .. } => {
            r[1] = kind::CROSSWALK;
            r[rule::CROSSWALK] = crosswalk.0;
        }
        Rule::Other { kind } => {
            r[1] = kind::OTHER;
            r[rule::DATA] = text_handle(kind);
        }
    }
}

pub fn stop_line_onto(r: &mut [u64], x: &StopLine, place: Place) {
    r[0] = x.id.0;
    put_place(&mut r[1..], place);
    r[3] = x.attributes.0;
}

pub fn crosswalk_onto(r: &mut [u64], x: &Crosswalk, left: Place, right: Place) {
    r[0] = x.id.0;
    put_place(&mut r[1..], left);
    put_place(&mut r[3..], right);
    r[5] = outline_handle(&x.polygon);
    r[6] = x.attributes.0;
}

/// Every line of the map in the order of the layout: boundaries by id, centrelines by lane id, stop
/// lines, crosswalks' left edges, crosswalks' right edges.
pub fn lines(m: &Map) -> Vec<&Polyline3> {
    let mut all: Vec<&Polyline3> = m.boundaries().map(|b| &b.geometry).collect();
    all.extend(m.lanes().filter_map(|l| l.centerline.as_ref()));
    all.extend(m.stop_lines().map(|s| &s.geometry));
    all.extend(m.crosswalks().map(|c| &c.left_edge));
    all.extend(m.crosswalks().map(|c| &c.right_edge));
    all
}

/// Writes every record onto its row; `places` gives the lines' places in the order of `lines`.
pub fn write_rows(t: &mut Tables, m: &Map, mut places: impl Iterator<Item = Place>) {
    let mut next = || places.next().flatten();
    let counts = counts(m);
    for (k, n) in counts.into_iter().enumerate() {
        t.words[k][0] = n as u64;
    }
    for (i, b) in m.boundaries().enumerate() {
        let place = next();
        boundary_onto(t.row_mut(BOUNDARIES, i), b, place);
    }
    for (i, l) in m.lanes().enumerate() {
        let place = if l.centerline.is_some() { next() } else { None };
        lane_onto(t.row_mut(LANES, i), l, m, place);
    }
    for (i, s) in m.stop_lines().enumerate() {
        let place = next();
        stop_line_onto(t.row_mut(STOP_LINES, i), s, place);
    }
    let left: Vec<Place> = m.crosswalks().map(|_| next()).collect();
    for (i, c) in m.crosswalks().enumerate() {
        let right = next();
        crosswalk_onto(t.row_mut(CROSSWALKS, i), c, left[i], right);
    }
    for (i, x) in m.roads().enumerate() {
        road_onto(t.row_mut(ROADS, i), x);
    }
    for (i, x) in m.junctions().enumerate() {
        junction_onto(t.row_mut(JUNCTIONS, i), x);
    }
    for (i, x) in m.regulatory_elements().enumerate() {
        rule_onto(t.row_mut(RULES, i), x);
    }
}

pub fn counts(m: &Map) -> [usize; 7] {
    [
        m.lane_count(),
        m.boundary_count(),
        m.road_count(),
        m.junction_count(),
        m.regulatory_element_count(),
        m.stop_line_count(),
        m.crosswalk_count(),
    ]
}

fn ids(m: &Map, table: usize) -> BTreeSet<u64> {
    match table {
        LANES => m.lanes().map(|x| x.id.0).collect(),
        BOUNDARIES => m.boundaries().map(|x| x.id.0).collect(),
        ROADS => m.roads().map(|x| x.id.0).collect(),
        JUNCTIONS => m.junctions().map(|x| x.id.0).collect(),
        RULES => m.regulatory_elements().map(|x| x.id.0).collect(),
        STOP_LINES => m.stop_lines().map(|x| x.id.0).collect(),
        _ => m.crosswalks().map(|x| x.id.0).collect(),
    }
}

pub fn write_line(xyz: &mut [f64], start: usize, line: &Polyline3) {
    for (i, p) in line.points.iter().enumerate() {
        let at = 3 * (start + i);
        xyz[at] = p.x;
        xyz[at + 1] = p.y;
        xyz[at + 2] = p.z;
    }
}

/// The closing tables of an edit that made `m` of what `t` holds. Rows that stay are packed with all
/// their words, then every record is written onto its row; what is not used stays. With `anew` all
/// lines are laid out anew from point 0, else each stays where it is.
pub fn store(t: &Tables, m: &Map, anew: bool) -> Tables {
    let mut out = t.clone();
    for table in 0..7 {
        let stay = ids(m, table);
        let mut at = 0;
        for i in 0..t.count(table) {
            if stay.contains(&t.row(table, i)[0]) {
                if at != i {
                    out.row_mut(table, at).copy_from_slice(t.row(table, i));
                }
                at += 1;
            }
        }
    }
    if anew {
        let mut at = 0;
        let mut places = Vec::new();
        for line in lines(m) {
            write_line(&mut out.xyz, at, line);
            places.push(Some((at, line.len())));
            at += line.len();
        }
        write_rows(&mut out, m, places.into_iter());
    } else {
        write_rows(&mut out, m, std::iter::repeat(None));
    }
    out
}

// ---- records -----------------------------------------------------------------------------------

/// Every entity's record as words, floats and lines by their bits, under its kind and id. A lane's
/// record includes its links and neighbours.
pub fn records(m: &Map) -> BTreeMap<(u64, u64), Vec<u64>> {
    fn line(out: &mut Vec<u64>, l: &Polyline3) {
        out.push(l.len() as u64);
        for p in &l.points {
            out.extend([p.x.to_bits(), p.y.to_bits(), p.z.to_bits()]);
        }
    }
    let mut out = BTreeMap::new();
    let mut put = |e: EntityRef, r: Vec<u64>| {
        out.insert((e.kind() as u64, e.raw()), r);
    };
    for l in m.lanes() {
        let mut r = vec![0; ROW[LANES]];
        lane_onto(&mut r, l, m, None);
        if let Some(c) = &l.centerline {
            line(&mut r, c);
        }
        put(l.id.into(), r);
    }
    for b in m.boundaries() {
        let mut r = vec![0; ROW[BOUNDARIES]];
        boundary_onto(&mut r, b, None);
        line(&mut r, &b.geometry);
        put(b.id.into(), r);
    }
    for x in m.roads() {
        let mut r = vec![0; ROW[ROADS]];
        road_onto(&mut r, x);
        put(x.id.into(), r);
    }
    for x in m.junctions() {
        let mut r = vec![0; ROW[JUNCTIONS]];
        junction_onto(&mut r, x);
        put(x.id.into(), r);
    }
    for x in m.regulatory_elements() {
        let mut r = vec![0; ROW[RULES]];
        rule_onto(&mut r, x);
        put(x.id.into(), r);
    }
    for x in m.stop_lines() {
        let mut r = vec![0; ROW[STOP_LINES]];
        stop_line_onto(&mut r, x, None);
        line(&mut r, &x.geometry);
        put(x.id.into(), r);
    }
    for x in m.crosswalks() {
        let mut r = vec![0; ROW[CROSSWALKS]];
        crosswalk_onto(&mut r, x, None, None);
        line(&mut r, &x.left_edge);
        line(&mut r, &x.right_edge);
        put(x.id.into(), r);
    }
    out
}
