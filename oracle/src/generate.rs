//! Random sound maps, and lists of calls on them. One number and one place give one case, whatever
//! came before. No sin or cos.

use std::collections::BTreeSet;

use vectormap_core::*;

use crate::damage;
use crate::rng::Rng;
use crate::sound::EDGE;
use crate::step::{Answer, Call, Room, State};
use crate::tables::*;

/// How large the lent tables may be.
#[derive(Clone, Copy, PartialEq)]
pub enum Profile {
    /// Within `SMALL`, for stored samples.
    Small,
    /// Mostly small maps, some of middle size, a few at the limits of document 01.
    Full,
}

/// Rows lent at most in the small profile, table by table, and coordinates (in floats).
pub const SMALL: [usize; 8] = [24, 64, 4, 3, 5, 6, 3, 4096];

/// A map and its list of calls.
#[derive(Clone)]
pub struct Case {
    pub tables: Tables,
    pub counter: u64,
    pub calls: Vec<(Call, Room)>,
}

/// One call of a case, with what was before and after it.
pub struct Turn<'a> {
    pub before: &'a State,
    pub call: &'a Call,
    pub room: &'a Room,
    pub answer: &'a Answer,
    pub after: &'a State,
}

impl Case {
    /// Makes the calls one after another, each on what the last one left.
    pub fn play(&self, mut visit: impl FnMut(Turn) -> bool) {
        let mut state = State::new(self.tables.clone(), self.counter);
        for (call, room) in &self.calls {
            let before = state.clone();
            let answer = state.step(call, room);
            let turn = Turn {
                before: &before,
                call,
                room,
                answer: &answer,
                after: &state,
            };
            if !visit(turn) {
                return;
            }
        }
    }
}

/// What a map is made for.
#[derive(Clone, Copy, PartialEq)]
enum Aim {
    Plain,
    /// A lane with 15 or 16 links one way.
    Links,
    /// Lists of 60 to 64 ids.
    Lists,
    /// Lines of 100 to 256 points.
    LongLines,
    /// No row to spare in some table.
    ShortTables,
    /// No point to spare.
    ShortPoints,
    /// The counter next to 2^64 - 1.
    Counter,
    /// Ids and the counter at 0.
    Zero,
    /// A distance or a position at exactly one of document 01's numbers, or a unit beside it.
    Edge,
    /// A sound map, then one clause broken.
    Damage(usize),
}

/// The schedule of aims: every aim and every way of damage comes round.
fn aim(index: usize) -> Aim {
    match index % 20 {
        3 => Aim::Links,
        6 => Aim::Lists,
        9 if index % 40 == 29 => Aim::LongLines,
        11 => Aim::ShortTables,
        13 => Aim::ShortPoints,
        15 => Aim::Counter,
        16 if index.is_multiple_of(3) => Aim::Zero,
        8 => Aim::Damage(index / 20 * 4),
        12 => Aim::Damage(index / 20 * 4 + 1),
        17 => Aim::Damage(index / 20 * 4 + 2),
        19 => Aim::Damage(index / 20 * 4 + 3),
        _ => Aim::Plain,
    }
}

pub fn case(seed: u64, index: usize, profile: Profile) -> Case {
    case_of(seed, index, profile, &ALL)
}

/// Every edit, by its place in `COMMANDS`.
pub const ALL: [usize; 6] = [0, 1, 2, 3, 4, 5];

/// The same with calls of these edits alone, by their places in `COMMANDS`.
pub fn case_of(seed: u64, index: usize, profile: Profile, edits: &[usize]) -> Case {
    let mut rng = Rng::new(seed ^ (index as u64 + 1).wrapping_mul(0xD134_2543_DE82_EF95));
    let rng = &mut rng;
    if profile == Profile::Full && index % 400 == 399 {
        return large(rng, index / 400, edits);
    }
    let aim = match (profile, index % 20) {
        (Profile::Full, 5 | 10) => Aim::Edge,
        _ => aim(index),
    };
    loop {
        let lanes = match profile {
            Profile::Full if index % 40 == 34 => rng.within(20, 90),
            _ => *rng.pick(&[1, 2, 2, 3, 3, 4, 4, 5, 6, 6, 7, 8]),
        };
        let (map, counter, first) = Builder::new(rng, aim, lanes).make();
        let tables = scatter(rng, &map, aim, profile);
        if let Aim::Damage(which) = aim {
            let (mut tables, mut counter) = (tables, counter);
            let state = State::new(tables.clone(), counter);
            assert!(
                state.map.is_some(),
                "the generator made a map that is not sound"
            );
            let n = rng.within(1, 2);
            let calls = calls(rng, state, n, edits);
            if !damage::apply(which, rng, &mut tables, &mut counter) {
                continue;
            }
            return Case {
                tables,
                counter,
                calls,
            };
        }
        let state = State::new(tables.clone(), counter);
        assert!(
            state.map.is_some(),
            "the generator made a map that is not sound"
        );
        let most = *rng.pick(&[1, 3, 6, 8, 12, 12, 16, 24, 40, 60]);
        let n = rng.within(1, most);
        let mut state = state;
        let mut all = Vec::new();
        for call in first {
            let room = room(rng, &state, &call);
            state.step(&call, &room);
            all.push((call, room));
        }
        all.extend(calls(rng, state, n, edits));
        return Case {
            tables,
            counter,
            calls: all,
        };
    }
}

/// A map of the same kinds for jobs, with the calls that it was made for; not sound where it is to be damaged.
pub fn map(seed: u64, index: usize) -> (Tables, u64, Vec<Call>) {
    let mut rng = Rng::new(seed ^ (index as u64 + 1).wrapping_mul(0xD134_2543_DE82_EF95));
    let rng = &mut rng;
    if index % 400 == 399 {
        let (m, counter) = large_map(rng, index / 400);
        return (crate::cases::plain(&m, 40, 400), counter, Vec::new());
    }
    let aim = match index % 20 {
        5 | 10 => Aim::Edge,
        _ => aim(index),
    };
    let lanes = match index % 40 {
        34 => rng.within(20, 90),
        _ => rng.within(2, 10),
    };
    loop {
        let (m, mut counter, first) = Builder::new(rng, aim, lanes).make();
        // Room for long jobs, or what single calls are lent.
        let mut tables = match aim {
            Aim::Plain if rng.chance(60) => {
                crate::cases::filled(&m, rng.within(20, 120), rng.within(100, 3000), rng.word())
            }
            _ => scatter(rng, &m, aim, Profile::Full),
        };
        match aim {
            Aim::Damage(way) if !damage::apply(way, rng, &mut tables, &mut counter) => continue,
            _ => return (tables, counter, first),
        }
    }
}

// ---- maps --------------------------------------------------------------------------------------

struct Builder<'a> {
    rng: &'a mut Rng,
    aim: Aim,
    size: usize,
    m: Map,
    used: [BTreeSet<u64>; 7],
    base: u64,
    span: usize,
    /// Whole numbers for coordinates, as in document 01's cases.
    whole: bool,
    corner: (f64, f64),
    /// The calls that the map was made for.
    first: Vec<Call>,
}

const DIRECTIONS: [(f64, f64); 10] = [
    (1.0, 0.0),
    (1.0, 0.0),
    (0.0, 1.0),
    (-1.0, 0.0),
    (0.0, -1.0),
    (0.6, 0.8),
    (-0.8, 0.6),
    (0.96, 0.28),
    (-0.28, -0.96),
    (1.0, 0.125),
];

impl<'a> Builder<'a> {
    fn new(rng: &'a mut Rng, aim: Aim, size: usize) -> Self {
        let span = 40 + 12 * size + rng.below(100);
        let base = match aim {
            Aim::Counter => u64::MAX - span as u64 + 1 - rng.below(6) as u64,
            Aim::Zero => 0,
            _ if rng.chance(5) => rng.word() >> rng.within(2, 40),
            _ => rng.below(3) as u64,
        };
        let corner = match rng.below(12) {
            0 => (EDGE - 30.0, -EDGE + 30.0),
            1 => (-EDGE, EDGE),
            _ => (rng.between(-300.0, 300.0), rng.between(-300.0, 300.0)),
        };
        let whole = rng.chance(35);
        Builder {
            rng,
            aim,
            size,
            m: Map::new(),
            used: Default::default(),
            base,
            span,
            whole,
            corner: if whole { (0.0, 0.0) } else { corner },
            first: Vec::new(),
        }
    }

    /// An id of this kind that is not taken yet.
    fn fresh(&mut self, table: usize) -> u64 {
        loop {
            let id = self.base + self.rng.below(self.span) as u64;
            if self.used[table].insert(id) {
                return id;
            }
        }
    }

    /// An id of this kind that nothing has.
    fn absent(&mut self, table: usize) -> u64 {
        loop {
            let id = self.base + self.rng.below(self.span) as u64;
            if !self.used[table].contains(&id) {
                return id;
            }
        }
    }

    fn handle(&mut self) -> u64 {
        match self.rng.below(6) {
            0 => self.rng.below(1 << 16) as u64,
            1 => (1 << 16) - 1,
            _ => self.rng.below(8) as u64,
        }
    }

    fn lane_ids(&self) -> Vec<u64> {
        self.used[LANES].iter().copied().collect()
    }

    fn some_lane(&mut self) -> LaneId {
        let ids = self.lane_ids();
        LaneId(*self.rng.pick(&ids))
    }

    fn make(mut self) -> (Map, u64, Vec<Call>) {
        match self.aim {
            Aim::Links => self.fan(),
            Aim::Zero => self.zero(),
            Aim::Edge => self.edge(),
            Aim::LongLines => self.corridor(1, 2),
            _ => {
                let mut left = self.size;
                while left > 0 {
                    let across = self.rng.within(1, left.min(4));
                    let along = self.rng.within(1, (left / across).clamp(1, 3));
                    self.corridor(across, along);
                    left -= (across * along).min(left);
                }
            }
        }
        if !matches!(self.aim, Aim::Zero | Aim::Edge) {
            self.features();
            if self.aim != Aim::LongLines {
                self.spice();
            }
            self.groups();
            self.rules();
        }
        let counter = self.counter();
        access::set_counter(&mut self.m, counter);
        (self.m, counter, self.first)
    }

    fn counter(&mut self) -> u64 {
        let top = highest(&self.m);
        match self.aim {
            Aim::Zero => self.rng.below(2) as u64,
            Aim::Counter => match top {
                Some(u64::MAX) => u64::MAX,
                Some(t) => {
                    let room = (u64::MAX - t - 1) as usize;
                    let back = self.rng.below(9.min(room + 1)) as u64;
                    u64::MAX - back
                }
                None => u64::MAX,
            },
            _ => {
                let least = top.map_or(0, |t| t + 1);
                let more = *self.rng.pick(&[0, 0, 0, 1, 10, 1000]);
                least + more
            }
        }
    }

    fn point(&mut self, at: (f64, f64), z: f64) -> Point3 {
        let hold = |x: f64| x.clamp(-EDGE, EDGE);
        let mut p = Point3::new(
            hold(self.corner.0 + at.0),
            hold(self.corner.1 + at.1),
            hold(z),
        );
        if self.rng.chance(20) {
            for x in [&mut p.x, &mut p.y, &mut p.z] {
                if *x == 0.0 {
                    *x = -0.0;
                }
            }
        }
        p
    }

    /// How many points a line gets.
    fn points(&mut self) -> usize {
        match self.aim {
            Aim::LongLines => *self.rng.pick(&[100, 127, 128, 129, 140, 200]),
            _ => *self.rng.pick(&[2, 2, 2, 3, 3, 4, 5]),
        }
    }

    fn boundary(&mut self, line: Polyline3) -> BoundaryId {
        let id = BoundaryId(self.fresh(BOUNDARIES));
        let attributes = Attributes(self.handle());
        let kind = boundary_kind(self.rng.below(14) as u64);
        let b = Boundary {
            id,
            kind,
            geometry: line,
            attributes,
        };
        self.m.insert_boundary(b).expect("a new id");
        id
    }

    fn speed(&mut self) -> Option<SpeedLimit> {
        let bits = match self.rng.below(10) {
            0..=3 => return None,
            4 => f64::NAN.to_bits(),
            5 => 0xFFF0_0000_0000_0001 | self.rng.word() >> 12,
            6 => 0f64.to_bits(),
            7 => (-0f64).to_bits(),
            8 => 30f64.to_bits(),
            _ => 50f64.to_bits(),
        };
        Some(SpeedLimit::from_kmh(f64::from_bits(bits)))
    }

    fn lane(&mut self, left: BoundaryRef, right: BoundaryRef) -> LaneId {
        let id = LaneId(self.fresh(LANES));
        let mut lane = Lane::new(id, left, right);
        if self.rng.chance(40) {
            lane.kind = lane_kind(self.rng.below(8) as u64);
        }
        lane.speed_limit = self.speed();
        lane.one_way = self.rng.chance(70);
        if self.rng.chance(25) {
            lane.turn_direction = turn(self.rng.below(4) as u64);
        }
        lane.attributes = Attributes(self.handle());
        self.m.insert_lane(lane).expect("a new id");
        id
    }

    /// Lanes side by side and one after another, sharing boundaries, linked and neighbours.
    fn corridor(&mut self, across: usize, along: usize) {
        let (dx, dy) = *self.rng.pick(&DIRECTIONS);
        let (width, step): (f64, f64) = if self.whole {
            (self.rng.within(2, 5) as f64, self.rng.within(4, 12) as f64)
        } else {
            (self.rng.between(2.0, 5.0), self.rng.between(1.0, 30.0))
        };
        let origin = if self.whole {
            (
                self.rng.below(3) as f64 * 10.0,
                self.rng.below(3) as f64 * -10.0,
            )
        } else {
            (self.rng.between(-50.0, 50.0), self.rng.between(-50.0, 50.0))
        };
        let (z, rise) = match self.rng.below(3) {
            0 => (self.rng.between(-5.0, 5.0), self.rng.between(-0.3, 0.3)),
            _ => (0.0, 0.0),
        };
        let wobble = if self.rng.chance(50) { 0.0 } else { 0.2 };
        let forward: Vec<bool> = (0..across).map(|_| self.rng.chance(75)).collect();
        let mut rows: Vec<Vec<LaneId>> = Vec::new();
        // Ends within and beyond the gap tolerance.
        let gap = *self.rng.pick(&[0.0, 0.0, 0.0, 0.05, 0.1, 0.5]);
        for s in 0..along {
            let from = s as f64 * (step + gap);
            let sides: Vec<(BoundaryId, bool)> = (0..=across)
                .map(|j| {
                    let n = self.points();
                    let mut line = Vec::new();
                    for i in 0..n {
                        let inner = i > 0 && i < n - 1;
                        let u = from + step * i as f64 / (n - 1) as f64;
                        let mut v = -(j as f64) * width;
                        if inner && !self.whole {
                            v += self.rng.between(-wobble, wobble);
                        }
                        let at = (origin.0 + dx * u - dy * v, origin.1 + dy * u + dx * v);
                        let p = self.point(at, z + rise * u);
                        line.push(p);
                        if inner && self.rng.chance(4) && self.aim != Aim::LongLines {
                            line.push(p);
                        }
                    }
                    let along_it = self.rng.chance(75);
                    if !along_it {
                        line.reverse();
                    }
                    (self.boundary(Polyline3::new(line)), along_it)
                })
                .collect();
            let row: Vec<LaneId> = (0..across)
                .map(|j| {
                    let side = |(boundary, along_it): (BoundaryId, bool)| BoundaryRef {
                        boundary,
                        reversed: along_it != forward[j],
                    };
                    let (a, b) = (side(sides[j]), side(sides[j + 1]));
                    if forward[j] {
                        self.lane(a, b)
                    } else {
                        self.lane(b, a)
                    }
                })
                .collect();
            for j in 1..across {
                if self.rng.chance(80) {
                    let side = if forward[j - 1] {
                        Side::Right
                    } else {
                        Side::Left
                    };
                    let n = if forward[j - 1] == forward[j] {
                        Neighbor::same(row[j])
                    } else {
                        Neighbor::opposite(row[j])
                    };
                    access::set_neighbor(&mut self.m, row[j - 1], side, Some(n));
                }
            }
            rows.push(row);
        }
        for s in 1..along {
            for j in 0..across {
                if self.rng.chance(85) {
                    let (a, b) = (rows[s - 1][j], rows[s][j]);
                    let (a, b) = if forward[j] { (a, b) } else { (b, a) };
                    access::add_link(&mut self.m, a, b);
                }
            }
        }
        // A ring.
        if self.rng.chance(12) {
            let (a, b) = (rows[0][0], rows[along - 1][0]);
            let (a, b) = if forward[0] { (b, a) } else { (a, b) };
            access::add_link(&mut self.m, a, b);
        }
    }

    /// One lane with 15 or 16 links one way, over few boundaries.
    fn fan(&mut self) {
        self.corridor(1, 1);
        self.corridor(1, 1);
        let boundaries: Vec<BoundaryId> = self.m.boundaries().map(|b| b.id).collect();
        for _ in 0..16 {
            let (a, b) = (*self.rng.pick(&boundaries), *self.rng.pick(&boundaries));
            self.lane(BoundaryRef::forward(a), BoundaryRef::forward(b));
        }
        let mut ids = self.lane_ids();
        self.rng.shuffle(&mut ids);
        let hub = LaneId(ids[0]);
        let inward = self.rng.chance(50);
        for other in &ids[1..1 + self.rng.within(15, 16)] {
            let (a, b) = (hub, LaneId(*other));
            let (a, b) = if inward { (b, a) } else { (a, b) };
            access::add_link(&mut self.m, a, b);
        }
    }

    /// Ids of 0, or nothing at all.
    fn zero(&mut self) {
        if self.rng.chance(25) {
            return;
        }
        self.span = 1;
        let line = |y: f64| Polyline3::from_xy(&[[0.0, y], [10.0, y]]);
        let b = self.boundary(line(self.size as f64));
        self.lane(BoundaryRef::forward(b), BoundaryRef::forward(b));
    }

    /// One of document 01's numbers met exactly, or missed by a unit, and the call that meets it.
    fn edge(&mut self) {
        match self.rng.below(10) {
            0 => {
                // Two lanes whose ends are the tolerance of a gap apart.
                let at = self.beside(0.1);
                let (from, to) = (self.straight(-8.0, 0.0), self.straight(at, 8.0));
                self.first.push(Call::Connect { from, to });
            }
            1 => {
                // Lines to be joined, as far apart as two points that are one.
                let at = self.beside(1e-6);
                let (first, second) = (self.straight(-8.0, 0.0), self.straight(at, 8.0));
                access::add_link(&mut self.m, LaneId(first), LaneId(second));
                self.first.push(Call::MergeLanes { first, second });
            }
            2 => {
                // The lane's own position.
                let lane = self.straight(0.0, 8.0);
                let near = *self.rng.pick(&[0.1, 8.0 - 0.1]);
                let at = SplitAt::Station(self.beside(near));
                let neighbors = self.rng.chance(50);
                self.first.push(Call::SplitLane {
                    lane,
                    at,
                    neighbors,
                });
            }
            3 => {
                // A neighbour's position: its line runs along x, the lane crosses it at this x.
                let near = *self.rng.pick(&[0.1, 8.0 - 0.1]);
                let x = self.beside(near);
                let lane = self.crossing(x, 0.0, &[[-4.0, 1.0, 0.0], [12.0, 1.0, 0.0]]);
                let other = self.straight(0.0, 8.0);
                let line = Polyline3::from_xy(&[[0.0, -3.0], [8.0, -3.0]]);
                self.m.lane_mut(LaneId(other)).expect("present").centerline = Some(line);
                let beside = Some(Neighbor::same(LaneId(other)));
                access::set_neighbor(&mut self.m, LaneId(lane), Side::Right, beside);
                self.cut_in_the_middle(lane, true);
            }
            4 | 8 => {
                // A boundary's position.
                let near = *self.rng.pick(&[1e-6, 8.0 - 1e-6]);
                let x = self.beside(near);
                let lane = self.crossing(x, 0.0, &[[0.0, 1.0, 0.0], [8.0, 1.0, 0.0]]);
                self.cut_in_the_middle(lane, false);
            }
            5 => {
                // A later segment that is nearer by EPSILON: the lane runs along x, at this y.
                let y = self.beside(1e-9);
                let there = [
                    [0.0, 0.0, 0.0],
                    [8.0, 0.0, 0.0],
                    [8.0, y, 0.0],
                    [0.0, y, 0.0],
                ];
                let lane = self.crossing(4.0, y, &there);
                let along = Polyline3::from_xy(&[[-4.0, y], [12.0, y]]);
                self.m.lane_mut(LaneId(lane)).expect("present").centerline = Some(along);
                self.cut_in_the_middle(lane, false);
            }
            6 | 9 => {
                // A segment as long as EPSILON in the plane, and 16 m high.
                let x = self.beside(1e-9);
                let there = [[0.0, 0.0, 0.0], [x, 0.0, 16.0], [8.0, 0.0, 16.0]];
                let lane = self.crossing(x / 2.0, 0.0, &there);
                self.cut_in_the_middle(lane, false);
            }
            _ => {
                // A point of the boundary EPSILON before the cut.
                let x = self.before_a_cut();
                let before = self.beside(x - 1e-9);
                let there = [[0.0, 0.0, 0.0], [before, 0.0, 0.0], [8.0, 0.0, 0.0]];
                let lane = self.crossing(x, 0.0, &there);
                self.cut_in_the_middle(lane, false);
            }
        }
    }

    /// This number, or the next one up or down.
    fn beside(&mut self, x: f64) -> f64 {
        *self.rng.pick(&[x, x, x.next_up(), x.next_down()])
    }

    /// A place such that the point EPSILON before it is further off than EPSILON, as floats go: the
    /// nearest segment is then the one behind that point.
    fn before_a_cut(&mut self) -> f64 {
        loop {
            let x = 1.0 + 6.0 * self.rng.unit();
            if x - (x - 1e-9) > 1e-9 {
                return x;
            }
        }
    }

    /// A lane along x between boundaries at y = 2 and y = -2.
    fn straight(&mut self, from: f64, to: f64) -> u64 {
        let side = |y: f64| Polyline3::from_xy(&[[from, y], [to, y]]);
        let (left, right) = (self.boundary(side(2.0)), self.boundary(side(-2.0)));
        self.lane(BoundaryRef::forward(left), BoundaryRef::forward(right))
            .0
    }

    /// A lane with a line of its own along y through (x, y), this left boundary, and a right one that
    /// anything crosses.
    fn crossing(&mut self, x: f64, y: f64, left: &[[f64; 3]]) -> u64 {
        let points = left.iter().map(|p| Point3::new(p[0], p[1], p[2]));
        let left = self.boundary(Polyline3::new(points.collect()));
        let right = self.boundary(Polyline3::from_xy(&[[-4.0, -2.0], [12.0, -2.0]]));
        let lane = self.lane(BoundaryRef::forward(left), BoundaryRef::forward(right));
        let line = Polyline3::from_xy(&[[x, y - 5.0], [x, y + 5.0]]);
        self.m.lane_mut(lane).expect("present").centerline = Some(line);
        lane.0
    }

    fn cut_in_the_middle(&mut self, lane: u64, neighbors: bool) {
        let at = SplitAt::Fraction(0.5);
        self.first.push(Call::SplitLane {
            lane,
            at,
            neighbors,
        });
    }

    /// Stop lines and crosswalks, some empty or of one point.
    fn features(&mut self) {
        let most = if self.full() { 2 } else { 0 };
        for _ in 0..self.rng.within(most / 2, 2 + most) {
            let line = self.across();
            let s = StopLine {
                id: StopLineId(self.fresh(STOP_LINES)),
                geometry: line,
                attributes: Attributes(self.handle()),
            };
            self.m.insert_stop_line(s).expect("a new id");
        }
        for _ in 0..self.rng.within(most / 2, 2) {
            let c = Crosswalk {
                id: CrosswalkId(self.fresh(CROSSWALKS)),
                left_edge: self.across(),
                right_edge: self.across(),
                polygon: handle_outline(self.handle()),
                attributes: Attributes(self.handle()),
            };
            self.m.insert_crosswalk(c).expect("a new id");
        }
    }

    /// Every table has rows, so that any clause can be broken.
    fn full(&self) -> bool {
        matches!(self.aim, Aim::Damage(_))
    }

    /// A line across some lane.
    fn across(&mut self) -> Polyline3 {
        match self.rng.below(12) {
            0 => return Polyline3::default(),
            1 => return Polyline3::new(vec![self.point((1.0, 1.0), 0.0)]),
            _ => {}
        }
        let lane = self.some_lane();
        let Some(c) = self.m.centerline(lane) else {
            return Polyline3::default();
        };
        let f = *self.rng.pick(&[0.0, 0.3, 0.5, 0.5, 0.7, 0.8, 1.0]);
        let Some(p) = c.point_at_fraction(f) else {
            return Polyline3::default();
        };
        let d = self.rng.between(0.5, 3.0);
        let hold = |x: f64| x.clamp(-EDGE, EDGE);
        let (a, b) = (
            Point3::new(hold(p.x - d), hold(p.y + d), p.z),
            Point3::new(hold(p.x + d), hold(p.y - d), p.z),
        );
        if self.rng.chance(30) {
            Polyline3::new(vec![a, p, b])
        } else {
            Polyline3::new(vec![a, b])
        }
    }

    fn explicit(&mut self, lane: LaneId) -> Polyline3 {
        let derived = self.m.centerline(lane);
        let line = match (self.rng.below(10), derived) {
            (0, _) | (_, None) => Polyline3::default(),
            (1, Some(c)) => Polyline3::new(c.first().into_iter().collect()),
            (2, Some(c)) => c.slice(c.length() * 0.2, c.length() * 0.9),
            (3, Some(c)) => c.reversed(),
            (4 | 5, Some(c)) => c.resample_count(self.rng.within(2, 6)),
            (_, Some(c)) => c,
        };
        if line.len() > LINE {
            Polyline3::default()
        } else {
            line
        }
    }

    /// Departures from the orderly corridor.
    fn spice(&mut self) {
        let size = self.size.max(2);
        for _ in 0..self.rng.within(0, size) {
            let lane = self.some_lane();
            let other = self.some_lane();
            let side = *self.rng.pick(&[Side::Left, Side::Right]);
            match self.rng.below(26) {
                0..=4 => {
                    let line = self.explicit(lane);
                    self.m.lane_mut(lane).expect("present").centerline = Some(line);
                }
                5 => {
                    // A copy of its own instead of the shared boundary.
                    let r = self.m.lane(lane).expect("present").boundary(side);
                    if let Some(b) = self.m.boundary(r.boundary) {
                        let line = b.geometry.clone();
                        let id = self.boundary(line);
                        self.side(lane, side).boundary = id;
                    }
                }
                6 => {
                    // The other lane's boundary on the same side, whatever it is.
                    let r = self.m.lane(other).expect("present").boundary(side);
                    *self.side(lane, side) = r;
                }
                7 => {
                    let r = *self.side(lane, side);
                    *self.side(lane, side.opposite()) = r;
                }
                8 => {
                    let r = *self.side(lane, side);
                    *self.side(lane, side.opposite()) = BoundaryRef {
                        reversed: !r.reversed,
                        ..r
                    };
                }
                9 | 22 => {
                    // A missing boundary, half of the time beside a line of the lane's own.
                    let line = self.m.centerline(lane);
                    let id = BoundaryId(self.absent(BOUNDARIES));
                    self.side(lane, side).boundary = id;
                    if self.rng.chance(60) {
                        self.m.lane_mut(lane).expect("present").centerline = line;
                    }
                }
                10 => {
                    // A boundary of no or one point, likewise.
                    let line = self.m.centerline(lane);
                    let id = self.side(lane, side).boundary;
                    let keep = self.rng.below(2);
                    if let Some(b) = self.m.boundary_mut(id) {
                        b.geometry.points.truncate(keep);
                    }
                    if self.rng.chance(50) {
                        self.m.lane_mut(lane).expect("present").centerline = line;
                    }
                }
                11 => {
                    // A boundary that does not reach across the whole lane.
                    let id = self.side(lane, side).boundary;
                    if let Some(b) = self.m.boundary_mut(id) {
                        let n = b.geometry.length();
                        b.geometry = b.geometry.slice(0.0, n * 0.3);
                    }
                }
                12 => access::add_link(&mut self.m, lane, lane),
                13 | 14 => access::add_link(&mut self.m, lane, other),
                15 => {
                    access::add_link(&mut self.m, lane, other);
                    access::add_link(&mut self.m, other, lane);
                }
                16 | 17 => {
                    access::set_neighbor(&mut self.m, lane, side, Some(Neighbor::same(other)));
                }
                18 => {
                    access::set_neighbor(&mut self.m, lane, side, Some(Neighbor::opposite(other)));
                }
                19 => access::set_neighbor(&mut self.m, lane, side, Some(Neighbor::same(lane))),
                20 => access::set_neighbor(&mut self.m, lane, side, Some(Neighbor::opposite(lane))),
                23 | 24 => {
                    // An explicit empty centreline, of a lane with a neighbour if there is one.
                    let beside = self.m.left_neighbor(lane).or(self.m.right_neighbor(lane));
                    let lane = beside.unwrap_or(lane);
                    let empty = Some(Polyline3::default());
                    self.m.lane_mut(lane).expect("present").centerline = empty;
                }
                _ => {
                    // A boundary that no lane uses.
                    let line = self.across();
                    self.boundary(line);
                }
            }
        }
        // No lane passes the limit of links.
        for id in self.lane_ids() {
            while self.m.successors(LaneId(id)).len() > LINKS {
                let to = self.m.successors(LaneId(id))[0];
                self.m.disconnect(LaneId(id), to).expect("linked");
            }
            while self.m.predecessors(LaneId(id)).len() > LINKS {
                let from = self.m.predecessors(LaneId(id))[0];
                self.m.disconnect(from, LaneId(id)).expect("linked");
            }
        }
    }

    fn side(&mut self, lane: LaneId, side: Side) -> &mut BoundaryRef {
        self.m.lane_mut(lane).expect("present").boundary_mut(side)
    }

    /// A list of lanes, some of them absent, none twice.
    fn list(&mut self, most: usize) -> Vec<LaneId> {
        let n = match self.aim {
            Aim::Lists => self.rng.within(60, IDS),
            _ => self.rng.below(most + 1),
        };
        let mut ids: Vec<LaneId> = self.m.lanes().map(|l| l.id).collect();
        self.rng.shuffle(&mut ids);
        ids.truncate(n);
        // A small span of ids has few that are absent.
        let mut tries = 0;
        while ids.len() < n && tries < 1000 && (self.aim == Aim::Lists || self.rng.chance(40)) {
            tries += 1;
            let id = LaneId(self.absent(LANES));
            if !ids.contains(&id) {
                let at = self.rng.below(ids.len() + 1);
                ids.insert(at, id);
            }
        }
        ids
    }

    fn groups(&mut self) {
        let least = self.full() as usize;
        for _ in 0..self.rng.within(least, 2) {
            let r = Road {
                id: RoadId(self.fresh(ROADS)),
                name: Some(handle_text(self.handle())),
                lanes: self.list(5),
                attributes: Attributes(self.handle()),
            };
            self.m.insert_road(r).expect("a new id");
        }
        for _ in 0..self.rng.within(least, 2) {
            let j = Junction {
                id: JunctionId(self.fresh(JUNCTIONS)),
                name: Some(handle_text(self.handle())),
                lanes: self.list(4),
                outline: handle_outline(self.handle()),
                attributes: Attributes(self.handle()),
            };
            self.m.insert_junction(j).expect("a new id");
        }
    }

    /// A present id of the kind, or an absent one.
    fn named(&mut self, table: usize) -> u64 {
        let ids: Vec<u64> = self.used[table].iter().copied().collect();
        if ids.is_empty() || self.rng.chance(20) {
            return self.absent(table);
        }
        *self.rng.pick(&ids)
    }

    fn rules(&mut self) {
        let least = self.full() as usize;
        let n = if self.full() { 4 } else { 3 };
        for i in 0..self.rng.within(least * 3, n) {
            let stops = self.rng.below(4);
            let stop_lines: Vec<StopLineId> = (0..stops)
                .map(|_| StopLineId(self.named(STOP_LINES)))
                .collect();
            let one = StopLineId(self.named(STOP_LINES));
            let some = self.rng.chance(60).then_some(one);
            // Where clauses are to be broken, one rule of each sort is there.
            let kind = match (self.full(), i) {
                (true, 0) => kind::RIGHT_OF_WAY,
                (true, 1) => kind::CROSSWALK,
                (true, 2) => {
                    [kind::TRAFFIC_LIGHT, kind::TRAFFIC_SIGN, kind::STOP_LINE][self.rng.below(3)]
                }
                _ => self.rng.below(6) as u64,
            };
            let rule = match kind {
                kind::TRAFFIC_LIGHT => Rule::TrafficLight {
                    signals: vec![SignalId(self.handle())],
                    stop_line: some,
                },
                kind::TRAFFIC_SIGN => Rule::TrafficSign {
                    sign_type: handle_text(self.handle()),
                    sign: None,
                    stop_line: some,
                },
                kind::STOP_LINE => Rule::StopLine { stop_line: one },
                kind::RIGHT_OF_WAY => Rule::RightOfWay {
                    priority: self.list(4),
                    yielding: self.list(4),
                    stop_lines,
                },
                kind::CROSSWALK => Rule::Crosswalk {
                    crosswalk: CrosswalkId(self.named(CROSSWALKS)),
                    stop_lines,
                },
                _ => Rule::Other {
                    kind: handle_text(self.handle()),
                },
            };
            let controlled = self.rng.below(3);
            let r = RegulatoryElement {
                id: RegulatoryElementId(self.fresh(RULES)),
                rule,
                lanes: self.list(4),
                controlled_crosswalks: (0..controlled)
                    .map(|_| CrosswalkId(self.named(CROSSWALKS)))
                    .collect(),
                attributes: Attributes(self.handle()),
            };
            self.m.insert_regulatory_element(r).expect("a new id");
        }
    }
}

/// The highest id in the map, those of absent things named in it too.
fn highest(m: &Map) -> Option<u64> {
    let mut ids: Vec<u64> = Vec::new();
    for l in m.lanes() {
        ids.extend([l.id.0, l.left.boundary.0, l.right.boundary.0]);
    }
    ids.extend(m.boundaries().map(|b| b.id.0));
    for r in m.roads() {
        ids.push(r.id.0);
        ids.extend(r.lanes.iter().map(|l| l.0));
    }
    for j in m.junctions() {
        ids.push(j.id.0);
        ids.extend(j.lanes.iter().map(|l| l.0));
    }
    for r in m.regulatory_elements() {
        ids.push(r.id.0);
        ids.extend(r.lanes.iter().map(|l| l.0));
        ids.extend(r.controlled_crosswalks.iter().map(|c| c.0));
        ids.extend(r.rule.stop_lines().iter().map(|s| s.0));
        ids.extend(r.rule.referenced_lanes().iter().map(|l| l.0));
        ids.extend(r.rule.crosswalk().map(|c| c.0));
    }
    ids.extend(m.stop_lines().map(|s| s.id.0));
    ids.extend(m.crosswalks().map(|c| c.id.0));
    ids.into_iter().max()
}

// ---- tables ------------------------------------------------------------------------------------

/// A word that nobody is to read.
fn rubbish(rng: &mut Rng) -> u64 {
    match rng.below(8) {
        0 => rng.word(),
        1 => u64::MAX,
        2 => 1 << 16,
        _ => rng.below(120) as u64,
    }
}

/// A free coordinate: any number, a NaN or an infinity; in stored samples the plain NaN alone.
fn free_coordinate(rng: &mut Rng, profile: Profile) -> f64 {
    match rng.below(12) {
        0 if profile == Profile::Full => {
            f64::from_bits(0x7FF0_0000_0000_0001 | (rng.word() >> 12) | (rng.word() & 1 << 63))
        }
        0 => f64::from_bits(0x7FF8_0000_0000_0000),
        1 => f64::INFINITY,
        2 => f64::NEG_INFINITY,
        3 => 1e300,
        4 => -0.0,
        _ => rng.below(1000) as f64,
    }
}

/// Lends tables for the map: lines in any order with gaps between them, rubbish where nothing is
/// used, and more or less to spare.
fn scatter(rng: &mut Rng, m: &Map, aim: Aim, profile: Profile) -> Tables {
    let n = counts(m);
    let mut spare = [0; 7];
    for (k, spare) in spare.iter_mut().enumerate() {
        *spare = match k {
            LANES => rng.within(4, 16),
            BOUNDARIES => rng.within(8, 40),
            _ => rng.below(2),
        };
        if aim == Aim::ShortTables && k <= BOUNDARIES {
            *spare = rng.below(3);
        }
    }
    let dirty = *match profile {
        Profile::Small => rng.pick(&[0, 0, 3, 3, 12]),
        Profile::Full => rng.pick(&[0, 3, 12, 50, 100]),
    };
    let words = std::array::from_fn(|k| {
        let most = match profile {
            Profile::Small => SMALL[k],
            Profile::Full => LIMIT[k],
        };
        assert!(n[k] <= most, "{} {}", n[k], NAMES[k]);
        let rows = (n[k] + spare[k]).min(most);
        let over = if rows < most && rng.chance(20) {
            rng.below(ROW[k])
        } else {
            0
        };
        let mut w = vec![0; 1 + rows * ROW[k] + over];
        if k == RULES {
            // What a rule's kind does not have is not read: its words may hold anything.
            let often = match profile {
                Profile::Small => 2 * (dirty > 0) as usize,
                Profile::Full => dirty,
            };
            for x in w.iter_mut() {
                if rng.chance(often) {
                    *x = rubbish(rng);
                }
            }
        } else {
            for x in w.iter_mut() {
                if rng.chance(dirty) {
                    *x = rubbish(rng);
                }
            }
        }
        w
    });

    let all = lines(m);
    let used: usize = all.iter().map(|l| l.len()).sum();
    let most = match profile {
        Profile::Small => SMALL[COORDINATES] / 3,
        Profile::Full => POINTS,
    };
    assert!(used <= most, "{used} points");
    let mut gaps = if rng.chance(60) { rng.below(12) } else { 0 };
    let mut tail = match aim {
        Aim::ShortPoints => rng.below(4),
        Aim::LongLines => rng.below(200),
        _ => rng.within(20, 120),
    };
    if aim == Aim::ShortPoints {
        gaps = 0;
    }
    gaps = gaps.min(most - used);
    tail = tail.min(most - used - gaps);
    let over = if used + gaps + tail < most {
        rng.below(3)
    } else {
        0
    };
    let mut xyz = vec![0.0; 3 * (used + gaps + tail) + over];
    for x in xyz.iter_mut() {
        if rng.chance(dirty) {
            *x = free_coordinate(rng, profile);
        }
    }
    let mut order: Vec<usize> = (0..all.len()).collect();
    if rng.chance(60) {
        rng.shuffle(&mut order);
    }
    let mut places = vec![None; all.len()];
    let mut at = 0;
    for i in order {
        if gaps > 0 && rng.chance(40) {
            let g = rng.within(1, gaps);
            gaps -= g;
            at += g;
        }
        write_line(&mut xyz, at, all[i]);
        places[i] = Some((at, all[i].len()));
        at += all[i].len();
    }
    let mut t = Tables { words, xyz };
    write_rows(&mut t, m, places.into_iter());
    t
}

// ---- calls -------------------------------------------------------------------------------------

fn calls(rng: &mut Rng, mut state: State, n: usize, edits: &[usize]) -> Vec<(Call, Room)> {
    let mut out = Vec::new();
    for _ in 0..n {
        let call = loop {
            let call = call(rng, &state);
            if edits.contains(&call.command()) {
                break call;
            }
        };
        let room = room(rng, &state, &call);
        state.step(&call, &room);
        out.push((call, room));
    }
    out
}

/// What to lend for the lists: enough, just enough, or one too few.
fn room(rng: &mut Rng, state: &State, call: &Call) -> Room {
    let mut n = match state.clone().step(call, &Room::AMPLE) {
        Answer::Changed {
            created,
            modified,
            deleted,
            warnings,
            ..
        } => [created.len(), modified.len(), deleted.len(), warnings.len()],
        Answer::Refused { .. } => [0; 4],
    };
    match rng.below(10) {
        0..=5 => n.iter_mut().for_each(|n| *n += rng.below(4)),
        6..=8 => {}
        _ => {
            let i = rng.below(4);
            n[i] = n[i].saturating_sub(1);
        }
    }
    Room {
        created: n[0],
        modified: n[1],
        deleted: n[2],
        warnings: n[3],
    }
}

/// A call that may be refused.
pub fn call(rng: &mut Rng, state: &State) -> Call {
    let m = state.map.as_ref().expect("calls are made up on sound maps");
    let ids: Vec<u64> = m.lanes().map(|l| l.id.0).collect();
    let lane = |rng: &mut Rng| match rng.below(40) {
        0 => state.counter,
        1 => rng.below(200) as u64,
        _ if ids.is_empty() => rng.below(3) as u64,
        _ => *rng.pick(&ids),
    };
    match rng.below(100) {
        0..=16 => {
            let (mut from, mut to) = (lane(rng), lane(rng));
            // A lane with 15 or 16 links gets more of them.
            let many = |id: &&u64| {
                let (p, s) = (m.predecessors(LaneId(**id)), m.successors(LaneId(**id)));
                p.len().max(s.len()) >= LINKS - 1
            };
            if let Some(&hub) = ids.iter().find(many)
                && rng.chance(70)
            {
                let inward = m.predecessors(LaneId(hub)).len() >= LINKS - 1;
                let linked = match inward {
                    true => m.predecessors(LaneId(hub)),
                    false => m.successors(LaneId(hub)),
                };
                let free = ids
                    .iter()
                    .find(|id| **id != hub && !linked.contains(&LaneId(**id)));
                if let Some(&other) = free {
                    (from, to) = if inward { (other, hub) } else { (hub, other) };
                }
            }
            Call::Connect { from, to }
        }
        17..=25 => {
            let from = lane(rng);
            let linked = m.successors(LaneId(from));
            let to = match linked {
                [] => lane(rng),
                _ if rng.chance(25) => lane(rng),
                _ => rng.pick(linked).0,
            };
            Call::Disconnect { from, to }
        }
        26..=41 => {
            let from = lane(rng);
            let side = *rng.pick(&[Side::Left, Side::Right]);
            let held = m.neighbor(LaneId(from), side);
            let other = LaneId(lane(rng));
            let neighbor = match rng.below(10) {
                0 | 1 => None,
                2 => held,
                3 => held.map(|n| match n.direction {
                    NeighborDirection::Same => Neighbor::opposite(n.lane),
                    NeighborDirection::Opposite => Neighbor::same(n.lane),
                }),
                4..=7 => Some(Neighbor::same(other)),
                _ => Some(Neighbor::opposite(other)),
            };
            Call::SetNeighbor {
                lane: from,
                side,
                neighbor,
            }
        }
        42..=47 => Call::RemoveLane { lane: lane(rng) },
        48..=66 => {
            let pairs: Vec<(u64, u64)> = ids
                .iter()
                .filter_map(|a| match m.successors(LaneId(*a)) {
                    [b] if m.predecessors(*b).len() == 1 => Some((*a, b.0)),
                    _ => None,
                })
                .collect();
            if !pairs.is_empty() && rng.chance(85) {
                let (first, second) = *rng.pick(&pairs);
                return Call::MergeLanes { first, second };
            }
            let first = lane(rng);
            let second = match m.successors(LaneId(first)) {
                [] => lane(rng),
                list => rng.pick(list).0,
            };
            Call::MergeLanes { first, second }
        }
        _ => {
            let lane = lane(rng);
            let length = m.lane_length(LaneId(lane)).unwrap_or(1.0);
            let at = match rng.below(20) {
                0..=8 => SplitAt::Fraction(rng.between(0.05, 0.95)),
                9 | 10 => SplitAt::Fraction(0.5),
                11 => SplitAt::Fraction(*rng.pick(&[
                    0.0,
                    1.0,
                    -0.0,
                    f64::from_bits(0x7FF8_0000_0000_0000),
                    -0.5,
                    1.5,
                    f64::INFINITY,
                    1e-300,
                    f64::from_bits(0x3FEF_FFFF_FFFF_FFFF),
                ])),
                12..=16 => SplitAt::Station(length * rng.unit()),
                17 => SplitAt::Station(length * rng.between(-0.2, 1.2)),
                18 => SplitAt::Station(*rng.pick(&[
                    0.1,
                    0.1f64.next_up(),
                    length - 0.1,
                    (length - 0.1).next_down(),
                    length,
                ])),
                _ => SplitAt::Station(*rng.pick(&[
                    f64::from_bits(0x7FF8_0000_0000_0000),
                    0.0,
                    f64::NEG_INFINITY,
                    f64::INFINITY,
                    -0.0,
                ])),
            };
            Call::SplitLane {
                lane,
                at,
                neighbors: rng.chance(65),
            }
        }
    }
}

// ---- large maps --------------------------------------------------------------------------------

/// Rows of lanes side by side, each row linked to the next: `along` rows of `across`, `points` a line; the ids follow one another.
pub fn grid(along: usize, across: usize, points: usize) -> Map {
    grid_by(along, across, points, |place| 1 + place as u64)
}

/// The same with other ids, all of them different.
pub fn grid_by(along: usize, across: usize, points: usize, id: impl Fn(usize) -> u64) -> Map {
    let mut m = Map::new();
    let boundary = |r: usize, j: usize| BoundaryId((10_000 + r * (across + 1) + j) as u64);
    let lane = |r: usize, j: usize| LaneId(id(r * across + j));
    for r in 0..along {
        for j in 0..=across {
            let line = (0..points)
                .map(|i| {
                    let u = 20.0 * (r as f64 + i as f64 / (points - 1) as f64);
                    Point3::new(u, -3.5 * j as f64, 0.01 * u)
                })
                .collect();
            m.insert_boundary(Boundary::new(
                boundary(r, j),
                BoundaryKind::SOLID,
                Polyline3::new(line),
            ))
            .expect("a new id");
        }
        for j in 0..across {
            m.insert_lane(Lane::new(lane(r, j), boundary(r, j), boundary(r, j + 1)))
                .expect("a new id");
        }
        for j in 1..across {
            m.set_neighbor(
                lane(r, j - 1),
                Side::Right,
                Some(Neighbor::same(lane(r, j))),
            )
            .expect("two lanes");
        }
        for j in 0..across {
            if r > 0 {
                m.connect(lane(r - 1, j), lane(r, j)).expect("two lanes");
            }
        }
    }
    m
}

/// Roads, junctions and rules, one for each group of lanes.
pub fn furnish(m: &mut Map, roads: usize, junctions: usize, rules: usize) {
    for i in 0..roads {
        let r = Road {
            id: RoadId(i as u64),
            name: Some(handle_text(0)),
            lanes: (0..8).map(|k| LaneId((1 + i * 4 + k) as u64)).collect(),
            attributes: Attributes(0),
        };
        m.insert_road(r).expect("a new id");
    }
    for i in 0..junctions {
        let j = Junction {
            id: JunctionId(i as u64),
            name: Some(handle_text(0)),
            lanes: (0..8).map(|k| LaneId((3 + i * 4 + k) as u64)).collect(),
            outline: handle_outline(0),
            attributes: Attributes(0),
        };
        m.insert_junction(j).expect("a new id");
    }
    for i in 0..rules {
        let r = RegulatoryElement {
            id: RegulatoryElementId(i as u64),
            rule: Rule::RightOfWay {
                priority: vec![LaneId(i as u64 + 1)],
                yielding: vec![LaneId(i as u64 + 2)],
                stop_lines: vec![],
            },
            lanes: vec![LaneId(1 + 2 * i as u64), LaneId(2 + 2 * i as u64)],
            controlled_crosswalks: vec![],
            attributes: Attributes(0),
        };
        m.insert_regulatory_element(r).expect("a new id");
    }
}

/// Every list of every road, junction and rule with 64 lanes, `id` giving the lane at a place of a list.
pub fn furnish_long(m: &mut Map, id: impl Fn(usize, usize) -> u64) {
    furnish(m, LIMIT[ROADS], LIMIT[JUNCTIONS], LIMIT[RULES]);
    let list = |n: usize| -> Vec<LaneId> { (0..IDS).map(|k| LaneId(id(n, k))).collect() };
    for i in 0..LIMIT[ROADS] {
        m.road_mut(RoadId(i as u64)).expect("present").lanes = list(i);
    }
    for i in 0..LIMIT[JUNCTIONS] {
        m.junction_mut(JunctionId(i as u64)).expect("present").lanes = list(i + 1);
    }
    for i in 0..LIMIT[RULES] {
        let r = m.regulatory_element_mut(RegulatoryElementId(i as u64)).expect("present");
        r.lanes = list(i);
        r.rule = Rule::RightOfWay {
            priority: list(i + 2),
            yielding: list(i + 3),
            stop_lines: vec![],
        };
    }
}

/// Maps at the limits of document 01.
fn large_map(rng: &mut Rng, which: usize) -> (Map, u64) {
    let mut m = match which % 5 {
        // 1,020 lanes: a split of a group of ten passes 1,024.
        0 => grid(102, 10, 4),
        // 65,536 points in all: any split passes the limit.
        1 => grid(64, 3, 256),
        // As many in lines of 128: so does a merge that makes a boundary.
        2 => grid(128, 3, 128),
        // 4,096 boundaries, most of them of no lane and empty.
        3 => {
            let mut m = grid(40, 5, 6);
            for i in m.boundary_count()..LIMIT[BOUNDARIES] - rng.below(3) {
                let id = BoundaryId(100_000 + i as u64);
                m.insert_boundary(Boundary::new(id, BoundaryKind::Curb, Polyline3::default()))
                    .expect("a new id");
            }
            m
        }
        _ => {
            let mut m = grid(100, 10, 8);
            furnish(&mut m, 256, 256, 512);
            m
        }
    };
    let counter = highest(&m).expect("ids") + 1;
    access::set_counter(&mut m, counter);
    (m, counter)
}

fn large(rng: &mut Rng, which: usize, edits: &[usize]) -> Case {
    let (m, counter) = large_map(rng, which);
    let tables = crate::cases::plain(&m, 40, 400);
    let state = State::new(tables.clone(), counter);
    assert!(
        state.map.is_some(),
        "the generator made a map that is not sound"
    );
    let n = rng.within(4, 24);
    Case {
        tables,
        counter,
        calls: calls(rng, state, n, edits),
    }
}
