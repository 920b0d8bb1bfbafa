//! Times on the map of docs/RUST-NOTES.md: 1,000 lanes, 100 rows of 10, 8 points a line.

use std::hint::black_box;
use std::time::{Duration, Instant};

use vectormap_core::*;

use crate::generate::{furnish, furnish_long, grid, grid_by};
use crate::sound;
use crate::step::{edit, Call, Room, State};
use crate::tables::*;

const TURNS: usize = 201;

/// Medians in microseconds. What is compared is timed turn by turn, so that other work on the machine meets all of it.
fn medians<const N: usize>(turn: impl FnMut(usize) -> [Duration; N]) -> [f64; N] {
    let turns: Vec<[Duration; N]> = (0..TURNS).map(turn).collect();
    std::array::from_fn(|k| {
        let mut times: Vec<Duration> = turns.iter().map(|t| t[k]).collect();
        times.sort();
        times[TURNS / 2].as_nanos() as f64 / 1000.0
    })
}

fn timed<T>(run: impl FnOnce() -> T) -> (Duration, T) {
    let start = Instant::now();
    let made = run();
    (start.elapsed(), made)
}

/// Room for what any edit of the benchmark lists.
const AMPLE: Room = Room {
    created: 100,
    modified: 200,
    deleted: 100,
    warnings: 100,
};

/// The editor's library on the same map, if the edit is there; each turn on a copy that is not timed.
fn library(m: &Map, call: Call, room: Room, number: u64) -> Option<impl FnMut() -> Duration> {
    let mut editor = crate::ffi::library()?;
    let state = State::new(crate::cases::plain(m, 40, 400), m.peek_next_id());
    Some(move || {
        let mut lent = crate::against::lend(&state, &room);
        let (took, made) = timed(|| black_box(&mut *editor).call(&call, black_box(&mut lent)));
        assert_eq!(made.number, number, "{call:?}");
        took
    })
}

/// What the test, what is decided and what is written take: a call that is refused for want of a list has decided all and written nothing.
fn stages(name: &str, m: &Map, call: Call) {
    let none = Room {
        modified: 0,
        ..AMPLE
    };
    let (Some(mut made), Some(mut refused)) =
        (library(m, call, AMPLE, 0), library(m, call, none, 10))
    else {
        return;
    };
    let tables = crate::cases::plain(m, 40, 400);
    let [whole, decided, test] = medians(|_| {
        let lent = tables.clone();
        let test = tested_by_editor(&lent, m.peek_next_id()).unwrap_or_default();
        [made(), refused(), test]
    });
    println!(
        "{name}: the test {test:.1}, decided {:.1}, written {:.1}",
        decided - test,
        whole - decided
    );
}

/// The test of soundness on the Rust's own map, with or without that of lanes that stand twice.
fn tested(m: &Map, repeats: bool) -> Duration {
    let (took, sound) = timed(|| sound::map_sound(black_box(m), m.peek_next_id(), repeats));
    assert!(sound);
    took
}

/// The editor's test of soundness on lent tables, if the library is there.
fn tested_by_editor(t: &Tables, counter: u64) -> Option<Duration> {
    let (took, sound) = timed(|| crate::ffi::sound(black_box(t), counter));
    assert!(sound?);
    Some(took)
}

/// The edit alone, and the edit after a test of soundness, each on a copy that is not timed; the editor beside the second, and which part
/// of its time its own test of soundness takes.
fn time(name: &str, m: &Map, call: Call) {
    let once = |test: bool| {
        let mut copy = m.clone();
        let (took, made) = timed(|| {
            if test {
                assert!(sound::map_sound(black_box(&copy), m.peek_next_id(), true));
            }
            edit(black_box(&mut copy), &call)
        });
        assert!(made.is_ok(), "{name}");
        took
    };
    let mut editor = library(m, call, AMPLE, 0);
    let tables = crate::cases::plain(m, 40, 400);
    let [alone, first, whole, test] = medians(|_| {
        let whole = editor.as_mut().map_or(Duration::ZERO, |run| run());
        let lent = tables.clone();
        let test = tested_by_editor(&lent, m.peek_next_id()).unwrap_or_default();
        [once(false), once(true), whole, test]
    });
    let editor = match editor {
        Some(_) => format!(
            "{whole:>12.1}{:>8.2}{:>8.0} %",
            whole / first,
            100.0 * test / whole
        ),
        None => format!("{:>12}", "not there"),
    };
    println!("{name:34}{alone:>10.1}{first:>14.1}{editor}");
}

/// A job beside the Rust's way to make one: a clone of the map to go back to, its edits, and one test of soundness. Clones of what is compared are not timed.
fn time_job(name: &str, m: &Map, calls: &[Call]) {
    let rows: Vec<u64> = calls.iter().flat_map(|c| c.row()).collect();
    let state = State::new(crate::cases::plain(m, 40, 400), m.peek_next_id());
    let mut editor = crate::ffi::jobs();
    let once = |tested: bool| {
        let mut map = m.clone();
        let (took, kept) = timed(|| {
            let kept = black_box(&map).clone();
            if tested {
                assert!(sound::map_sound(black_box(&map), m.peek_next_id(), true));
            }
            let made = calls.iter().all(|call| edit(black_box(&mut map), call).is_ok());
            assert!(made, "{name}");
            kept
        });
        black_box(kept);
        took
    };
    let mut area = state.tables.clone();
    let mut job = |room: &Room, number: u64| {
        let Some(editor) = &mut editor else { return Duration::ZERO };
        let mut lent = crate::against::lend(&state, room);
        let (took, told) = timed(|| black_box(&mut **editor).call(&rows, black_box(&mut lent), black_box(&mut area)));
        assert_eq!(told.number, number, "{name}: {told:?}");
        took
    };
    // Without a list a job is decided, and put back; without an edit nothing is wanting.
    let (none, number) = (Room { modified: 0, ..AMPLE }, if calls.is_empty() { 0 } else { 10 });
    let [alone, first, whole, decided, test] = medians(|_| {
        let test = tested_by_editor(&state.tables, state.counter).unwrap_or_default();
        [once(false), once(true), job(&AMPLE, 0), job(&none, number), test]
    });
    println!(
        "{name:34}{alone:>10.1}{first:>14.1}{whole:>12.1}{:>8.2}{test:>10.1}{decided:>10.1}",
        whole / first
    );
}

/// Sixty lanes of `grid(100, 10, 8)` removed one after the other.
fn sixty_removals() -> Vec<Call> {
    (0..60).map(|i| Call::RemoveLane { lane: 301 + 11 * i }).collect()
}

/// One call of `voldrekka_job` with sixty removals, for a counter of instructions.
pub fn once_job() -> bool {
    let m = grid(100, 10, 8);
    let rows: Vec<u64> = sixty_removals().iter().flat_map(|c| c.row()).collect();
    let state = State::new(crate::cases::plain(&m, 40, 400), m.peek_next_id());
    let Some(mut editor) = crate::ffi::jobs() else { return false };
    let mut area = state.tables.clone();
    let mut lent = crate::against::lend(&state, &AMPLE);
    editor.call(&rows, &mut lent, &mut area).number == 0
}

/// Jobs of ten edits, one that closes a gate, and ten of a kind; and one of sixty.
pub fn jobs() -> bool {
    let plain = grid(100, 10, 8);
    let mut furnished = plain.clone();
    furnish(&mut furnished, 256, 256, 512);
    let split = |lane| Call::SplitLane { lane, at: SplitAt::Fraction(0.5), neighbors: false };
    let connect = |from, to| Call::Connect { from, to };
    let remove = |lane| Call::RemoveLane { lane };
    let gate = [
        split(501),
        split(504),
        Call::Disconnect { from: 511, to: 521 },
        Call::Disconnect { from: 514, to: 524 },
        connect(501, 512),
        connect(504, 515),
        Call::SetNeighbor { lane: 303, side: Side::Left, neighbor: None },
        Call::MergeLanes { first: 605, second: 615 },
        remove(402),
        remove(406),
    ];
    let ten = |call: &dyn Fn(u64) -> Call| -> Vec<Call> { (0..10).map(|i| call(301 + 21 * i)).collect() };
    println!("jobs of ten edits, microseconds, median of {TURNS}; the Rust's with the clone that it goes back to");
    println!(
        "{:34}{:>10}{:>14}{:>12}{:>8}{:>10}{:>10}",
        "", "the Rust", "tested first", "the editor", "ratio", "its test", "put back"
    );
    for (map, with) in [(&plain, ""), (&furnished, ", with rules")] {
        time_job(&format!("closing a gate{with}"), map, &gate);
        time_job(&format!("ten connects{with}"), map, &ten(&|l| connect(l, l + 11)));
        time_job(&format!("ten removals{with}"), map, &ten(&remove));
        time_job(&format!("ten splits{with}"), map, &ten(&split));
        time_job(&format!("ten merges{with}"), map, &ten(&|l| Call::MergeLanes { first: l, second: l + 10 }));
    }
    time_job("sixty removals", &plain, &sixty_removals());
    time_job("no edit", &plain, &[]);
    true
}

/// `rows` rows of eight lanes beside each other, 4,096 boundaries, 65,536 points, 256 roads, 256 junctions and 512 rules: with 128 rows the limits of document 01,
/// less `spare` boundaries that no lane has.
fn full(rows: usize, spare: usize) -> Map {
    full_by(rows, spare, in_order)
}

/// The same with other ids of lanes.
fn full_by(rows: usize, spare: usize, id: impl Fn(usize) -> u64) -> Map {
    let each = POINTS / LIMIT[BOUNDARIES];
    let mut m = grid_by(rows, 8, each, id);
    for i in m.boundary_count()..LIMIT[BOUNDARIES] - spare {
        let line = (0..each)
            .map(|k| Point3::new(k as f64, i as f64, 0.0))
            .collect();
        let id = BoundaryId(100_000 + i as u64);
        m.insert_boundary(Boundary::new(id, BoundaryKind::Curb, Polyline3::new(line)))
            .expect("a new id");
    }
    furnish(&mut m, LIMIT[ROADS], LIMIT[JUNCTIONS], LIMIT[RULES]);
    m
}

/// Ids without gaps.
fn in_order(place: usize) -> u64 {
    1 + place as u64
}

/// Every other id.
fn odd(place: usize) -> u64 {
    1 + 2 * place as u64
}

/// Ids in no order, with gaps between them, of 1,000 lanes and of 1,024.
fn scattered(place: usize) -> u64 {
    1 + 7 * (place as u64 * 389 % 1000) + place as u64 % 7
}

fn scattered_full(place: usize) -> u64 {
    1 + 7 * (place as u64 * 389 % 1024) + place as u64 % 7
}

/// `more` links more from every lane and to every lane, to lanes far away.
fn linked(mut m: Map, more: usize, id: impl Fn(usize) -> u64) -> Map {
    let n = m.lane_count();
    for place in 0..n {
        for k in 0..more {
            let to = (place + 17 + 71 * k) % n;
            m.connect(LaneId(id(place)), LaneId(id(to)))
                .expect("two lanes");
        }
    }
    m
}

/// 1,000 lanes with 256 roads, 256 junctions and 512 rules, all their lists of 64 lanes. Every id named is below 1,000,001.
fn listed(id: impl Fn(usize, usize) -> u64) -> Map {
    let mut m = grid(100, 10, 8);
    let last = Boundary::new(BoundaryId(1_000_000), BoundaryKind::Curb, Polyline3::new(Vec::new()));
    m.insert_boundary(last).expect("a new id");
    furnish_long(&mut m, id);
    m
}

/// As many links more as leave a lane below the limit of 16.
const DENSE: usize = 13;

/// The maps on which the test of soundness is timed, by the names that `oracle bench once` takes.
fn tested_maps() -> Vec<(&'static str, Map)> {
    let plain = grid(100, 10, 8);
    let mut furnished = plain.clone();
    furnish(&mut furnished, 256, 256, 512);
    vec![
        ("2", grid(2, 1, 8)),
        ("100", grid(10, 10, 8)),
        ("300", grid(30, 10, 8)),
        ("1000", plain.clone()),
        ("odd", grid_by(100, 10, 8, odd)),
        ("scattered", grid_by(100, 10, 8, scattered)),
        ("rules", furnished),
        ("lists", listed(|n, k| 1 + (n + k) as u64)),
        ("lists-mixed", listed(|n, k| 1 + (n + 37 * k % 64) as u64)),
        ("lists-apart", listed(|n, k| 1 + ((n + 389 * k) % 1000) as u64)),
        ("lists-absent", listed(|n, k| 2000 + ((7 * n + 389 * k) % 8000) as u64)),
        ("lists-alike", listed(|n, k| 1_000_000 - (n + 509 * k) as u64)),
        ("links", linked(plain.clone(), 4, in_order)),
        ("links-scattered", linked(grid_by(100, 10, 8, scattered), 4, scattered)),
        ("dense", linked(plain, DENSE, in_order)),
        ("dense-odd", linked(grid_by(100, 10, 8, odd), DENSE, odd)),
        ("dense-scattered", linked(grid_by(100, 10, 8, scattered), DENSE, scattered)),
        ("full", full(128, 0)),
        ("full-dense", linked(full(128, 0), DENSE, in_order)),
        ("full-dense-odd", linked(full_by(128, 0, odd), DENSE, odd)),
        (
            "full-dense-scattered",
            linked(full_by(128, 0, scattered_full), DENSE, scattered_full),
        ),
    ]
}

/// The test of soundness alone, on each map: the Rust's own, the oracle's on the lent tables, the editor's.
pub fn sound() -> bool {
    println!("the test of soundness, microseconds, median of {TURNS}");
    println!(
        "{:24}{:>7}{:>7}{:>8}{:>10}{:>10}{:>14}{:>12}{:>8}{:>8}",
        "map", "lanes", "links", "points", "the Rust", "(a)", "lent tables", "the editor", "ratio", "to (a)"
    );
    for (name, m) in tested_maps() {
        let tables = crate::cases::plain(&m, 40, 400);
        let counter = m.peek_next_id();
        // (a): without the test of lanes that stand twice, as before document 02, (b).
        let [rust, before, lent, editor] = medians(|_| {
            let (lent, fault) = timed(|| sound::fault(black_box(&tables), counter));
            assert!(fault.is_none());
            let editor = tested_by_editor(&tables, counter).unwrap_or_default();
            [tested(&m, true), tested(&m, false), lent, editor]
        });
        println!(
            "{name:24}{:>7}{:>7}{:>8}{rust:>10.2}{before:>10.2}{lent:>14.2}{editor:>12.2}{:>8.2}{:>8.2}",
            m.lane_count(),
            tables.rows(LANES).map(|r| r[lane::SUCCESSORS]).sum::<u64>(),
            lines(&m).iter().map(|l| l.len()).sum::<usize>(),
            editor / rust,
            editor / before,
        );
    }
    let xyz = crate::cases::plain(&full(128, 0), 40, 400).xyz;
    let [read] = medians(|_| [timed(|| black_box(read_once(black_box(&xyz)))).0]);
    println!("the {} coordinates of the full map read once: {read:.1}", xyz.len());
    true
}

/// The coordinates read once, eight sums side by side: what no test of them can go below.
fn read_once(xyz: &[f64]) -> f64 {
    let mut sums = [0.0; 8];
    for eight in xyz.chunks_exact(8) {
        for (sum, x) in sums.iter_mut().zip(eight) {
            *sum += x;
        }
    }
    sums.iter().sum()
}

/// One call of the editor's test on the map of a name, for a counter of instructions.
pub fn once(name: &str) -> bool {
    let Some((_, m)) = tested_maps().into_iter().find(|(n, _)| *n == name) else {
        println!("no map {name}");
        return false;
    };
    let tables = crate::cases::plain(&m, 40, 400);
    tested_by_editor(&tables, m.peek_next_id()).is_some()
}

pub fn run() -> bool {
    let plain = grid(100, 10, 8);
    let mut furnished = plain.clone();
    furnish(&mut furnished, 256, 256, 512);
    let (a, b) = (501, 511);
    let split = |neighbors| Call::SplitLane {
        lane: a,
        at: SplitAt::Fraction(0.5),
        neighbors,
    };
    let remove = Call::RemoveLane { lane: a };
    let merge = Call::MergeLanes {
        first: a,
        second: b,
    };
    println!("microseconds, median of {TURNS}: {:?} rows", counts(&plain));
    println!(
        "{:34}{:>10}{:>14}{:>12}{:>8}{:>10}",
        "", "the Rust", "tested first", "the editor", "ratio", "its test"
    );
    time("connect", &plain, Call::Connect { from: a, to: b + 1 });
    time("disconnect", &plain, Call::Disconnect { from: a, to: b });
    let neighbor = Call::SetNeighbor {
        lane: a,
        side: Side::Left,
        neighbor: Some(Neighbor::same(LaneId(b))),
    };
    time("set_neighbor", &plain, neighbor);
    time("remove_lane", &plain, remove);
    let far = linked(grid_by(100, 10, 8, scattered), DENSE, scattered);
    let (from, to) = (scattered(500), scattered(510));
    time("disconnect, dense, scattered", &far, Call::Disconnect { from, to });
    time("remove_lane, dense, scattered", &far, Call::RemoveLane { lane: from });
    time("merge_lanes", &plain, merge);
    time("split_lane, one lane", &plain, split(false));
    time("split_lane, a group of ten", &plain, split(true));
    time("split_lane, one, with rules", &furnished, split(false));
    time("split_lane, ten, with rules", &furnished, split(true));

    // Room for two joined lines.
    let spared = full(128, 8);
    let ahead = Call::MergeLanes {
        first: 514,
        second: 522,
    };
    time("merge_lanes, full map", &spared, ahead);
    // More lines and fewer lie behind those that change: what moving a line takes.
    for (name, first) in [("the same, first lanes", 2), ("the same, last lanes", 1010)] {
        let second = first + 8;
        time(name, &spared, Call::MergeLanes { first, second });
    }
    // Room for the second halves of a row.
    let roomy = full(127, 16);
    let beside = |neighbors| Call::SplitLane {
        lane: 514,
        at: SplitAt::Fraction(0.5),
        neighbors,
    };
    time("split_lane, one, full map", &roomy, beside(false));
    time("split_lane, a group of eight, full map", &roomy, beside(true));
    stages("split_lane, one, by stages", &plain, split(false));
    stages("split_lane, ten, by stages", &plain, split(true));
    stages("split_lane, one, full map, by stages", &roomy, beside(false));
    stages("merge_lanes, by stages", &plain, merge);
    stages("merge_lanes, full map, by stages", &spared, ahead);
    jobs();
    sound();
    let [c] = medians(|_| [timed(|| black_box(black_box(&plain).clone())).0]);
    println!("a clone of the Rust's map: {c:.1}");
    true
}
