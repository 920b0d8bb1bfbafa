//! What the Rust answers to the calls of yard's output.
use crate::cases::filled;
use crate::jobs;
use crate::step::{Answer, Call, Room, State};
use std::io::Read;
use vectormap_core::*;

fn boundary(m: &mut Map, id: u64, points: &[[f64; 2]]) {
    m.insert_boundary(Boundary::new(
        BoundaryId(id),
        BoundaryKind::SOLID,
        Polyline3::from_xy(points),
    ))
    .expect("new");
}
fn lane(m: &mut Map, id: u64, left: u64, right: u64) {
    m.insert_lane(Lane::new(LaneId(id), BoundaryId(left), BoundaryId(right)))
        .expect("new");
}
fn one() -> Map {
    let mut m = Map::new();
    boundary(&mut m, 101, &[[0.0, 2.0], [10.0, 2.0]]);
    boundary(&mut m, 102, &[[0.0, -2.0], [10.0, -2.0]]);
    lane(&mut m, 1, 101, 102);
    m
}
fn two() -> Map {
    let mut m = one();
    boundary(&mut m, 103, &[[0.0, -6.0], [10.0, -6.0]]);
    lane(&mut m, 2, 102, 103);
    m.set_neighbor(LaneId(1), Side::Right, Some(Neighbor::same(LaneId(2))))
        .expect("two");
    m
}
fn apart() -> Map {
    let mut m = Map::new();
    for (k, x, y) in [(101, -10.0, 0.0), (103, 0.1, 10.0), (105, 0.2, 10.0)] {
        boundary(&mut m, k, &[[x, 2.0], [y, 2.0]]);
        boundary(&mut m, k + 1, &[[x, -2.0], [y, -2.0]]);
    }
    lane(&mut m, 1, 101, 102);
    lane(&mut m, 2, 103, 104);
    lane(&mut m, 3, 105, 106);
    m
}
fn ruled() -> Map {
    let mut m = one();
    m.insert_stop_line(StopLine {
        id: StopLineId(111),
        geometry: Polyline3::from_xy(&[[8.0, 2.0], [8.0, -2.0]]),
        attributes: Attributes(0),
    })
    .expect("new");
    m.insert_regulatory_element(RegulatoryElement {
        id: RegulatoryElementId(121),
        rule: Rule::StopLine {
            stop_line: StopLineId(111),
        },
        lanes: vec![LaneId(1)],
        controlled_crosswalks: vec![],
        attributes: Attributes(0),
    })
    .expect("new");
    m
}
fn eight() -> Map {
    let mut m = Map::new();
    for r in 0..2u64 {
        for j in 0..5u64 {
            let (a, y) = (100.0 * r as f64, 8.0 - 4.0 * j as f64);
            boundary(&mut m, 9 + 5 * r + j, &[[a, y], [a + 100.0, y]]);
        }
        for j in 0..4 {
            lane(&mut m, 1 + 4 * r + j, 9 + 5 * r + j, 10 + 5 * r + j);
        }
    }
    for r in 0..2 {
        for j in 1..4 {
            m.set_neighbor(
                LaneId(4 * r + j),
                Side::Right,
                Some(Neighbor::same(LaneId(4 * r + j + 1))),
            )
            .expect("n");
        }
    }
    for j in 1..5 {
        m.connect(LaneId(j), LaneId(j + 4)).expect("c");
    }
    m
}
fn state(m: Map, counter: u64) -> State {
    // the rows that yard lends: 64 lanes, 128 boundaries, 1,000 points
    let mut t = filled(&m, 16, 256, 0);
    t.words[0].resize(1 + 64 * 52, 0);
    t.words[1].resize(1 + 128 * 5, 0);
    t.xyz.resize(3000, 0.0);
    State::new(t, counter)
}
fn pairs(l: &[(u64, u64)]) -> String {
    l.iter().map(|(k, i)| format!(" {k} {i}")).collect()
}
fn text(a: &Answer) -> String {
    match a {
        Answer::Refused { number, entity } => format!(
            "{number}{}",
            entity.map_or(String::new(), |(k, i)| format!(" | {k} {i}"))
        ),
        Answer::Changed {
            created,
            modified,
            deleted,
            warnings,
            ..
        } => {
            let mut s = format!(
                "0 |{} |{} |{}",
                pairs(created),
                pairs(modified),
                pairs(deleted)
            );
            for w in warnings {
                s += " !";
                for k in 0..5 + 2 * w[4] as usize {
                    s += &format!(" {}", w[k]);
                }
                s += &format!(" {}", w[9]);
            }
            s
        }
    }
}
fn call(words: &[&str]) -> Call {
    let n = |k: usize| words[k].parse::<u64>().expect("number");
    let row = match words[0] {
        "split" => [
            0,
            n(1),
            (words[2] == "station") as u64,
            words[3]
                .parse::<f64>()
                .map(|x| if x.is_nan() { f64::NAN } else { x })
                .expect("place")
                .to_bits(),
            (words[4] == "beside") as u64,
        ],
        "merge" => [1, n(1), n(2), 0, 0],
        "connect" => [2, n(1), n(2), 0, 0],
        "disconnect" => [3, n(1), n(2), 0, 0],
        "neighbor" => [
            4,
            n(1),
            (words[2] == "right") as u64,
            match words[3] {
                "none" => 0,
                "same" => 1,
                _ => 2,
            },
            n(4),
        ],
        "remove" => [5, n(1), 0, 0, 0],
        w => panic!("{w}"),
    };
    Call::of(row)
}
/// A job, its edits behind semicolons: what it answers, and the state that it leaves.
fn job(s: &mut State, edits: &str, room: &Room) -> String {
    let rows: Vec<Call> = edits
        .split("; ")
        .skip(1)
        .map(|c| call(&c.split(' ').collect::<Vec<&str>>()))
        .collect();
    let end = jobs::make(s, &rows, None, room);
    *s = end.after;
    let t = &end.told;
    match &end.changes {
        made @ Answer::Changed { .. } => text(made),
        Answer::Refused { number, .. } => {
            let entity = t.entity.map_or(String::new(), |(k, i)| format!(" | {k} {i}"));
            format!("{number} {} {}{entity}", t.place, t.own)
        }
    }
}
fn ids(l: impl Iterator<Item = u64>) -> String {
    l.map(|i| format!(" {i}")).collect()
}
fn left(s: &State, line: &str) -> String {
    let m = s.map.as_ref().expect("sound");
    let w: Vec<&str> = line.split_whitespace().collect();
    let id: u64 = w[1].parse().expect("id");
    match w[0] {
        "lane" => format!(
            "  lane {id} |{} |{}",
            ids(m.predecessors(LaneId(id)).iter().map(|l| l.0)),
            ids(m.successors(LaneId(id)).iter().map(|l| l.0))
        ),
        "boundary" => {
            let b = m.boundary(BoundaryId(id)).expect("present");
            format!(
                "  boundary {id} |{}",
                b.geometry
                    .points
                    .iter()
                    .map(|p| format!(" {:.1}", p.x))
                    .collect::<String>()
            )
        }
        _ => format!(
            "  rule {id} |{}",
            ids(m
                .regulatory_element(RegulatoryElementId(id))
                .expect("present")
                .lanes
                .iter()
                .map(|l| l.0))
        ),
    }
}
pub fn run() -> bool {
    let mut t = String::new();
    std::io::stdin().read_to_string(&mut t).expect("text");
    let mut s = state(one(), 200);
    let (mut calls, mut shown, mut bad) = (0, 0, 0);
    let mut little = 0;
    for line in t.lines() {
        if line.starts_with("command:") || line == "links" || line == "case 2" {
            continue;
        }
        if line.starts_with("  ") {
            shown += 1;
            let want = left(&s, line);
            if want != line {
                bad += 1;
                println!("left: {line}\nrust: {want}");
            }
            continue;
        }
        match line {
            "case 1" | "case 3" | "case 4" | "case 7" => {
                s = state(one(), 200);
                continue;
            }
            "case 5" | "case 6" | "case 8" | "other answers" => {
                s = state(two(), 200);
                continue;
            }
            "too little room" => {
                s = state(two(), 200);
                little = 2;
                continue;
            }
            "case 9" => {
                s = state(apart(), 200);
                continue;
            }
            "case 10" => {
                s = state(ruled(), 200);
                continue;
            }
            "a counter below the map's ids" => {
                s = state(two(), 50);
                continue;
            }
            "long list" | "jobs" => {
                s = state(eight(), 19);
                continue;
            }
            _ => {}
        }
        let (c, a) = line.split_once(": ").expect("a call");
        let words: Vec<&str> = c.split(' ').collect();
        let mut room = Room {
            created: 64,
            modified: 64,
            deleted: 64,
            warnings: 32,
        };
        if little == 2 {
            room.modified = 0;
        } else if little == 1 {
            room.deleted = 1;
        }
        little = if little > 0 { little - 1 } else { 0 };
        let got = match c.strip_prefix("job") {
            Some(edits) => job(&mut s, edits, &room),
            None => text(&s.step(&call(&words), &room)),
        };
        calls += 1;
        if got != a {
            bad += 1;
            println!("yard: {c}: {a}\nrust: {got}");
        }
    }
    println!("{calls} calls and {shown} lines of maps, {bad} differ");
    bad == 0
}
