//! Maps as text: exact, with their comments, and clear about what is wrong.

use voldrekka::text::Document;
use voldrekka::*;

fn read(text: &str) -> Document {
    Document::read(text).unwrap_or_else(|e| panic!("{e}"))
}

fn sample(name: &str) -> String {
    let path = format!("{}/../samples/{name}.yard", env!("CARGO_MANIFEST_DIR"));
    std::fs::read_to_string(&path).unwrap_or_else(|e| panic!("{path}: {e}"))
}

/// SplitMix64.
struct Random(u64);

impl Random {
    fn next(&mut self) -> u64 {
        self.0 = self.0.wrapping_add(0x9E37_79B9_7F4A_7C15);
        let mut z = self.0;
        z = (z ^ (z >> 30)).wrapping_mul(0xBF58_476D_1CE4_E5B9);
        z = (z ^ (z >> 27)).wrapping_mul(0x94D0_49BB_1331_11EB);
        z ^ (z >> 31)
    }

    /// Any double within the reach of a map, every exponent as likely: subnormals and -0 too.
    fn coordinate(&mut self) -> f64 {
        loop {
            let x = f64::from_bits(self.next());
            if x.abs() <= 16_777_216.0 {
                return x;
            }
        }
    }
}

fn bits(line: &Polyline3) -> Vec<u64> {
    line.points.iter().flat_map(|p| [p.x, p.y, p.z].map(f64::to_bits)).collect()
}

#[test]
fn samples_are_written_as_they_stand() {
    for name in ["gate", "crane", "terminal"] {
        let text = sample(name);
        let document = read(&text);
        assert!(document.map.is_sound(), "{name}");
        assert_eq!(document.write(), text, "{name}");
    }
}

#[test]
fn doubles_are_exact() {
    let mut random = Random(7);
    let mut map = Map::new();
    let mut lines = Vec::new();
    for id in 0..200 {
        let points = (0..20).map(|_| Point3::new(random.coordinate(), random.coordinate(), random.coordinate()));
        let line = Polyline3::new(points.chain([Point3::new(-0.0, 0.0, -0.0)]).collect());
        lines.push(bits(&line));
        map.insert_boundary(Boundary::new(BoundaryId(id), BoundaryKind::Curb, line)).unwrap();
    }
    let again = read(&Document::new(map).write()).map;
    let found: Vec<Vec<u64>> = again.boundaries().map(|b| bits(&b.geometry)).collect();
    assert_eq!(found, lines);
}

#[test]
fn speed_limits_keep_every_bit() {
    let patterns =
        [0, 1 << 63, 0x7FF0_0000_0000_0000, 0xFFF0_0000_0000_0000, 0x7FF8_0000_0000_0001, 0xFFF0_0000_0000_0ABC, 1];
    let mut map = Map::new();
    for (id, bits) in (1..).zip(patterns) {
        let speed_limit = Some(SpeedLimit { kmh: f64::from_bits(bits) });
        map.insert_lane(Lane { speed_limit, ..Lane::new(LaneId(id), BoundaryId(90), BoundaryId(91)) }).unwrap();
    }
    let again = read(&Document::new(map).write()).map;
    let found: Vec<u64> = again.lanes().map(|l| l.speed_limit.unwrap().kmh.to_bits()).collect();
    assert_eq!(found, patterns);
}

/// One of everything, with fields that are seldom given.
const ALL: &str = "voldrekka 1
next 77
lane 1 kind=bus left=10:reversed right=11 centerline=0,0;1,1,0.5 speed=30.5 one-way=no turn=left attributes=65535 left-neighbor=2:opposite successors=2
lane 2 left=10 right=12 centerline= left-neighbor=1:opposite
boundary 10 kind=dashed-solid-thick line=0,0;5,0 attributes=3
boundary 11 line=
boundary 12 kind=virtual line=1,1
road 20 name=4 attributes=5 lanes=1,99,1
junction 30 name=1 outline=2 attributes=3 lanes=2
stop-line 40 line=0,0;1,0 attributes=9
crosswalk 50 left-edge=0,0;1,0 right-edge=0,1;1,1 outline=6 attributes=7
rule 60 traffic-light signals=1 stop-line=40 lanes=1 controls=50 attributes=2
rule 61 traffic-sign sign=2
rule 62 stop-line stop-line=41
rule 63 right-of-way priority=1 yielding=2 stop-lines=40,41 lanes=1,2
rule 64 crosswalk crosswalk=50 stop-lines=40
rule 65 other other=8 lanes=2
";

#[test]
fn every_field_comes_back() {
    let document = read(ALL);
    assert_eq!(document.write(), ALL);
    assert!(!document.map.is_sound(), "the next id does not exceed the absent lane 99");
    let lane = document.map.lane(LaneId(2)).unwrap();
    assert_eq!(lane.predecessors, [LaneId(1)], "filled in");
    assert_eq!(lane.centerline, Some(Polyline3::default()), "an empty line is a line");
}

#[test]
fn what_is_not_reciprocal_is_exact_too() {
    let text = "voldrekka 1
next 9
lane 1 left=5 right=6 predecessors= successors=2
lane 2 left=5 right=6 left-neighbor=none predecessors=7 successors=1
lane 3 left=5 right=6 right-neighbor=2:same predecessors=8,4
";
    let document = read(text);
    assert_eq!(document.write(), text);
    assert!(!document.map.is_sound());
}

#[test]
fn lines_may_stand_in_any_order_and_leave_out_the_other_end() {
    let mixed = "voldrekka 1
lane 2 left=101 right=102
lane 1 right-neighbor=3:same right=101 left=100 successors=2
lane 3 left=101 right=102
";
    let map = read(mixed).map;
    assert!(map.is_sound());
    assert_eq!(map.lane(LaneId(3)).unwrap().left_neighbor, Some(Neighbor::same(LaneId(1))));
    assert_eq!(map.lane(LaneId(2)).unwrap().predecessors, [LaneId(1)]);
    assert_eq!(map.next_id(), 103);
}

#[test]
fn comments_stay_with_their_entities() {
    let mut document = read(&sample("gate"));
    document.map.remove_lane(LaneId(2)).unwrap();
    let written = document.write();
    for kept in ["# A gate with two lanes", "# The apron.\nboundary 104", "# Lanes run from west"] {
        assert!(written.contains(kept), "{kept}\n{written}");
    }
    assert!(!written.contains("boundary 103"));
}

/// Bad texts: the line that is told, and a part of what is said.
#[test]
fn what_is_wrong_is_told_with_its_line() {
    let bad = [
        ("", 1, "expected `voldrekka 1`"),
        ("# a\nlane 1 left=1 right=2", 2, "expected `voldrekka 1`"),
        ("voldrekka 2", 1, "found `voldrekka 2`"),
        (
            "voldrekka 1\nlain 1 left=1",
            2,
            "expected next, lane, boundary, road, junction, stop-line, crosswalk, rule, found `lain`",
        ),
        ("voldrekka 1\nlane", 2, "expected the id of the lane"),
        ("voldrekka 1\nlane one left=1 right=2", 2, "expected an id from 0 to 18446744073709551615, found `one`"),
        ("voldrekka 1\nlane 18446744073709551616 left=1 right=2", 2, "expected an id"),
        ("voldrekka 1\nlane -1 left=1 right=2", 2, "found `-1`"),
        ("voldrekka 1\nlane +1 left=1 right=2", 2, "found `+1`"),
        ("voldrekka 1\n\nlane 7 left=1", 3, "lane 7: expected a field right="),
        (
            "voldrekka 1\nlane 7 left=1 right=2 speeed=3",
            2,
            "lane 7: `speeed` is no field here; expected one of kind, left",
        ),
        ("voldrekka 1\nlane 7 left=1 right=2 left=3", 2, "`left` is given twice"),
        ("voldrekka 1\nlane 7 left=1 right=2 fast", 2, "expected name=value, found `fast`"),
        ("voldrekka 1\nlane 7 left=1 right=2 kind=train", 2, "kind: expected one of driving, shoulder"),
        ("voldrekka 1\nlane 7 left=1:back right=2", 2, "expected an id, or an id and `:reversed`"),
        ("voldrekka 1\nlane 7 left=1 right=2 speed=fast", 2, "expected a number of km/h"),
        ("voldrekka 1\nlane 7 left=1 right=2 speed=nan", 2, "expected a number of km/h"),
        ("voldrekka 1\nlane 7 left=1 right=2 speed=nan:7ff0000000000000", 2, "expected a number of km/h"),
        ("voldrekka 1\nlane 7 left=1 right=2 one-way=maybe", 2, "expected yes or no"),
        ("voldrekka 1\nlane 7 left=1 right=2 attributes=65536", 2, "expected a handle from 0 to 65535"),
        (
            "voldrekka 1\nlane 7 left=1 right=2 left-neighbor=3",
            2,
            "expected none, or a lane and `:same` or `:opposite`",
        ),
        ("voldrekka 1\nlane 7 left=1 right=2 successors=3,,4", 2, "expected an id"),
        (
            "voldrekka 1\nlane 7 left=1 right=2 successors=1,2,3,4,5,6,7,8,9,10,11,12,13,14,15,16,17",
            2,
            "expected at most 16 ids in a list",
        ),
        ("voldrekka 1\nboundary 1 line=0,0;1", 2, "line: expected a point x,y or x,y,z, found `1`"),
        (
            "voldrekka 1\nboundary 1 line=0,16777217",
            2,
            "expected a coordinate from -16777216 to 16777216, found `16777217`",
        ),
        ("voldrekka 1\nboundary 1 line=0,nan", 2, "expected a coordinate"),
        ("voldrekka 1\nboundary 1 line=0,inf", 2, "expected a coordinate"),
        ("voldrekka 1\nboundary 1 line=0,0\nboundary 1 line=1,1", 3, "the id is taken already, on line 2"),
        ("voldrekka 1\nlane 1 left=1 right=2\nlane 1 left=1 right=2", 3, "the id is taken already, on line 2"),
        ("voldrekka 1\nrule 1 law lanes=2", 2, "expected traffic-light, traffic-sign, stop-line"),
        ("voldrekka 1\nrule 1 stop-line lanes=2", 2, "expected a field stop-line="),
        ("voldrekka 1\nrule 1 other priority=2", 2, "`priority` is no field here"),
        ("voldrekka 1\nnext", 2, "expected an id"),
        ("voldrekka 1\nnext 5 6", 2, "expected the end of the line, found `6`"),
        ("voldrekka 1\nnext 5\nnext 5", 3, "`next` is given twice"),
    ];
    for (text, line, message) in bad {
        let error = Document::read(text).expect_err(text);
        assert!(error.line == line && error.message.contains(message), "{text:?}: {error}");
    }
}

#[test]
fn limits_are_told_with_their_line() {
    let points = vec!["0,0"; 257].join(";");
    let error = Document::read(&format!("voldrekka 1\nboundary 1 line={points}\n")).unwrap_err();
    assert_eq!(error.to_string(), "line 2: boundary 1: expected at most 256 points in a line");
    let roads: String = (0..257).map(|i| format!("road {i}\n")).collect();
    let error = Document::read(&format!("voldrekka 1\n{roads}")).unwrap_err();
    assert_eq!(error.to_string(), "line 258: road 256: expected at most 256 entities of a kind");
}

/// Texts with a few bytes changed: read or told, never anything else, and what is read is written and read again.
#[test]
fn damaged_texts_are_read_or_told() {
    let mut random = Random(2026);
    let whole = [sample("gate"), sample("crane"), ALL.to_string()];
    let (mut readable, mut told) = (0, 0);
    for turn in 0..6000 {
        let mut bytes = whole[turn % whole.len()].clone().into_bytes();
        for _ in 0..1 + random.next() % 3 {
            let at = random.next() as usize % bytes.len();
            let other = bytes[random.next() as usize % bytes.len()];
            match random.next() % 3 {
                0 => bytes[at] = other,
                1 => bytes.insert(at, other),
                _ => drop(bytes.remove(at)),
            }
        }
        match Document::read(&String::from_utf8_lossy(&bytes)) {
            Ok(document) => {
                readable += 1;
                let written = document.write();
                assert_eq!(read(&written).write(), written);
            }
            Err(error) => {
                told += 1;
                assert!(
                    error.line >= 1 && error.message.contains("expected")
                        || error.message.contains("twice")
                        || error.message.contains("taken"),
                    "{error}"
                );
            }
        }
    }
    assert!(readable > 500 && told > 500, "{readable} read, {told} told");
}
