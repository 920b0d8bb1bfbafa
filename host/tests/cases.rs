//! The ten cases of document 01 through the safe types, the original's texts, refusals, and room that grows.

use voldrekka::text::Document;
use voldrekka::*;

/// Lane 1 of document 01: left 101 at y = 2, right 102 at y = -2, ten metres long.
const ONE: &str = "voldrekka 1
next 200
boundary 101 line=0,2;10,2
boundary 102 line=0,-2;10,-2
";

/// Case 5's map: lane 2 is right of lane 1.
const TWO: &str = "boundary 103 line=0,-6;10,-6
lane 1 left=101 right=102 right-neighbor=2:same
lane 2 left=102 right=103
";

fn map(text: &str) -> Map {
    let map = Document::read(text).expect("the text is a map").map;
    assert!(map.is_sound(), "{text}");
    map
}

fn one() -> Map {
    map(&format!("{ONE}lane 1 left=101 right=102\n"))
}

fn two() -> Map {
    map(&format!("{ONE}{TWO}"))
}

fn names(list: &[EntityRef]) -> String {
    list.iter().map(EntityRef::to_string).collect::<Vec<_>>().join(" ")
}

fn told(changes: &ChangeSet) -> [String; 3] {
    [&changes.created, &changes.modified, &changes.deleted].map(|list| names(list))
}

fn texts(changes: &ChangeSet) -> Vec<String> {
    changes.warnings.iter().map(Issue::to_string).collect()
}

fn number(map: &mut Map, command: Command) -> u64 {
    let before = Document::new(map.clone()).write();
    let refused = map.call(&command).expect_err("a refusal");
    assert_eq!(Document::new(map.clone()).write(), before, "a refusal changes nothing");
    refused.refusal.number
}

fn split(at: SplitAt) -> Command {
    Command::SplitLane { lane: LaneId(1), at, include_neighbors: false }
}

#[test]
fn case_1_and_2() {
    let mut map = one();
    let (second, changes) = map.split_lane(LaneId(1), SplitAt::Fraction(0.5), SplitOptions::default()).unwrap();
    assert_eq!(second, LaneId(202));
    assert_eq!(told(&changes), ["lane:202 boundary:200 boundary:201", "lane:1 boundary:101 boundary:102", ""]);
    assert_eq!(map.lane(LaneId(1)).unwrap().successors, [second]);
    let half = map.boundary(BoundaryId(101)).unwrap().geometry;
    assert_eq!(half, Polyline3::from_xy(&[[0.0, 2.0], [5.0, 2.0]]));

    let changes = map.merge_lanes(LaneId(1), second).unwrap();
    assert_eq!(told(&changes), ["", "lane:1 boundary:101 boundary:102", "lane:202 boundary:200 boundary:201"]);
    let whole = map.boundary(BoundaryId(101)).unwrap().geometry;
    assert_eq!(whole, Polyline3::from_xy(&[[0.0, 2.0], [5.0, 2.0], [10.0, 2.0]]));
}

#[test]
fn case_3_and_4() {
    for station in [0.1, 9.9] {
        assert_eq!(number(&mut one(), split(SplitAt::Station(station))), 3);
    }
    assert!(one().apply(&split(SplitAt::Station(9.8))).is_ok());
    for fraction in [0.0, 1.0, f64::NAN] {
        assert_eq!(number(&mut one(), split(SplitAt::Fraction(fraction))), 2);
    }
    let error = one().apply(&split(SplitAt::Station(0.05))).unwrap_err();
    assert_eq!(
        error.to_string(),
        "invalid argument `at`: split position 0.050 m must be inside (0, 10.000) with at least 0.1 m on each side"
    );
}

#[test]
fn case_5() {
    let mut map = two();
    let changes = map.apply(&split(SplitAt::Fraction(0.5))).unwrap();
    assert_eq!(told(&changes), ["lane:203 boundary:200 boundary:201 boundary:202", "lane:1 boundary:101", ""]);
    assert_eq!(
        texts(&changes),
        [
            "warning [boundary_unshared] boundary:102: boundary:102 is also used by lanes outside the split group; the split lanes now use copies (boundary:201, boundary:202)",
            "warning [neighbor_dropped] lane:203: lane:2 was not split, so it stays the Right neighbor of lane:1 only; lane:203 has no Right neighbor",
        ]
    );
}

#[test]
fn case_6_and_7() {
    let changes = two().remove_lane(LaneId(2)).unwrap();
    assert_eq!(told(&changes), ["", "lane:1", "lane:2 boundary:103"]);

    assert_eq!(number(&mut one(), Command::ConnectLanes { from: LaneId(1), to: LaneId(1) }), 4);
    let changes = one().disconnect(LaneId(1), LaneId(1)).unwrap();
    assert!(changes.is_empty());
    assert_eq!(texts(&changes), ["info [no_op] lane:1: lane:1 is not connected to lane:1"]);
}

#[test]
fn case_8() {
    let mut map = two();
    for (from, to) in [(1, 2), (2, 1)] {
        map.connect(LaneId(from), LaneId(to)).unwrap();
    }
    let changes = map.merge_lanes(LaneId(1), LaneId(2)).unwrap();
    assert_eq!(map.lane(LaneId(1)).unwrap().successors, [LaneId(1)]);
    assert!(texts(&changes)[0].ends_with("Left neighbor lane:1 of lane:2 was dropped"), "{:?}", texts(&changes));
}

/// Ends 0.1 apart are no gap, and a little more is one.
#[test]
fn case_9() {
    let ahead = |x: f64| {
        map(&format!(
            "voldrekka 1
boundary 101 line=-10,2;0,2
boundary 102 line=-10,-2;0,-2
boundary 103 line={x},2;10,2
boundary 104 line={x},-2;10,-2
lane 1 left=101 right=102
lane 2 left=103 right=104
"
        ))
    };
    assert_eq!(texts(&ahead(0.1).connect(LaneId(1), LaneId(2)).unwrap()), Vec::<String>::new());
    assert_eq!(
        texts(&ahead(0.2).connect(LaneId(1), LaneId(2)).unwrap()),
        [
            "warning [geometric_gap] lane:1: lane:2 starts 0.200 m away from the end of lane:1; formats with implicit topology (Lanelet2) will not preserve this link"
        ]
    );
}

#[test]
fn case_10() {
    let mut map = map(&format!(
        "{ONE}lane 1 left=101 right=102
stop-line 110 line=8,2;8,-2
rule 120 stop-line stop-line=110 lanes=1
"
    ));
    let (second, _) = map.split_lane(LaneId(1), SplitAt::Station(5.0), SplitOptions::default()).unwrap();
    assert_eq!(map.regulatory_element(RegulatoryElementId(120)).unwrap().lanes, [second]);
}

// ---- texts of refusals

fn error(map: &mut Map, command: Command) -> String {
    map.apply(&command).unwrap_err().to_string()
}

#[test]
fn refusals_in_words() {
    let (one_, two_, nine) = (LaneId(1), LaneId(2), LaneId(9));
    let mut map = two();
    assert_eq!(error(&mut map, Command::RemoveLane { lane: nine }), "lane:9 does not exist");
    assert_eq!(
        error(&mut map, Command::MergeLanes { first: one_, second: one_ }),
        "cannot merge lane:1 and lane:1: a lane cannot be merged with itself"
    );
    assert_eq!(
        error(&mut map, Command::MergeLanes { first: one_, second: two_ }),
        "cannot merge lane:1 and lane:2: lane:2 must be the only successor of lane:1 (successors: [])"
    );
    let own = Command::SetNeighbor { lane: one_, side: Side::Left, neighbor: Some(Neighbor::same(one_)) };
    assert_eq!(error(&mut map, own), "invalid argument `neighbor`: a lane cannot neighbor itself");
    map.insert_lane(Lane::new(nine, BoundaryId(800), BoundaryId(801))).unwrap();
    let lineless = Command::SplitLane { lane: nine, at: SplitAt::Fraction(0.5), include_neighbors: true };
    assert_eq!(error(&mut map, lineless), "invalid geometry: lane:9 has no usable geometry");
}

#[test]
fn unsound_maps_and_spent_ids_are_refused() {
    let mut half = one();
    half.insert_lane(Lane { successors: vec![LaneId(1)], ..Lane::new(LaneId(2), BoundaryId(101), BoundaryId(102)) })
        .unwrap();
    assert!(!half.is_sound());
    assert_eq!(number(&mut half, Command::RemoveLane { lane: LaneId(1) }), 9);
    let mut spent = one();
    spent.set_next_id(u64::MAX - 1);
    assert_eq!(number(&mut spent, split(SplitAt::Fraction(0.5))), 11);
}

// ---- room

/// 1,024 lanes are the most: lanes are split until one more would pass it, and memory grows on the way.
#[test]
fn room_grows_up_to_the_limits() {
    let mut map = one();
    let mut last = LaneId(1);
    for _ in 1..1024 {
        last = map
            .split_lane(last, SplitAt::Station(0.2), SplitOptions::default())
            .map_or_else(|_| longer(&mut map), |s| s.0);
    }
    assert_eq!(map.lanes().len(), 1024);
    assert!(map.is_sound());
    let at = Command::SplitLane { lane: longer_lane(&map), at: SplitAt::Fraction(0.5), include_neighbors: false };
    assert_eq!(number(&mut map, at), 10);
}

/// A lane that is long enough to be split.
fn longer_lane(map: &Map) -> LaneId {
    let length = |lane: &Lane| map.centerline(lane).map_or(0.0, |c| c.length());
    map.lanes().max_by(|a, b| length(a).total_cmp(&length(b))).expect("a lane").id
}

/// Puts a new lane beside the others and gives it.
fn longer(map: &mut Map) -> LaneId {
    let (next, y) = (map.next_id(), map.lanes().len() as f64 * 8.0);
    for (id, y) in [(next, y + 4.0), (next + 1, y)] {
        let line = Polyline3::from_xy(&[[0.0, y], [10.0, y]]);
        map.insert_boundary(Boundary::new(BoundaryId(id), BoundaryKind::SolidThin, line)).unwrap();
    }
    map.insert_lane(Lane::new(LaneId(next + 2), BoundaryId(next), BoundaryId(next + 1))).unwrap();
    LaneId(next + 2)
}

/// A point that an edit frees can be stored again.
#[test]
fn freed_points_are_used_again() {
    let mut map = one();
    let points = 250;
    let line = |y: f64| Polyline3::new((0..points).map(|i| Point3::new(i as f64, y, 0.0)).collect());
    for turn in 0..300 {
        let next = map.next_id();
        for id in [next, next + 1] {
            map.insert_boundary(Boundary::new(BoundaryId(id), BoundaryKind::Curb, line(turn as f64))).unwrap();
        }
        map.insert_lane(Lane::new(LaneId(next + 2), BoundaryId(next), BoundaryId(next + 1))).unwrap();
        assert!(map.is_sound());
        map.remove_lane(LaneId(next + 2)).unwrap();
    }
    assert_eq!(map.boundaries().len(), 2);
}

#[test]
fn limits_of_a_map_are_told() {
    let mut map = one();
    let long = Polyline3::new(vec![Point3::default(); 257]);
    let refused = map.insert_boundary(Boundary::new(BoundaryId(1), BoundaryKind::Curb, long));
    assert_eq!(refused.unwrap_err().to_string(), "more than 256 points in a line");
    let taken = map.insert_boundary(Boundary::new(BoundaryId(101), BoundaryKind::Curb, Polyline3::default()));
    assert_eq!(taken.unwrap_err(), MapError::DuplicateId(BoundaryId(101).into()));
    let links = (1..=17).map(LaneId).collect();
    let lane = Lane { successors: links, ..Lane::new(LaneId(7), BoundaryId(101), BoundaryId(102)) };
    assert_eq!(map.insert_lane(lane).unwrap_err().to_string(), "more than 16 ids in a list");
}

/// Edits from several threads at once, each on its own map, and from a thread with a small stack.
#[test]
fn threads() {
    std::thread::scope(|scope| {
        for _ in 0..4 {
            let small = std::thread::Builder::new().stack_size(256 * 1024);
            small.spawn_scoped(scope, || assert!(one().apply(&split(SplitAt::Fraction(0.5))).is_ok())).unwrap();
        }
    });
}
