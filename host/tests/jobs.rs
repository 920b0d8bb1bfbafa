//! Jobs through the safe types: all edits or none, the net change set, the refused edit and its place.

use std::collections::BTreeSet;
use std::fs;

use voldrekka::layout::MAX_EDITS;
use voldrekka::text::Document;
use voldrekka::*;

fn sample(name: &str) -> Map {
    let path = format!("{}/../samples/{name}.yard", env!("CARGO_MANIFEST_DIR"));
    Document::read(&fs::read_to_string(&path).expect("the sample is there")).expect("a map").map
}

fn text(map: &Map) -> String {
    Document::new(map.clone()).write()
}

fn split(lane: u64, at: SplitAt, include_neighbors: bool) -> Command {
    Command::SplitLane { lane: LaneId(lane), at, include_neighbors }
}

fn merge(first: u64, second: u64) -> Command {
    Command::MergeLanes { first: LaneId(first), second: LaneId(second) }
}

fn connect(from: u64, to: u64) -> Command {
    Command::ConnectLanes { from: LaneId(from), to: LaneId(to) }
}

fn disconnect(from: u64, to: u64) -> Command {
    Command::DisconnectLanes { from: LaneId(from), to: LaneId(to) }
}

fn beside_nothing(lane: u64, side: Side) -> Command {
    Command::SetNeighbor { lane: LaneId(lane), side, neighbor: None }
}

fn remove(lane: u64) -> Command {
    Command::RemoveLane { lane: LaneId(lane) }
}

/// Edits of gate.yard that are all made: lane 1 is split alone into 1 and 207, the halves are parted, linked and merged, what is beside them goes.
fn closing() -> Vec<Command> {
    vec![
        split(1, SplitAt::Station(15.0), false),
        disconnect(1, 207),
        connect(1, 4),
        disconnect(1, 4),
        connect(1, 207),
        merge(1, 207),
        beside_nothing(3, Side::Right),
        split(2, SplitAt::Fraction(0.5), true),
        remove(3),
        connect(2, 4),
    ]
}

fn entities(map: &Map) -> BTreeSet<EntityRef> {
    let mut all: BTreeSet<EntityRef> = map.lanes().map(|l| l.id.into()).collect();
    all.extend(map.boundaries().map(|b| EntityRef::from(b.id)));
    all.extend(map.roads().map(|r| EntityRef::from(r.id)));
    all.extend(map.stop_lines().map(|s| EntityRef::from(s.id)));
    all.extend(map.crosswalks().map(|c| EntityRef::from(c.id)));
    all.extend(map.regulatory_elements().map(|r| EntityRef::from(r.id)));
    all
}

/// The edits one by one: what they leave, and the net change set from the two ends.
fn one_by_one(before: &Map, commands: &[Command]) -> (Map, ChangeSet) {
    let mut map = before.clone();
    let (mut listed, mut changes) = (BTreeSet::new(), ChangeSet::default());
    for command in commands {
        let done = map.call(command).expect("the edit is made").changes;
        listed.extend(done.modified);
        changes.warnings.extend(done.warnings);
    }
    let (old, new) = (entities(before), entities(&map));
    changes.created = new.difference(&old).copied().collect();
    changes.deleted = old.difference(&new).copied().collect();
    changes.modified = old.intersection(&new).filter(|e| listed.contains(e)).copied().collect();
    (map, changes)
}

#[test]
fn a_made_job_is_its_edits_in_order() {
    for edits in 0..=closing().len() {
        let (mut map, commands) = (sample("gate"), &closing()[..edits]);
        let (after, changes) = one_by_one(&map, commands);
        assert_eq!(map.job(commands).expect("the job is made"), changes, "{edits} edits");
        assert_eq!(text(&map), text(&after), "{edits} edits");
        assert!(map.is_sound());
    }
}

#[test]
fn what_comes_and_goes_is_in_no_list() {
    let mut map = sample("gate");
    let there = closing();
    let changes = map.job(&there[..6]).expect("the job is made");
    let names = |list: &[EntityRef]| list.iter().map(EntityRef::to_string).collect::<Vec<_>>().join(" ");
    assert_eq!(names(&changes.created), "boundary:205");
    assert_eq!(names(&changes.deleted), "");
    assert!(!names(&changes.modified).contains("207"), "{changes:?}");
    let said: Vec<&str> = changes.warnings.iter().map(|w| w.code.as_str()).collect();
    assert_eq!(said, ["boundary_unshared", "neighbor_dropped", "geometric_gap"]);
    assert!(changes.warnings[2].message.starts_with("lane:4 starts 15."), "{}", changes.warnings[2].message);
}

#[test]
fn a_refused_edit_leaves_the_map_and_tells_its_place() {
    for place in 1..=closing().len() {
        let mut map = sample("gate");
        let before = text(&map);
        let mut commands = closing();
        commands[place - 1] = remove(900);
        let refused = map.job(&commands).unwrap_err();
        assert_eq!(refused.number(), 12);
        assert_eq!(refused.to_string(), format!("edit {place}: lane:900 does not exist"));
        let (told, edit) = refused.edit().expect("an edit is refused");
        assert_eq!((told, edit.refusal.number, edit.refusal.entity), (place, 1, Some(LaneId(900).into())));
        assert_eq!(text(&map), before);
    }
}

/// The message is that of the map on which the edit works: 207 is there only within the job.
#[test]
fn a_refusal_speaks_of_the_map_that_the_edits_before_it_left() {
    let mut map = sample("gate");
    let refused = map.job(&[split(1, SplitAt::Station(15.0), false), connect(1, 4), merge(1, 207)]).unwrap_err();
    assert_eq!(
        refused.to_string(),
        "edit 3: cannot merge lane:1 and lane:207: lane:207 must be the only successor of lane:1 (successors: [lane:4, lane:207])"
    );
}

#[test]
fn sixty_four_edits_and_no_more() {
    let back_and_forth = |n: usize| -> Vec<Command> {
        (0..n).map(|i| if i % 2 == 0 { disconnect(1, 3) } else { connect(1, 3) }).collect()
    };
    let mut map = sample("gate");
    let before = text(&map);
    let changes = map.job(&back_and_forth(MAX_EDITS)).expect("the job is made");
    assert_eq!(changes.modified, [LaneId(1).into(), LaneId(3).into()], "listed, though all is as it was");
    assert_eq!(text(&map), before);
    assert_eq!(map.job(&back_and_forth(MAX_EDITS + 1)), Err(JobRefused::TooManyEdits));
    assert_eq!(map.job(&[]), Ok(ChangeSet::default()));
    assert_eq!(text(&map), before);
}

#[test]
fn too_many_edits_before_an_unsound_map() {
    let mut map = sample("gate");
    map.set_next_id(1);
    assert_eq!(map.job(&[remove(1)]), Err(JobRefused::Unsound));
    assert_eq!(map.job(&[]), Err(JobRefused::Unsound));
    assert_eq!(map.job(&[remove(1); MAX_EDITS + 1]), Err(JobRefused::TooManyEdits));
    assert_eq!(JobRefused::Unsound.number(), 9);
    assert_eq!(JobRefused::TooManyEdits.number(), 13);
}

/// 64 cuts of one lane, from its end: the tables, the coordinates and the lists must grow.
#[test]
fn room_grows() {
    let mut map = sample("gate");
    let cuts: Vec<Command> = (0..MAX_EDITS).map(|i| split(3, SplitAt::Station(29.6 - 0.4 * i as f64), false)).collect();
    let changes = map.job(&cuts).expect("the job is made");
    assert_eq!(changes.created_ids(EntityKind::Lane).len(), MAX_EDITS);
    assert_eq!(map.lanes().len(), 4 + MAX_EDITS);
    let (after, wanted) = one_by_one(&sample("gate"), &cuts);
    assert_eq!(changes, wanted);
    assert_eq!(text(&map), text(&after));
}

/// An edit's own 10: a lane has at most 16 successors.
#[test]
fn limits_are_an_edits_own() {
    let mut map = sample("terminal");
    let lanes: Vec<u64> = map.lanes().map(|l| l.id.0).collect();
    let from = map.lane(LaneId(lanes[0])).expect("a lane");
    let held = from.successors.len();
    let free = lanes[1..].iter().filter(|id| !from.successors.contains(&LaneId(**id)));
    let links: Vec<Command> = free.take(20).map(|to| connect(from.id.0, *to)).collect();
    let refused = map.job(&links).unwrap_err();
    let (place, edit) = refused.edit().expect("an edit is refused");
    assert_eq!((place, edit.refusal.number), (16 - held + 1, 10));
    assert_eq!(map.lane(from.id).expect("a lane").successors.len(), held);
}
