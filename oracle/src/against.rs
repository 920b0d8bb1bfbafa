//! Call by call beside an editor: every answer, every lent word, the counter.

use std::time::{Duration, Instant};

use vectormap_core::*;

use crate::cases::filled;
use crate::ffi::{Editor, Lent, Raw};
use crate::generate::{self, Case, Profile};
use crate::memory::{self, LISTS, Memory, Slice};
use crate::rng::Rng;
use crate::sound;
use crate::step::{Answer, COMMANDS, Call, Room, State, quietly};
use crate::tables::*;
use crate::tally::Tally;

pub use crate::memory::FILL;

/// What a benchmark or a digest lends: whole entries, no guards.
pub fn lend(state: &State, room: &Room) -> Lent {
    Lent {
        tables: state.tables.clone(),
        counter: state.counter,
        lists: memory::lists(room, [0; 4]).map(|l| l.get().to_vec()),
    }
}

/// What the answer looks like by value and in the lists, which held these words before.
pub fn expected(answer: &Answer, mut lists: [Vec<u64>; 4]) -> (Raw, [Vec<u64>; 4]) {
    match answer {
        Answer::Refused { number, entity } => {
            let raw = Raw {
                number: *number,
                entity: *entity,
                ..Raw::default()
            };
            (raw, lists)
        }
        Answer::Changed {
            created,
            modified,
            deleted,
            warnings,
            second,
        } => {
            for (list, pairs) in lists.iter_mut().zip([created, modified, deleted]) {
                for (i, (kind, id)) in pairs.iter().enumerate() {
                    list[2 * i] = *kind;
                    list[2 * i + 1] = *id;
                }
            }
            for (i, w) in warnings.iter().enumerate() {
                // The words of related entities that are not there stay as they were.
                let row = &mut lists[3][10 * i..10 * i + 10];
                let there = 5 + 2 * w[4] as usize;
                row[..there].copy_from_slice(&w[..there]);
                row[9] = w[9];
            }
            let raw = Raw {
                number: 0,
                entity: None,
                counts: [created.len(), modified.len(), deleted.len(), warnings.len()],
                second: *second,
            };
            (raw, lists)
        }
    }
}

/// A panic as a difference is told.
pub fn panicked(e: Box<dyn std::any::Any + Send>) -> Option<String> {
    let text = e.downcast_ref::<String>().cloned();
    let text = text.or(e.downcast_ref::<&str>().map(|s| s.to_string()));
    Some(format!("a panic: {}", text.unwrap_or_default()))
}

/// One call to compare, with the words that it is sent as and the words that its lists have over.
struct Sent<'a> {
    before: &'a State,
    call: &'a Call,
    room: &'a Room,
    row: Vec<u64>,
    odd: [usize; 4],
}

impl<'a> Sent<'a> {
    /// Spelled in some way that means the same, and lists of any lengths that have this room.
    fn new(rng: &mut Rng, before: &'a State, call: &'a Call, room: &'a Room) -> Self {
        Sent {
            before,
            call,
            room,
            row: call.spelled(rng),
            odd: std::array::from_fn(|_| if rng.chance(50) { 0 } else { rng.below(10) }),
        }
    }

    fn lend(&self) -> Memory {
        Memory::new(self.before, self.room, &self.row, self.odd)
    }

    /// The first thing in which the editor departs from the oracle, if any. `memory` holds the map,
    /// and is left as the editor left it. A panic is such a thing too.
    fn difference(&self, editor: &mut dyn Editor, memory: &mut Memory) -> Option<String> {
        quietly(|| self.compared(editor, memory)).unwrap_or_else(panicked)
    }

    fn compared(&self, editor: &mut dyn Editor, memory: &mut Memory) -> Option<String> {
        let mut after = self.before.clone();
        let answer = after.step(self.call, self.room);
        memory.lists = memory::lists(self.room, self.odd);
        memory.row = Slice::new(&self.row);
        let (want, lists) = expected(&answer, memory.lists.clone().map(|l| l.get().to_vec()));
        let got = editor.on(memory);
        if got != want {
            return Some(format!("answer {got:?}, expected {want:?}"));
        }
        if memory.counter != after.counter {
            let (got, want) = (memory.counter, after.counter);
            return Some(format!("counter {got}, expected {want}"));
        }
        for k in 0..4 {
            if let Some(i) = memory.lists[k].difference(&lists[k]) {
                let (got, want) = (memory.lists[k].get()[i], lists[k][i]);
                return Some(format!("{} word {i}: {got}, expected {want}", LISTS[k]));
            }
        }
        if memory.row.difference(&self.row).is_some() {
            return Some("the command's row was written".into());
        }
        let place =
            memory
                .trespass()
                .or(table_difference(&memory.words, &memory.xyz, &after.tables))?;
        // Tables that differ in words that are not used hold the same map.
        let own = State::new(memory.tables(), memory.counter);
        let agree = match (&own.map, &after.map) {
            (Some(m), Some(n)) => records(m) == records(n),
            _ => false,
        };
        let remark = if agree {
            "the records agree"
        } else {
            "a record differs"
        };
        Some(format!("{place} ({remark})"))
    }
}

/// The first word in which the tables differ. Every word is compared by its bits: the coordinates of
/// a sound map's lines are finite, and what no line covers stays as it came, a NaN's payload too.
pub fn table_difference(
    words: &[Slice<u64>; 7],
    xyz: &Slice<f64>,
    want: &Tables,
) -> Option<String> {
    for k in 0..7 {
        if let Some(i) = words[k].difference(&want.words[k]) {
            let place = match i {
                0 => "count".into(),
                _ => format!("row {} word {}", (i - 1) / ROW[k], (i - 1) % ROW[k]),
            };
            let (a, b) = (words[k].get()[i], want.words[k][i]);
            return Some(format!("{} {place}: {a}, expected {b}", NAMES[k]));
        }
    }
    let i = xyz.difference(&want.xyz)?;
    let (a, b) = (xyz.get()[i], want.xyz[i]);
    Some(format!(
        "coordinate {i}: {a:?} ({:x}), expected {b:?} ({:x})",
        a.to_bits(),
        b.to_bits()
    ))
}

/// Does the editor still depart on this one call?
fn departs(editor: &mut dyn Editor, sent: &Sent) -> Option<String> {
    sent.difference(editor, &mut sent.lend())
}

/// A way to make a map smaller: whether it did.
type Change = Box<dyn Fn(&mut Map) -> bool>;

/// Ways to make this map smaller: whole runs of entities at first, then one thing at a time.
fn smaller(m: &Map) -> Vec<Change> {
    let mut all: Vec<Change> = Vec::new();
    let mut entities = m.entity_refs();
    entities.reverse();
    let mut run = entities.len() / 2;
    while run > 0 {
        for part in entities.chunks(run).map(<[_]>::to_vec) {
            all.push(Box::new(move |m| {
                part.iter().filter(|e| m.remove_entity(**e).is_ok()).count() > 0
            }));
        }
        run /= 2;
    }
    for l in m.lanes() {
        let id = l.id;
        for s in m.successors(id).to_vec() {
            all.push(Box::new(move |m| m.disconnect(id, s).is_ok()));
        }
        for side in [Side::Left, Side::Right] {
            if m.neighbor(id, side).is_some() {
                all.push(Box::new(move |m| m.set_neighbor(id, side, None).is_ok()));
            }
            if l.boundary(side).reversed {
                all.push(Box::new(move |m| {
                    let side = m.lane_mut(id).expect("present").boundary_mut(side);
                    std::mem::take(&mut side.reversed)
                }));
            }
        }
        all.push(Box::new(move |m| {
            m.lane_mut(id).expect("present").centerline.take().is_some()
        }));
        all.push(Box::new(move |m| {
            m.lane_mut(id)
                .expect("present")
                .speed_limit
                .take()
                .is_some()
        }));
    }
    for b in m.boundaries() {
        let id = b.id;
        for i in 0..b.geometry.len() {
            all.push(Box::new(move |m| {
                m.boundary_mut(id)
                    .expect("present")
                    .geometry
                    .points
                    .remove(i);
                true
            }));
        }
    }
    for (id, i) in m
        .roads()
        .flat_map(|r| (0..r.lanes.len()).map(move |i| (r.id, i)))
    {
        all.push(Box::new(move |m| {
            m.road_mut(id).expect("present").lanes.remove(i);
            true
        }));
    }
    for (id, i) in m
        .junctions()
        .flat_map(|j| (0..j.lanes.len()).map(move |i| (j.id, i)))
    {
        all.push(Box::new(move |m| {
            m.junction_mut(id).expect("present").lanes.remove(i);
            true
        }));
    }
    let rules = m.regulatory_elements();
    for (id, i) in rules.flat_map(|r| (0..r.lanes.len()).map(move |i| (r.id, i))) {
        all.push(Box::new(move |m| {
            m.regulatory_element_mut(id)
                .expect("present")
                .lanes
                .remove(i);
            true
        }));
    }
    all
}

/// How long a run's differences may be made smaller, all together.
pub const PATIENCE: Duration = Duration::from_secs(5);

/// The smallest map found in time on which something still departs: entities, links, points and list
/// entries are dropped as long as it does.
pub fn shrunk(
    before: &State,
    mut said: String,
    until: Instant,
    mut departs: impl FnMut(&State) -> Option<String>,
) -> (State, String) {
    let mut best = before.clone();
    'again: while let Some(map) = &best.map {
        for change in smaller(map) {
            if Instant::now() > until {
                return (best, said);
            }
            let mut m = map.clone();
            if !change(&mut m) {
                continue;
            }
            // With nothing, then with something in the words that are not used.
            for fill in [0, FILL] {
                let next = State::new(filled(&m, 12, 100, fill), best.counter);
                if next.map.is_some()
                    && let Some(text) = departs(&next)
                {
                    (best, said) = (next, text);
                    continue 'again;
                }
            }
        }
        break;
    }
    (best, said)
}

/// The smallest map found in time on which the call still departs.
fn shrink(editor: &mut dyn Editor, sent: &Sent, until: Instant) -> (State, String) {
    let said = departs(editor, sent).expect("it departs");
    shrunk(sent.before, said, until, |next| {
        let row = sent.row.clone();
        let less = Sent {
            before: next,
            row,
            ..*sent
        };
        departs(editor, &less)
    })
}

/// The map in words that a reader can follow.
pub fn describe(state: &State) -> String {
    let Some(m) = &state.map else {
        return format!("a map that is not sound, counter {}", state.counter);
    };
    let mut text = format!("counter {}", state.counter);
    for l in m.lanes() {
        let side =
            |r: BoundaryRef| format!("{}{}", if r.reversed { "-" } else { "" }, r.boundary.0);
        text += &format!(
            "\n  lane {}: left {}, right {}, from {:?}, to {:?}",
            l.id.0,
            side(l.left),
            side(l.right),
            m.predecessors(l.id).iter().map(|x| x.0).collect::<Vec<_>>(),
            m.successors(l.id).iter().map(|x| x.0).collect::<Vec<_>>(),
        );
        for side in [Side::Left, Side::Right] {
            if let Some(n) = m.neighbor(l.id, side) {
                text += &format!(", {side:?} {:?} {}", n.direction, n.lane.0);
            }
        }
        if let Some(c) = &l.centerline {
            text += &format!(", line {:?}", xyz(c));
        }
        if let Some(s) = l.speed_limit {
            text += &format!(", speed {:?}", s.kmh);
        }
    }
    for b in m.boundaries() {
        text += &format!("\n  boundary {}: {:?}", b.id.0, xyz(&b.geometry));
    }
    for r in m.roads() {
        text += &format!("\n  road {}: {:?}", r.id.0, r.lanes);
    }
    for j in m.junctions() {
        text += &format!("\n  junction {}: {:?}", j.id.0, j.lanes);
    }
    for r in m.regulatory_elements() {
        text += &format!("\n  rule {}: {:?} {:?}", r.id.0, r.lanes, r.rule);
    }
    for s in m.stop_lines() {
        text += &format!("\n  stop line {}: {:?}", s.id.0, xyz(&s.geometry));
    }
    for c in m.crosswalks() {
        let (a, b) = (xyz(&c.left_edge), xyz(&c.right_edge));
        text += &format!("\n  crosswalk {}: {a:?} {b:?}", c.id.0);
    }
    text
}

fn xyz(l: &Polyline3) -> Vec<[f64; 3]> {
    l.points.iter().map(|p| [p.x, p.y, p.z]).collect()
}

/// A difference: its command, the smallest input found, the call, what differs.
type Found = (usize, State, Call, String);

pub struct Outcome {
    pub tally: Tally,
    pub found: Vec<Found>,
}

/// At most this many differences are told.
const TOLD: usize = 20;

pub fn compare(editor: &mut dyn Editor, cases: impl Iterator<Item = Case>) -> Outcome {
    let mut out = Outcome {
        tally: Tally::default(),
        found: Vec::new(),
    };
    let mut left = PATIENCE;
    for case in cases {
        out.tally.case(&case);
        // The editor's own slices, as its last call left them.
        let mut memory: Option<Memory> = None;
        case.play(|t| {
            out.tally.turn(&t);
            let sent = Sent::new(
                &mut Rng::new(out.tally.calls as u64),
                t.before,
                t.call,
                t.room,
            );
            let mut own = memory.take().unwrap_or_else(|| sent.lend());
            match sent.difference(editor, &mut own) {
                None => memory = Some(own),
                Some(said) => out.found.push(found(editor, &sent, said, &mut left)),
            }
            true
        });
    }
    out
}

/// A difference as it is told: alone, the call works on the oracle's map before it; smaller from there.
fn found(editor: &mut dyn Editor, sent: &Sent, said: String, left: &mut Duration) -> Found {
    let command = sent.call.command();
    if left.is_zero() {
        return (command, State::default(), *sent.call, said);
    }
    if departs(editor, sent).is_none() {
        let said = format!("{said}, only after the calls before it");
        return (command, sent.before.clone(), *sent.call, said);
    }
    let began = Instant::now();
    let (small, said) = shrink(editor, sent, began + *left);
    *left = left.saturating_sub(began.elapsed());
    (command, small, *sent.call, said)
}

fn tell(out: &Outcome) -> bool {
    for (command, state, call, said) in out.found.iter().take(TOLD) {
        println!(
            "{}: {said}\n  {call:?}\n  {}",
            COMMANDS[*command],
            describe(state)
        );
    }
    out.tally.print();
    println!(
        "{} differences in {} calls",
        out.found.len(),
        out.tally.calls
    );
    out.found.is_empty()
}

pub fn run(seed: u64, count: usize) -> bool {
    let Some(mut editor) = crate::ffi::library() else {
        println!(
            "built without the library: EDITOR_LIB=FOLDER bash oracle/build --features against"
        );
        return false;
    };
    let cases = (0..count).map(|i| generate::case(seed, i, Profile::Full));
    tell(&compare(&mut *editor, cases))
}

// ---- the comparison itself, tried ---------------------------------------------------------------

/// The oracle as an editor, right or with one fault.
struct Own {
    fault: Option<Fault>,
}

#[derive(Clone, Copy, PartialEq, Debug)]
enum Fault {
    TenBeforeTrying,
    CreatedEmpty,
    OnlyNamedLanes,
    OppositeFirstWithFirst,
    ClearsUnusedSlot,
    CounterMovedByRefusal,
    WritesPastWarnings,
    LosesSignOfZero,
    ChangesPayload,
    WritesBeforeLanes,
    WritesBehindCoordinates,
    WritesBehindCreated,
    SideAboveOneIsLeft,
    MarkAboveTwoIsSame,
    NoMarkButLane,
    ShortListIsEnough,
    Panics,
    CounterLostOnLargeMaps,
    AdjacentRepeatsAlone,
    YieldingUnread,
    #[cfg_attr(not(feature = "planted"), allow(dead_code))]
    /// A comparison of the Rust with the other of `>` and `>=`, by its number (core/build.rs).
    Slip(usize),
}

use Fault::*;

const FAULTS: [Fault; 20] = [
    TenBeforeTrying,
    CreatedEmpty,
    OnlyNamedLanes,
    OppositeFirstWithFirst,
    ClearsUnusedSlot,
    CounterMovedByRefusal,
    WritesPastWarnings,
    LosesSignOfZero,
    ChangesPayload,
    WritesBeforeLanes,
    WritesBehindCoordinates,
    WritesBehindCreated,
    SideAboveOneIsLeft,
    MarkAboveTwoIsSame,
    NoMarkButLane,
    ShortListIsEnough,
    Panics,
    CounterLostOnLargeMaps,
    AdjacentRepeatsAlone,
    YieldingUnread,
];

impl Own {
    /// The call as this editor reads the row.
    fn reads(&self, row: &[u64]) -> Call {
        let mut row: [u64; 5] = std::array::from_fn(|i| row.get(i).copied().unwrap_or(0));
        let sets = row[0] == 4;
        match self.fault {
            Some(SideAboveOneIsLeft) if sets && row[2] > 1 => row[2] = 0,
            Some(MarkAboveTwoIsSame) if sets && row[3] > 2 => row[3] = 1,
            Some(NoMarkButLane) if sets && row[3] == 0 && row[4] != 0 => row[3] = 1,
            _ => {}
        }
        Call::of(row)
    }

    /// What this editor takes the lists for.
    fn room(&self, memory: &Memory) -> Room {
        let over = (self.fault == Some(ShortListIsEnough)) as usize;
        let n = |k: usize, words: usize| (memory.lists[k].get().len() + over) / words;
        Room {
            created: n(0, 2),
            modified: n(1, 2),
            deleted: n(2, 2),
            warnings: n(3, 10),
        }
    }
}

impl Editor for Own {
    fn on(&mut self, memory: &mut Memory) -> Raw {
        let call = self.reads(memory.row.get());
        let room = self.room(memory);
        if self.fault == Some(TenBeforeTrying) {
            return Raw {
                number: 10,
                ..Raw::default()
            };
        }
        let mut state = State::new(memory.tables(), memory.counter);
        plant(self.fault);
        let answer = state.step(&call, &room);
        plant(None);
        let mut lists = memory.lists.clone().map(|l| l.get().to_vec());
        lists.iter_mut().for_each(|l| l.push(FILL));
        let (mut raw, lists) = expected(&answer, lists);
        memory.store(&state.tables);
        memory.counter = state.counter;
        for (slice, list) in memory.lists.iter_mut().zip(&lists) {
            let n = slice.get().len();
            slice.get_mut().copy_from_slice(&list[..n]);
        }
        if let Some(fault) = self.fault {
            spoil(fault, &call, &room, memory, &mut raw);
        }
        raw
    }
}

/// What the faulty editor leaves otherwise than it should.
fn spoil(fault: Fault, call: &Call, room: &Room, memory: &mut Memory, raw: &mut Raw) {
    let lanes = memory.words[LANES].get().first().map_or(0, |n| *n as usize);
    let splits = matches!(call, Call::SplitLane { .. }) && raw.number == 0;
    match fault {
        CreatedEmpty => raw.counts[0] = 0,
        OnlyNamedLanes if matches!(call, Call::SetNeighbor { .. }) => {
            raw.counts[1] = raw.counts[1].min(2);
        }
        OppositeFirstWithFirst if splits => {
            let rows = memory.words[LANES].get_mut()[1..].chunks_mut(ROW[LANES]);
            for row in rows.take(lanes) {
                for side in [lane::LEFT_MARK, lane::RIGHT_MARK] {
                    if row[side] == 2 {
                        row[side + 1] = row[0];
                    }
                }
            }
        }
        ClearsUnusedSlot if raw.number == 0 && lanes > 0 => {
            memory.words[LANES].get_mut()[1 + lane::SUCCESSORS + 16] = 0;
        }
        CounterMovedByRefusal if raw.number > 0 => {
            memory.counter = memory.counter.wrapping_add(1);
        }
        WritesPastWarnings if raw.counts[3] < room.warnings => {
            *memory.lists[3].get_mut().last_mut().expect("room") = 0;
        }
        LosesSignOfZero => memory.xyz.get_mut().iter_mut().for_each(|x| *x += 0.0),
        ChangesPayload => {
            let nans = memory.xyz.get_mut().iter_mut().filter(|x| x.is_nan());
            nans.for_each(|x| *x = f64::NAN);
        }
        WritesBeforeLanes => memory.words[LANES].whole()[memory::GUARD - 1] = 0,
        WritesBehindCoordinates => {
            let end = memory.xyz.get().len() + memory::GUARD;
            memory.xyz.whole()[end] = 0.0;
        }
        WritesBehindCreated if raw.counts[0] > 0 => {
            let end = memory.lists[0].get().len() + memory::GUARD;
            memory.lists[0].whole()[end] = 0;
        }
        Panics if splits => panic!("planted"),
        CounterLostOnLargeMaps if memory.words[LANES].get().len() > 1000 * ROW[LANES] => {
            memory.counter = 0;
        }
        AdjacentRepeatsAlone | YieldingUnread if raw.number == 9 && unseen(fault, memory) => raw.number = 0,
        _ => {}
    }
}

/// Whether the map is unsound for a lane that stands twice alone, where the faulty editor does not see it.
fn unseen(fault: Fault, memory: &Memory) -> bool {
    let t = memory.tables();
    if sound::fault(&t, memory.counter) != Some("a lane twice in a list") {
        return false;
    }
    let list = |words: &[u64]| words[1..1 + words[0] as usize].to_vec();
    let mut lists: Vec<Vec<u64>> = t.rows(ROADS).map(|r| list(&r[3..])).collect();
    lists.extend(t.rows(JUNCTIONS).map(|r| list(&r[4..])));
    lists.extend(t.rows(RULES).map(|r| list(&r[rule::LANES..])));
    for r in t.rows(RULES).filter(|r| r[1] == kind::RIGHT_OF_WAY) {
        lists.push(list(&r[rule::PRIORITY..]));
        if fault != YieldingUnread {
            lists.push(list(&r[rule::YIELDING..]));
        }
    }
    if fault == YieldingUnread {
        lists.iter_mut().for_each(|l| l.sort_unstable());
    }
    lists.iter().all(|l| l.windows(2).all(|w| w[0] != w[1]))
}

/// The Rust's comparisons as this fault has them, where the build has faults to plant.
fn plant(fault: Option<Fault>) {
    #[cfg(feature = "planted")]
    vectormap_core::plant(match fault {
        Some(Slip(k)) => Some(k),
        _ => None,
    });
    #[cfg(not(feature = "planted"))]
    let _ = fault;
}

/// The faults of the Rust's comparisons, if the build has them.
#[cfg(feature = "planted")]
fn slips() -> Vec<Fault> {
    (0..vectormap_core::SLIPS).map(Slip).collect()
}

#[cfg(not(feature = "planted"))]
fn slips() -> Vec<Fault> {
    println!("built without the comparisons of the Rust: --features planted");
    Vec::new()
}

/// The oracle beside itself finds nothing; beside itself with a fault it finds the fault within
/// 10,000 calls.
pub fn try_out(seed: u64, count: usize) -> bool {
    let cases = || (0..count).map(|i| generate::case(seed, i, Profile::Full));
    let mut good = crate::jobs::try_out(seed, count);
    let out = compare(&mut Own { fault: None }, cases());
    println!(
        "no fault: {} differences in {} calls",
        out.found.len(),
        out.tally.calls
    );
    good &= out.found.is_empty();
    for fault in FAULTS.into_iter().chain(slips()) {
        let mut editor = Own { fault: Some(fault) };
        let mut found = None;
        let mut made = 0;
        for case in cases() {
            let out = compare(&mut editor, std::iter::once(case));
            made += out.tally.calls;
            if let Some(first) = out.found.into_iter().next() {
                found = Some(first);
                break;
            }
        }
        good &= found.is_some() && made <= 10_000;
        match found {
            None => println!("{fault:?}: not found in {made} calls"),
            Some((command, state, call, said)) => println!(
                "{fault:?}: found after {made} calls, in {}: {said}\n  {call:?}\n  {}",
                COMMANDS[command],
                describe(&state)
            ),
        }
    }
    good
}
