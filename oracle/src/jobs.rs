//! Jobs of several edits (document 02, (a)) beside an editor: every answer, every lent word, the second area, the counter.

use std::collections::BTreeSet;
use std::time::{Duration, Instant};

use crate::against::{self, PATIENCE, describe, expected, table_difference};
use crate::digest;
use crate::ffi::{Jobs, Told};
use crate::generate;
use crate::memory::{self, Area, ENTRY, LISTS, Memory};
use crate::rng::Rng;
use crate::step::{Answer, COMMANDS, Call, Entity, Room, State, quietly};
use crate::tables::*;
use vectormap_core::*;

/// Edits of a job at most.
const EDITS: usize = 64;

/// As many warnings of a job the editor keeps while it makes the edits (crates/job_told); for more it makes them again.
const KEPT: usize = 512;

/// Words of a command.
const COMMAND: usize = 5;

/// The edits that rows of words are; the last row may be cut short.
pub fn read(rows: &[u64]) -> Vec<Call> {
    rows.chunks(COMMAND).map(Call::read).collect()
}

// ---- what a job comes to, by document 02 -------------------------------------------------------

/// The answer, the state that the job leaves, and the change set of a made job.
pub struct Ended {
    pub told: Told,
    pub after: State,
    pub changes: Answer,
    /// Why a 10 was given, the edit's own too.
    passed: Option<&'static str>,
    /// Entities that were created and deleted again within a made job.
    passing: usize,
}

fn refusing(before: &State, number: u64, passed: Option<&'static str>) -> Ended {
    Ended {
        told: Told {
            number,
            counter: before.counter,
            ..Told::default()
        },
        after: before.clone(),
        changes: Answer::Refused {
            number,
            entity: None,
        },
        passed,
        passing: 0,
    }
}

/// All entities, by kind, then id.
fn entities(s: &State) -> BTreeSet<Entity> {
    let refs = s.map.as_ref().expect("sound").entity_refs();
    refs.iter().map(|e| (e.kind() as u64, e.raw())).collect()
}

/// 13, then 9, then 10 of the area, then the edits one by one, then 10 of the lists.
pub fn make(before: &State, job: &[Call], area: Option<&'static str>, room: &Room) -> Ended {
    if job.len() > EDITS {
        return refusing(before, 13, None);
    }
    if before.map.is_none() {
        return refusing(before, 9, None);
    }
    if area.is_some() {
        return refusing(before, 10, area);
    }
    let mut after = before.clone();
    let (mut listed, mut told, mut born) = (BTreeSet::new(), Vec::new(), BTreeSet::new());
    for (i, call) in job.iter().enumerate() {
        match after.step(call, &Room::AMPLE) {
            Answer::Refused { number, entity } => {
                let mut end = refusing(before, 12, after.passed.filter(|_| number == 10));
                end.told.place = i as u64 + 1;
                end.told.own = number;
                end.told.entity = entity;
                return end;
            }
            Answer::Changed {
                created,
                modified,
                warnings,
                ..
            } => {
                born.extend(created);
                listed.extend(modified);
                told.extend(warnings);
            }
        }
    }
    let (old, new) = (entities(before), entities(&after));
    let created: Vec<Entity> = new.difference(&old).copied().collect();
    let deleted: Vec<Entity> = old.difference(&new).copied().collect();
    let both = old.intersection(&new);
    let modified: Vec<Entity> = both.filter(|e| listed.contains(e)).copied().collect();
    let counts = [created.len(), modified.len(), deleted.len(), told.len()];
    let rooms = [room.created, room.modified, room.deleted, room.warnings];
    if let Some(k) = (0..4).find(|k| counts[*k] > rooms[*k]) {
        return refusing(before, 10, Some(LISTS[k]));
    }
    Ended {
        told: Told {
            counts,
            counter: after.counter,
            ..Told::default()
        },
        passing: born.len() - born.intersection(&new).count(),
        after,
        changes: Answer::Changed {
            created,
            modified,
            deleted,
            warnings: told,
            second: None,
        },
        passed: None,
    }
}

// ---- one job to compare ------------------------------------------------------------------------

/// One job with all that it is lent but the map: its rows, how many words longer each slice of the area is than the map's, what the area
/// holds, the lists and the words that they have over.
#[derive(Clone)]
struct Sent {
    rows: Vec<u64>,
    longer: [isize; 8],
    seed: u64,
    room: Room,
    odd: [usize; 4],
}

impl Sent {
    /// The area for tables of these lengths, with anything in it.
    fn area(&self, t: &Tables) -> Tables {
        let mut rng = Rng::new(self.seed);
        let fill = rng.word();
        let length = |k: usize, n: usize| (n as isize + self.longer[k]).max(0) as usize;
        let mut words = |n: usize| -> Vec<u64> {
            let odd = rng.chance(50);
            (0..n)
                .map(|_| if odd { rng.word() } else { fill })
                .collect()
        };
        Tables {
            words: std::array::from_fn(|k| words(length(k, t.words[k].len()))),
            xyz: words(length(7, t.xyz.len()))
                .into_iter()
                .map(f64::from_bits)
                .collect(),
        }
    }

    /// The slice of the area that is too short, if one is.
    fn short(&self, t: &Tables) -> Option<&'static str> {
        let length = |k: usize| match k {
            COORDINATES => t.xyz.len(),
            _ => t.words[k].len(),
        };
        (0..8)
            .find(|k| self.longer[*k] < 0 && length(*k) > 0)
            .map(|k| NAMES[k])
    }

    /// Words lent for the lists.
    fn lists(&self) -> [usize; 4] {
        let r = &self.room;
        let n = [r.created, r.modified, r.deleted, r.warnings];
        std::array::from_fn(|k| n[k] * ENTRY[k] + self.odd[k] % ENTRY[k])
    }

    fn lend(&self, before: &State) -> Memory {
        Memory::new(before, &self.room, &self.rows, self.odd)
    }

    /// The first thing in which the editor departs from document 02, if any; `memory` is left as the editor left it.
    fn difference(&self, editor: &mut dyn Jobs, memory: &mut Memory, s: &State) -> Option<String> {
        quietly(|| self.compared(editor, memory, s)).unwrap_or_else(against::panicked)
    }

    fn compared(&self, editor: &mut dyn Jobs, memory: &mut Memory, s: &State) -> Option<String> {
        let end = make(s, &read(&self.rows), self.short(&s.tables), &self.room);
        memory.lists = memory::lists(&self.room, self.odd);
        memory.row = memory::Slice::new(&self.rows);
        let lists = memory.lists.clone().map(|l| l.get().to_vec());
        let (_, lists) = expected(&end.changes, lists);
        let mut want = self.area(&s.tables);
        let mut area = Area::new(&want);
        self.filled(&end, &mut want, &s.tables);
        let got = editor.on(memory, &mut area);
        if got != end.told {
            return Some(format!("answer {got:?}, expected {:?}", end.told));
        }
        if memory.counter != end.after.counter {
            let (got, want) = (memory.counter, end.after.counter);
            return Some(format!("counter {got}, expected {want}"));
        }
        for (k, list) in lists.iter().enumerate() {
            if let Some(i) = memory.lists[k].difference(list) {
                let (got, want) = (memory.lists[k].get()[i], list[i]);
                return Some(format!("{} word {i}: {got}, expected {want}", LISTS[k]));
            }
        }
        if memory.row.difference(&self.rows).is_some() {
            return Some("the job's rows were written".into());
        }
        let place = memory.trespass().or(area.trespass());
        let place = place.or(table_difference(
            &memory.words,
            &memory.xyz,
            &end.after.tables,
        ));
        place.or_else(|| {
            let place = table_difference(&area.words, &area.xyz, &want)?;
            Some(format!("the area's {place}"))
        })
    }

    /// 13, 9 and the area's own 10 leave the area; all else fills its front with the map as it came.
    fn filled(&self, end: &Ended, area: &mut Tables, came: &Tables) {
        if end.told.number == 0 || end.told.number == 12 || self.reached(end) {
            front(area, came);
        }
    }

    /// Whether a 10 is that of the lists, at the end.
    fn reached(&self, end: &Ended) -> bool {
        end.told.number == 10 && end.passed.is_some_and(|p| LISTS.contains(&p))
    }
}

/// Puts the map's slices at the front of the area's.
fn front(area: &mut Tables, t: &Tables) {
    for (to, from) in area.words.iter_mut().zip(&t.words) {
        to[..from.len()].copy_from_slice(from);
    }
    area.xyz[..t.xyz.len()].copy_from_slice(&t.xyz);
}

// ---- jobs made up ------------------------------------------------------------------------------

/// How often a call is made up anew until it is accepted, or refused, as wanted.
const TRIES: usize = 12;

/// A call that the map accepts or refuses, as wanted, and the state behind it. Where lanes are few, most removals are left out.
fn some_call(rng: &mut Rng, state: &State, accepted: bool) -> Option<(Call, State)> {
    let few = state.map.as_ref().expect("sound").lane_count() < 4;
    for _ in 0..TRIES {
        let call = generate::call(rng, state);
        if accepted && few && matches!(call, Call::RemoveLane { .. }) && rng.chance(80) {
            continue;
        }
        let mut after = state.clone();
        let made = matches!(after.step(&call, &Room::AMPLE), Answer::Changed { .. });
        if made == accepted {
            return Some((call, after));
        }
    }
    None
}

/// How many edits a job is to have.
fn size(rng: &mut Rng) -> usize {
    match rng.below(20) {
        0..=3 => rng.below(4),
        4..=9 => rng.within(1, 12),
        10..=16 => rng.within(1, EDITS),
        17 | 18 => rng.within(EDITS - 4, EDITS),
        _ => rng.within(EDITS + 1, EDITS + 6),
    }
}

/// Calls that are made, one on what the last one left; in four of ten jobs one of them is refused, at any place.
fn calls(rng: &mut Rng, before: &State, first: &[Call], n: usize) -> Vec<Call> {
    let refused = if rng.chance(40) && n > 0 {
        rng.below(n)
    } else {
        n
    };
    let mut state = before.clone();
    let mut all: Vec<Call> = Vec::new();
    for call in first.iter().take(refused) {
        state.step(call, &Room::AMPLE);
        all.push(*call);
    }
    while all.len() < refused {
        let Some((call, after)) = some_call(rng, &state, true) else {
            break;
        };
        all.push(call);
        state = after;
    }
    if refused < n {
        let absent = Call::RemoveLane {
            lane: state.counter.wrapping_add(7),
        };
        all.push(some_call(rng, &state, false).map_or(absent, |(call, _)| call));
        // What comes behind is not made.
        while all.len() < n {
            all.push(generate::call(rng, &state));
        }
    }
    all
}

/// Rows of five words, each spelled in some way that means the same; sometimes the last is cut short, sometimes into another meaning.
fn rows(rng: &mut Rng, calls: &[Call]) -> Vec<u64> {
    let mut rows = Vec::new();
    for call in calls {
        let mut row = call.spelled(rng);
        row.resize(COMMAND, 0);
        rows.extend(row);
    }
    match rng.below(10) {
        0 => {
            let most = rows.len().min(COMMAND - 1);
            rows.truncate(rows.len() - rng.below(most + 1));
        }
        1..=3 => {
            let least = rows.len().saturating_sub(COMMAND - 1);
            while rows.len() > least && rows.last() == Some(&0) {
                rows.pop();
            }
        }
        _ => {}
    }
    rows
}

/// A job for this state. On a map that is not sound the rows are anything.
fn job(rng: &mut Rng, before: &State, first: &[Call]) -> Sent {
    // A long list is made whole.
    let n = match first.len() {
        0..10 => size(rng),
        whole => whole,
    };
    let rows = if before.map.is_none() || n > EDITS {
        let over = rng.below(COMMAND);
        let words = (n * COMMAND).saturating_sub(over);
        (0..words).map(|_| rng.below(9) as u64).collect()
    } else {
        let calls = calls(rng, before, first, n);
        rows(rng, &calls)
    };
    let mut longer = [0; 8];
    if rng.chance(50) {
        longer = std::array::from_fn(|_| rng.below(30) as isize);
    }
    if rng.chance(6) {
        longer[rng.below(8)] = -rng.pick(&[1isize, 1, 1, 2, 100, 1 << 40]);
    }
    let mut n = make(before, &read(&rows), None, &Room::AMPLE).told.counts;
    match rng.below(10) {
        0..=5 => n.iter_mut().for_each(|n| *n += rng.below(4)),
        6..=8 => {}
        _ => {
            let i = rng.below(4);
            n[i] = n[i].saturating_sub(1);
        }
    }
    Sent {
        rows,
        longer,
        seed: rng.word(),
        room: Room {
            created: n[0],
            modified: n[1],
            deleted: n[2],
            warnings: n[3],
        },
        odd: std::array::from_fn(|_| if rng.chance(50) { 0 } else { rng.below(10) }),
    }
}

/// The jobs of one map, one after the other on what the last one left.
struct Play {
    rng: Rng,
    state: State,
    first: Vec<Call>,
    left: usize,
}

impl Play {
    fn new(seed: u64, index: usize) -> Self {
        Self::on(generate::map(seed, index), seed, index)
    }

    fn on((tables, counter, first): (Tables, u64, Vec<Call>), seed: u64, index: usize) -> Self {
        let mut rng = Rng::new(seed ^ (index as u64 + 1).wrapping_mul(0x9E6C_63D0_876A_3F21));
        let state = State::new(tables, counter);
        let left = match state.map {
            Some(_) => rng.within(1, 5),
            None => 1,
        };
        Play {
            rng,
            state,
            first,
            left,
        }
    }

    /// The next job, the state before it and what it comes to.
    fn next(&mut self) -> Option<(Sent, State, Ended)> {
        self.left = self.left.checked_sub(1)?;
        let before = self.state.clone();
        let sent = job(&mut self.rng, &before, &self.first);
        self.first.clear();
        let short = sent.short(&before.tables);
        let end = make(&before, &read(&sent.rows), short, &sent.room);
        self.state = end.after.clone();
        Some((sent, before, end))
    }
}

/// A job with nearly as many warnings as an editor may keep, or more: a removal leaves rules without a lane, and links lead over gaps.
fn many(which: usize) -> Play {
    let links = 10 + which % 50;
    let rules = match which % 4 {
        0 => LIMIT[RULES],
        _ => KEPT - links - 6 + which / 4 % 8,
    };
    let mut m = generate::grid(40, 3, 4);
    for i in 0..rules {
        let rule = RegulatoryElement {
            id: RegulatoryElementId(i as u64),
            rule: Rule::RightOfWay {
                priority: vec![LaneId(2)],
                yielding: vec![],
                stop_lines: vec![],
            },
            lanes: vec![LaneId(1)],
            controlled_crosswalks: vec![],
            attributes: Attributes(0),
        };
        m.insert_regulatory_element(rule).expect("a new id");
    }
    let counter = 100_000;
    access::set_counter(&mut m, counter);
    let gaps = (0..links as u64).map(|i| Call::Connect {
        from: 2 + i,
        to: 62 + i % 50,
    });
    let first = std::iter::once(Call::RemoveLane { lane: 1 })
        .chain(gaps)
        .collect();
    Play::on((crate::cases::plain(&m, 4, 40), counter, first), 1, which)
}

// ---- stored jobs -------------------------------------------------------------------------------

/// Words of the arrays that a replay lends from: the rows of a job, the area table by table, the lists.
const ROWS: usize = (EDITS + 6) * COMMAND;
const AREA: [usize; 8] = [1312, 416, 352, 288, 1696, 64, 64, 4128];
const ARRAYS: [usize; 4] = [256, 256, 256, 640];

/// A map with its jobs, as it is stored: of each job its rows and the words lent for the area and for the lists.
pub struct Stored {
    pub tables: Tables,
    pub counter: u64,
    pub jobs: Vec<(Vec<u64>, [usize; 12])>,
}

impl Stored {
    /// Some small map, and jobs on it one after the other.
    pub fn made_up(seed: u64, index: usize) -> Self {
        let edits: Vec<usize> = (0..COMMANDS.len()).collect();
        let case = generate::case_of(seed, index, generate::Profile::Small, &edits);
        let first = case.calls.iter().map(|(call, _)| *call).take(2).collect();
        let mut play = Play::on((case.tables.clone(), case.counter, first), seed, index);
        let mut stored = Stored {
            tables: case.tables,
            counter: case.counter,
            jobs: Vec::new(),
        };
        while let Some((sent, before, _)) = play.next() {
            let t = &before.tables;
            let sizes: [usize; 12] = std::array::from_fn(|k| match k {
                COORDINATES => (t.xyz.len() as isize + sent.longer[k]).max(0) as usize,
                0..COORDINATES => (t.words[k].len() as isize + sent.longer[k]).max(0) as usize,
                _ => sent.lists()[k - 8],
            });
            let most = |k: usize| if k < 8 { AREA[k] } else { ARRAYS[k - 8] };
            if sent.rows.len() > ROWS || (0..12).any(|k| sizes[k] > most(k)) {
                break;
            }
            stored.jobs.push((sent.rows, sizes));
        }
        stored
    }

    /// What a replay must write of each job: its answer, and a digest of all that was lent.
    pub fn lines(&self, tally: &mut Tally) -> String {
        let mut text = String::new();
        let mut state = State::new(self.tables.clone(), self.counter);
        tally.maps += 1;
        for (rows, sizes) in &self.jobs {
            let n: [usize; 4] = std::array::from_fn(|k| sizes[8 + k] / ENTRY[k]);
            let sent = Sent {
                rows: rows.clone(),
                longer: std::array::from_fn(|k| match k {
                    COORDINATES => sizes[k] as isize - state.tables.xyz.len() as isize,
                    _ => sizes[k] as isize - state.tables.words[k].len() as isize,
                }),
                seed: 0,
                room: Room {
                    created: n[0],
                    modified: n[1],
                    deleted: n[2],
                    warnings: n[3],
                },
                odd: std::array::from_fn(|k| sizes[8 + k] % ENTRY[k]),
            };
            let short = sent.short(&state.tables);
            let end = make(&state, &read(rows), short, &sent.room);
            tally.job(&sent, &state, &end);
            let mut area = Tables {
                words: std::array::from_fn(|k| vec![memory::FILL; sizes[k]]),
                xyz: vec![0.5; sizes[COORDINATES]],
            };
            sent.filled(&end, &mut area, &state.tables);
            let lists = std::array::from_fn(|k| vec![memory::FILL; sizes[8 + k]]);
            let (_, lists) = expected(&end.changes, lists);
            state = end.after;
            let digest = digest::of([&state.tables, &area], &lists);
            let t = end.told;
            let (kind, id) = t.entity.map_or((0, 0), |(kind, id)| (kind + 1, id));
            let [created, modified, deleted, warnings] = t.counts;
            text += &format!(
                "{} {} {} {kind} {id} {created} {modified} {deleted} {warnings} {} {digest}\n",
                t.number, t.place, t.own, t.counter
            );
        }
        text
    }
}

// ---- counts ------------------------------------------------------------------------------------

#[derive(Default)]
pub struct Tally {
    maps: usize,
    jobs: usize,
    /// Made jobs by their edits, and those edits by command.
    made: Vec<usize>,
    edits: [usize; 6],
    warnings: usize,
    /// Jobs with nearly as many warnings as are kept, from four less on, and with more.
    nearly: [usize; 6],
    passing: usize,
    /// Refusals 9, 10, 12 and 13.
    refused: std::collections::BTreeMap<u64, usize>,
    /// Of 12: the place, the edit's own number, what its own 10 was given for.
    places: Vec<usize>,
    own: [usize; 12],
    own_room: std::collections::BTreeMap<&'static str, usize>,
    /// Of 10: the slice of the area, or the list.
    area: std::collections::BTreeMap<&'static str, usize>,
    lists: std::collections::BTreeMap<&'static str, usize>,
    /// Refusals that stand before another one that the call deserves too.
    before: std::collections::BTreeMap<&'static str, usize>,
}

impl Tally {
    pub fn new() -> Self {
        Tally {
            made: vec![0; EDITS + 1],
            places: vec![0; EDITS + 1],
            ..Tally::default()
        }
    }

    fn job(&mut self, sent: &Sent, before: &State, end: &Ended) {
        self.jobs += 1;
        let job = read(&sent.rows);
        let told = &end.told;
        if told.number == 0 {
            self.made[job.len()] += 1;
            job.iter().for_each(|c| self.edits[c.command()] += 1);
            self.warnings += told.counts[3];
            if told.counts[3] + 4 >= KEPT {
                self.nearly[(told.counts[3] + 4 - KEPT).min(5)] += 1;
            }
            self.passing += (end.passing > 0) as usize;
            return;
        }
        *self.refused.entry(told.number).or_default() += 1;
        let short = sent.short(&before.tables).is_some();
        let (unsound, mut beside) = (before.map.is_none(), Vec::new());
        match (told.number, end.passed) {
            (13, _) => {
                beside.push((unsound, "13 before 9"));
                beside.push((short, "13 before 10 of the area"));
            }
            (9, _) => beside.push((short, "9 before 10 of the area")),
            (10, Some(p)) if LISTS.contains(&p) => *self.lists.entry(p).or_default() += 1,
            (10, p) => {
                let later = make(before, &job, None, &sent.room).told.number;
                beside.push((later == 12, "10 of the area before 12"));
                beside.push((later == 10, "10 of the area before 10 of the lists"));
                *self.area.entry(p.expect("a reason")).or_default() += 1;
            }
            (_, p) => {
                self.places[told.place as usize] += 1;
                self.own[told.own as usize] += 1;
                if let Some(p) = p {
                    *self.own_room.entry(p).or_default() += 1;
                }
            }
        }
        for (there, text) in beside {
            *self.before.entry(text).or_default() += there as usize;
        }
    }

    pub fn print(&self) {
        eprintln!("{} maps, {} jobs", self.maps, self.jobs);
        eprintln!(
            "{:>8} made, by edits from 0: {:?}",
            self.made.iter().sum::<usize>(),
            self.made
        );
        for (name, n) in COMMANDS.iter().zip(self.edits) {
            eprintln!("{n:>8} {name} in made jobs");
        }
        eprintln!("{:>8} warnings of made jobs", self.warnings);
        eprintln!(
            "         jobs with {} warnings, one more each, more than {KEPT}: {:?}",
            KEPT - 4,
            self.nearly
        );
        eprintln!(
            "{:>8} made jobs in which an entity comes and goes",
            self.passing
        );
        for (number, n) in &self.refused {
            eprintln!("{n:>8} times {number}");
        }
        eprintln!("   place of 12, from 1: {:?}", &self.places[1..]);
        eprintln!("   own number, from 1: {:?}", &self.own[1..]);
        for (what, n) in &self.own_room {
            eprintln!("{n:>8} times 12 with own number 10: {what}");
        }
        for (what, n) in &self.area {
            eprintln!("{n:>8} times 10 of the area: {what}");
        }
        for (what, n) in &self.lists {
            eprintln!("{n:>8} times 10 at the end: {what}");
        }
        for (what, n) in &self.before {
            eprintln!("{n:>8} times {what}");
        }
    }
}

// ---- runs --------------------------------------------------------------------------------------

/// A difference: the smallest map and job found, and what differs.
type Found = (State, Sent, String);

/// At most this many differences are told.
const TOLD: usize = 20;

/// A difference made smaller: fewer edits, then a smaller map, then fewer edits again.
fn shrink(
    editor: &mut dyn Jobs,
    sent: &Sent,
    before: &State,
    said: String,
    until: Instant,
) -> Found {
    let mut best = (before.clone(), sent.clone(), said);
    for _ in 0..2 {
        let mut at = 0;
        while at * COMMAND < best.1.rows.len() && Instant::now() < until {
            let mut less = best.1.clone();
            less.rows
                .drain(at * COMMAND..((at + 1) * COMMAND).min(best.1.rows.len()));
            match less.difference(editor, &mut less.lend(&best.0), &best.0) {
                Some(said) => (best.1, best.2) = (less, said),
                None => at += 1,
            }
        }
        let (s, said) = against::shrunk(&best.0, best.2.clone(), until, |next| {
            best.1.difference(editor, &mut best.1.lend(next), next)
        });
        (best.0, best.2) = (s, said);
    }
    best
}

/// The jobs of one map beside the editor; the first difference ends them.
fn map(
    editor: &mut dyn Jobs,
    mut play: Play,
    tally: &mut Tally,
    left: &mut Duration,
) -> Option<Found> {
    tally.maps += 1;
    let mut memory: Option<Memory> = None;
    while let Some((sent, before, end)) = play.next() {
        tally.job(&sent, &before, &end);
        let mut own = memory.take().unwrap_or_else(|| sent.lend(&before));
        match sent.difference(editor, &mut own, &before) {
            None => memory = Some(own),
            Some(said) => {
                let alone = sent.difference(editor, &mut sent.lend(&before), &before);
                let Some(said) = alone else {
                    return Some((
                        before,
                        sent,
                        format!("{said}, only after the jobs before it"),
                    ));
                };
                let began = Instant::now();
                let found = shrink(editor, &sent, &before, said, began + *left);
                *left = left.saturating_sub(began.elapsed());
                return Some(found);
            }
        }
    }
    None
}

fn tell((before, sent, said): &Found) {
    println!("{said}\n  {}", describe(before));
    for (i, call) in read(&sent.rows).iter().enumerate() {
        println!("  {}: {call:?}", i + 1);
    }
    println!("  lists {:?}, area longer by {:?}", sent.room, sent.longer);
}

pub fn run(seed: u64, count: usize) -> bool {
    let Some(mut editor) = crate::ffi::jobs() else {
        println!(
            "built without the library: EDITOR_LIB=FOLDER bash oracle/build --features against"
        );
        return false;
    };
    let (mut tally, mut left, mut differ) = (Tally::new(), PATIENCE, 0);
    let few = (0..count).map(|index| Play::new(seed, index));
    let plays = few.chain((0..count / 200).map(many));
    for (index, play) in plays.enumerate() {
        if let Some(found) = map(&mut *editor, play, &mut tally, &mut left) {
            differ += 1;
            if differ <= TOLD {
                println!("map {index}:");
                tell(&found);
            }
        }
    }
    tally.print();
    println!("{differ} differences in {} jobs", tally.jobs);
    differ == 0
}

// ---- the comparison itself, tried ---------------------------------------------------------------

/// The oracle as an editor of jobs, right or with one fault.
struct Own {
    fault: Option<Fault>,
}

#[derive(Clone, Copy, PartialEq, Debug)]
enum Fault {
    KeepsEditsBeforeRefused,
    KeepsCounterOfRefused,
    PlaceFromZero,
    OwnNumberInstead,
    AreaOnlyWhenMade,
    AreaFilledByThirteen,
    AreaFilledByNine,
    AreaHoldsNewMap,
    AreaClearedBehindCopy,
    ShortAreaIsEnough,
    NineBeforeThirteen,
    AreaBeforeNine,
    RefusedWritesLists,
    ModifiedListsCreated,
    ModifiedListsDeleted,
    ListsWhatPasses,
    WarningsOfLastEdit,
    BlanksUnusedWords,
    WarnsPastKeptAgain,
    ListsTestedByEdits,
    CutRowIsNoEdit,
    SixtyFourIsTooMany,
}

use Fault::*;

const FAULTS: [Fault; 22] = [
    KeepsEditsBeforeRefused,
    KeepsCounterOfRefused,
    PlaceFromZero,
    OwnNumberInstead,
    AreaOnlyWhenMade,
    AreaFilledByThirteen,
    AreaFilledByNine,
    AreaHoldsNewMap,
    AreaClearedBehindCopy,
    ShortAreaIsEnough,
    NineBeforeThirteen,
    AreaBeforeNine,
    RefusedWritesLists,
    ModifiedListsCreated,
    ModifiedListsDeleted,
    ListsWhatPasses,
    WarningsOfLastEdit,
    BlanksUnusedWords,
    WarnsPastKeptAgain,
    ListsTestedByEdits,
    CutRowIsNoEdit,
    SixtyFourIsTooMany,
];

/// The area's slice that is shorter than the map's.
fn too_short(memory: &Memory, area: &Area) -> Option<&'static str> {
    let short = |k: &usize| area.words[*k].get().len() < memory.words[*k].get().len();
    let words = (0..7).find(short);
    let xyz = (area.xyz.get().len() < memory.xyz.get().len()).then_some(COORDINATES);
    words.or(xyz).map(|k| NAMES[k])
}

/// What the lists have room for.
fn room(memory: &Memory) -> Room {
    let n = |k: usize, words: usize| memory.lists[k].get().len() / words;
    Room {
        created: n(0, 2),
        modified: n(1, 2),
        deleted: n(2, 2),
        warnings: n(3, 10),
    }
}

impl Own {
    fn has(&self, fault: Fault) -> bool {
        self.fault == Some(fault)
    }

    /// What this editor takes the job for.
    fn ended(&self, before: &State, memory: &Memory, area: &Area) -> Ended {
        let mut job = read(memory.row.get());
        let short = too_short(memory, area);
        if self.has(CutRowIsNoEdit) {
            job.truncate(memory.row.get().len() / COMMAND);
        }
        if self.has(SixtyFourIsTooMany) && job.len() == EDITS {
            return refusing(before, 13, None);
        }
        if self.has(NineBeforeThirteen) && before.map.is_none() {
            return refusing(before, 9, None);
        }
        if self.has(AreaBeforeNine) && short.is_some() && job.len() <= EDITS {
            return refusing(before, 10, short);
        }
        let short = short.filter(|_| !self.has(ShortAreaIsEnough));
        let end = make(before, &job, short, &room(memory));
        if self.has(ListsTestedByEdits) && end.told.number == 0 {
            let mut state = before.clone();
            for (i, call) in job.iter().enumerate() {
                if let Answer::Refused { number, .. } = state.step(call, &room(memory)) {
                    let mut end = refusing(before, 12, None);
                    (end.told.place, end.told.own) = (i as u64 + 1, number);
                    return end;
                }
            }
        }
        end
    }

    /// The edits before the refused one, made.
    fn kept(&self, before: &State, memory: &Memory, end: &Ended) -> State {
        let mut state = before.clone();
        for call in read(memory.row.get())
            .iter()
            .take(end.told.place.saturating_sub(1) as usize)
        {
            state.step(call, &Room::AMPLE);
        }
        state
    }

    /// The change set as this editor lists it.
    fn changes(&self, before: &State, memory: &Memory, end: &Ended) -> Answer {
        let mut answer = end.changes.clone();
        let Answer::Changed {
            created,
            modified,
            deleted,
            warnings,
            ..
        } = &mut answer
        else {
            return answer;
        };
        let mut state = before.clone();
        let (mut listed, mut born, mut last) = (BTreeSet::new(), BTreeSet::new(), 0);
        for call in read(memory.row.get()) {
            if let Answer::Changed {
                created,
                modified,
                warnings,
                ..
            } = state.step(&call, &Room::AMPLE)
            {
                born.extend(created);
                listed.extend(modified);
                last = warnings.len();
            }
        }
        let among = |all: &Vec<Entity>| -> Vec<Entity> {
            all.iter().filter(|e| listed.contains(e)).copied().collect()
        };
        let sorted = |some: &[Entity], more: Vec<Entity>| -> Vec<Entity> {
            let all: BTreeSet<Entity> = some.iter().copied().chain(more).collect();
            all.into_iter().collect()
        };
        match self.fault {
            Some(ModifiedListsCreated) => *modified = sorted(modified, among(created)),
            Some(ModifiedListsDeleted) => *modified = sorted(modified, among(deleted)),
            Some(ListsWhatPasses) => *created = sorted(created, born.into_iter().collect()),
            Some(WarningsOfLastEdit) => *warnings = warnings.split_off(warnings.len() - last),
            Some(WarnsPastKeptAgain) if warnings.len() > KEPT => warnings[KEPT] = warnings[0],
            _ => {}
        }
        answer
    }

    /// Leaves the area as this editor does.
    fn fill(&self, memory: &Memory, area: &mut Area, end: &Ended) {
        let whole = too_short(memory, area).is_none();
        let filled = match end.told.number {
            13 => self.has(AreaFilledByThirteen),
            9 => self.has(AreaFilledByNine),
            0 => true,
            _ => !self.has(AreaOnlyWhenMade),
        };
        if !whole || !filled {
            return;
        }
        let old = match self.has(AreaHoldsNewMap) {
            true => end.after.tables.clone(),
            false => memory.tables(),
        };
        for (to, from) in area.words.iter_mut().zip(&old.words) {
            let to = to.get_mut();
            to[..from.len()].copy_from_slice(from);
            if self.has(AreaClearedBehindCopy) {
                to[from.len()..].fill(0);
            }
        }
        area.xyz.get_mut()[..old.xyz.len()].copy_from_slice(&old.xyz);
    }
}

impl Jobs for Own {
    fn on(&mut self, memory: &mut Memory, area: &mut Area) -> Told {
        let before = State::new(memory.tables(), memory.counter);
        let end = self.ended(&before, memory, area);
        self.fill(memory, area, &end);
        let mut told = end.told.clone();
        memory.store(&end.after.tables);
        memory.counter = end.after.counter;
        if told.number == 12 {
            let kept = self.kept(&before, memory, &end);
            match self.fault {
                Some(KeepsEditsBeforeRefused) => memory.store(&kept.tables),
                Some(KeepsCounterOfRefused) => memory.counter = kept.counter,
                Some(PlaceFromZero) => told.place -= 1,
                Some(OwnNumberInstead) => told.number = told.own,
                _ => {}
            }
        }
        if told.number > 0 && self.has(RefusedWritesLists) {
            let first = memory.lists[3].get_mut().first_mut();
            first.into_iter().for_each(|w| *w = 0);
        }
        let changes = self.changes(&before, memory, &end);
        let lists = memory.lists.clone().map(|l| {
            let mut words = l.get().to_vec();
            words.resize(words.len() + 1000, memory::FILL);
            words
        });
        let (raw, lists) = expected(&changes, lists);
        let mut lists = lists;
        if self.has(BlanksUnusedWords) {
            // Those of related entities that a warning does not have.
            for row in lists[3].chunks_mut(ENTRY[3]).take(raw.counts[3]) {
                let used = 5 + 2 * row[4] as usize;
                row[used..9].fill(0);
            }
        }
        if told.number == 0 {
            told.counts = raw.counts;
            for (slice, list) in memory.lists.iter_mut().zip(&lists) {
                let n = slice.get().len();
                slice.get_mut().copy_from_slice(&list[..n]);
            }
        }
        told
    }
}

/// As `against::try_out` for jobs: each fault is found within 10,000 jobs.
pub fn try_out(seed: u64, count: usize) -> bool {
    let mut good = true;
    for fault in std::iter::once(None).chain(FAULTS.map(Some)) {
        let (mut tally, mut left) = (Tally::new(), PATIENCE);
        let mut editor = Own { fault };
        let plays = (0..count).map(|i| match i % 40 {
            39 => many(i / 40),
            _ => Play::new(seed, i),
        });
        let found = { plays }.find_map(|p| map(&mut editor, p, &mut tally, &mut left));
        match (&fault, &found) {
            (None, None) => println!("jobs, no fault: 0 differences in {} jobs", tally.jobs),
            (Some(f), Some(found)) if tally.jobs <= 10_000 => {
                println!("jobs, {f:?}: found after {} jobs", tally.jobs);
                tell(found);
            }
            _ => {
                println!(
                    "jobs, {fault:?}: {} jobs, found: {}",
                    tally.jobs,
                    found.is_some()
                );
                found.iter().for_each(tell);
                good = false;
            }
        }
    }
    good
}
