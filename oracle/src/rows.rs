//! Random rows for the definitions of the crate `rules`: a map before, a call and the whole outcome as
//! antt literals, each a theorem by computation. Written as the proofs/ of a crate `rows` over `rules`.

use std::collections::BTreeSet;
use std::fmt::Write as _;
use std::fs;
use std::io;
use std::path::Path;

use vectormap_core::*;

use crate::generate::{self, Profile, Turn};
use crate::step::{Answer, Call, Entity, State, Warning};
use crate::tables::*;
use crate::tally::Tally;

/// Rows of a file.
const FILE: usize = 40;

/// Rows of a map at most, spread over its calls.
const SPREAD: usize = 4;

/// Points of a map at most, and of a line of it where a lane is split: beyond, a row can take more
/// steps than a declaration may.
const MOST: usize = 1500;
const LONGEST: usize = 60;

const SHAPES: &str = "\
-- What the rows are written with.
use mathlib.Core.Path.{◌≡◌}
use mathlib.Core.Bool.{Bool}
use mathlib.Core.List.{List}
use Rattle.std.specs.Prelude.{Option}
use Prim.Native.Nat.{ℕ}
use lib.Ieee.{Float, binary64, of_bits}
use Rattle.entities.specs.Types.{preset}
use Rattle.entities.specs.Records.{Line, Lane, Boundary, Road, Junction, Rule, StopLine, Crosswalk, Issue, ChangeSet}
use Rattle.rules.specs.Names.{Point3, BoundaryRef, Neighbor, NeighborDirection, EntityKind, EntityRef, Severity, IssueCode, Refusal}
use Rattle.rules.specs.Sound.{Room, Lists}
use Rattle.rules.specs.Ops.{Command, State, refused, accepted, step_map}

abbrev pub f : ℕ → Float
f bits = of_bits binary64 bits

abbrev pub p : ℕ → ℕ → ℕ → Point3
p x y z = record { x = f x; y = f y; z = f z }

abbrev pub bound : ℕ → Bool → BoundaryRef
bound b reversed = record { boundary = b; reversed = reversed }

abbrev pub slot : NeighborDirection → ℕ → Neighbor
slot d l = record { lane = l; direction = d }

abbrev pub lane : ℕ → ℕ → BoundaryRef → BoundaryRef → Option Line → Option ℕ → Bool → ℕ → ℕ → Option Neighbor → Option Neighbor → List ℕ → List ℕ → Lane
lane i k l r c s w t a ln rn ps ss = record { id = i; kind = k; left = l; right = r; centerline = c; speed_limit = s; one_way = w; turn_direction = t; attributes = a; left_neighbor = ln; right_neighbor = rn; predecessors = ps; successors = ss }

abbrev pub boundary : ℕ → ℕ → Line → ℕ → Boundary
boundary i k c a = record { id = i; kind = k; geometry = c; attributes = a }

abbrev pub road : ℕ → ℕ → ℕ → List ℕ → Road
road i n a ls = record { id = i; name = n; attributes = a; lanes = ls }

abbrev pub junction : ℕ → ℕ → ℕ → ℕ → List ℕ → Junction
junction i n o a ls = record { id = i; name = n; outline = o; attributes = a; lanes = ls }

abbrev pub rule : ℕ → ℕ → ℕ → ℕ → Option ℕ → List ℕ → List ℕ → List ℕ → List ℕ → List ℕ → Rule
rule i k d a c ls cc ss ps ys = record { id = i; kind = k; content = d; attributes = a; crosswalk = c; lanes = ls; controlled_crosswalks = cc; stop_lines = ss; priority = ps; yielding = ys }

abbrev pub stop_line : ℕ → Line → ℕ → StopLine
stop_line i c a = record { id = i; geometry = c; attributes = a }

abbrev pub crosswalk : ℕ → Line → Line → ℕ → ℕ → Crosswalk
crosswalk i l r o a = record { id = i; left_edge = l; right_edge = r; outline = o; attributes = a }

abbrev pub state : List Lane → List Boundary → List Road → List Junction → List Rule → List StopLine → List Crosswalk → ℕ → State
state ls bs rs js us ss cs n = record { map = record { lanes = ls; boundaries = bs; roads = rs; junctions = js; rules = us; stop_lines = ss; crosswalks = cs }; counter = n }

abbrev pub room : ℕ → ℕ → ℕ → Room
room l b n = record { lanes = l; boundaries = b; points = n }

abbrev pub lists : ℕ → ℕ → ℕ → ℕ → Lists
lists c m d w = record { created = c; modified = m; deleted = d; warnings = w }

abbrev pub e : EntityKind → ℕ → EntityRef
e k i = record { kind = k; id = i }

abbrev pub issue : Severity → IssueCode → EntityRef → List EntityRef → Bool → Issue
issue s c x related fix = record { severity = s; code = c; entity = x; related = related; fix = fix }

abbrev pub changes : List EntityRef → List EntityRef → List EntityRef → List Issue → ChangeSet
changes c m d w = record { created = c; modified = m; deleted = d; warnings = w }

abbrev pub Refuses : State → Room → Lists → Command → Refusal → Type 0
Refuses s r l c n = step_map preset r (record { command = c; lists = l }) s ≡ record { state = s; answer = refused n }

abbrev pub Accepts : State → Room → Lists → Command → State → ChangeSet → Option ℕ → Type 0
Accepts s r l c t cs second = step_map preset r (record { command = c; lists = l }) s ≡ record { state = t; answer = accepted cs second }
";

const HEAD: &str = "\
use mathlib.Core.Path.{refl}
use mathlib.Core.Bool.{true, false}
use mathlib.Core.List.{[], ◌∷◌}
use Rattle.std.specs.Prelude.{None, Some}
use Rattle.rules.specs.Names.{Fraction, Station, Left, Right, Same, Opposite, LaneKind, BoundaryKind, RoadKind, JunctionKind, StopLineKind, SignalKind, CrosswalkKind, RuleKind, Info, Warning, Error, NoOp, GeometricGap, BoundaryUnshared, NeighborDropped, OrphanRule, AttributeConflict, LaneAbsent, FractionOutside, PositionOutside, OwnPartner, NotMergeable, BoundaryAbsent, NoUsableLine, NotCrossing, Unsound, NoRoom, NoIds}
use Rattle.rules.specs.Ops.{State, SplitLane, MergeLanes, ConnectLanes, DisconnectLanes, SetNeighbor, RemoveLane}
use Rattle.rules.proofs.Opened.{opened}
use Rattle.rows.proofs.Shapes.{f, p, bound, slot, lane, boundary, road, junction, rule, stop_line, crosswalk, state, room, lists, e, issue, changes, Refuses, Accepts}
";

// ---- literals ----------------------------------------------------------------------------------

fn list(items: impl IntoIterator<Item = String>) -> String {
    let mut out = String::from("(");
    for x in items {
        write!(out, "{x} ∷ ").expect("a string");
    }
    out + "[])"
}

/// A counted list in a row's words.
fn ids(words: &[u64]) -> String {
    list(words[1..1 + words[0] as usize].iter().map(u64::to_string))
}

fn float(x: f64) -> String {
    format!("{:#x}", x.to_bits())
}

fn line(t: &Tables, start: u64, length: u64) -> String {
    let (a, n) = (start as usize, length as usize);
    let points = if n == 0 {
        &[]
    } else {
        &t.xyz[3 * a..3 * (a + n)]
    };
    list(
        points
            .chunks(3)
            .map(|p| format!("p {} {} {}", float(p[0]), float(p[1]), float(p[2]))),
    )
}

fn option(x: Option<String>) -> String {
    x.map_or("None".into(), |x| format!("(Some {x})"))
}

fn truth(x: bool) -> &'static str {
    if x { "true" } else { "false" }
}

fn neighbor(direction: NeighborDirection, lane: u64) -> String {
    match direction {
        NeighborDirection::Same => format!("(slot Same {lane})"),
        NeighborDirection::Opposite => format!("(slot Opposite {lane})"),
    }
}

fn slot(mark: u64, lane: u64) -> String {
    option(match mark {
        0 => None,
        1 => Some(neighbor(NeighborDirection::Same, lane)),
        _ => Some(neighbor(NeighborDirection::Opposite, lane)),
    })
}

/// The rows of a table, one on a line.
fn rows(t: &Tables, table: usize, row: impl Fn(&[u64]) -> String) -> String {
    let mut out = String::from("    (");
    for r in t.rows(table) {
        write!(out, "{} ∷\n     ", row(r)).expect("a string");
    }
    out + "[])\n"
}

/// The map that the tables hold, sound or not. What a rule's kind does not have is not read.
pub fn state(t: &Tables, counter: u64) -> String {
    let mut out = String::from("state\n");
    out += &rows(t, LANES, |r| {
        format!(
            "lane {} {} (bound {} {}) (bound {} {}) {} {} {} {} {} {} {} {} {}",
            r[lane::ID],
            r[lane::KIND],
            r[lane::LEFT],
            truth(r[lane::LEFT_REVERSED] == 1),
            r[lane::RIGHT],
            truth(r[lane::RIGHT_REVERSED] == 1),
            option((r[lane::CENTRE] == 1).then(|| line(t, r[lane::START], r[lane::LENGTH]))),
            option((r[lane::SPEED] == 1).then(|| r[lane::SPEED_BITS].to_string())),
            truth(r[lane::ONE_WAY] == 1),
            r[lane::TURN],
            r[lane::ATTRIBUTES],
            slot(r[lane::LEFT_MARK], r[lane::LEFT_MARK + 1]),
            slot(r[lane::RIGHT_MARK], r[lane::RIGHT_MARK + 1]),
            ids(&r[lane::PREDECESSORS..]),
            ids(&r[lane::SUCCESSORS..]),
        )
    });
    out += &rows(t, BOUNDARIES, |r| {
        format!(
            "boundary {} {} {} {}",
            r[0],
            r[1],
            line(t, r[2], r[3]),
            r[4]
        )
    });
    out += &rows(t, ROADS, |r| {
        format!("road {} {} {} {}", r[0], r[1], r[2], ids(&r[3..]))
    });
    out += &rows(t, JUNCTIONS, |r| {
        let l = ids(&r[4..]);
        format!("junction {} {} {} {} {l}", r[0], r[1], r[2], r[3])
    });
    out += &rows(t, RULES, |r| {
        let k = r[1];
        let has = |kinds: &[u64], place: usize| match kinds.contains(&k) {
            true => ids(&r[place..]),
            false => "[]".into(),
        };
        let data = [kind::TRAFFIC_LIGHT, kind::TRAFFIC_SIGN, kind::OTHER].contains(&k);
        format!(
            "rule {} {k} {} {} {} {} {} {} {} {}",
            r[0],
            if data { r[rule::DATA] } else { 0 },
            r[rule::ATTRIBUTES],
            option((k == kind::CROSSWALK).then(|| r[rule::CROSSWALK].to_string())),
            ids(&r[rule::LANES..]),
            ids(&r[rule::CONTROLLED..]),
            has(&[0, 1, 2, 3, 4], rule::STOP_LINES),
            has(&[kind::RIGHT_OF_WAY], rule::PRIORITY),
            has(&[kind::RIGHT_OF_WAY], rule::YIELDING),
        )
    });
    out += &rows(t, STOP_LINES, |r| {
        format!("stop_line {} {} {}", r[0], line(t, r[1], r[2]), r[3])
    });
    out += &rows(t, CROSSWALKS, |r| {
        let (a, b) = (line(t, r[1], r[2]), line(t, r[3], r[4]));
        format!("crosswalk {} {a} {b} {} {}", r[0], r[5], r[6])
    });
    out + &format!("    {counter}\n")
}

/// The tables can be read as a map: what is wrong with them, if anything, shows in the map.
pub fn legible(t: &Tables) -> bool {
    let counted = (0..7).all(|k| {
        t.words[k]
            .first()
            .is_some_and(|n| *n <= ((t.words[k].len() - 1) / ROW[k]) as u64)
    });
    if !counted {
        return false;
    }
    let (links, ids) = (LINKS as u64, IDS as u64);
    let rows = t.rows(LANES).all(|r| {
        let marks = [
            lane::LEFT_REVERSED,
            lane::RIGHT_REVERSED,
            lane::CENTRE,
            lane::SPEED,
            lane::ONE_WAY,
        ];
        marks.iter().all(|m| r[*m] < 2)
            && r[lane::LEFT_MARK].max(r[lane::RIGHT_MARK]) < 3
            && r[lane::PREDECESSORS].max(r[lane::SUCCESSORS]) <= links
    }) && t.rows(ROADS).all(|r| r[3] <= ids)
        && t.rows(JUNCTIONS).all(|r| r[4] <= ids)
        && t.rows(RULES).all(|r| {
            r[rule::LANES].max(r[rule::CONTROLLED]) <= ids
                && (r[1] >= kind::OTHER || r[rule::STOP_LINES] <= ids)
                && (r[1] != kind::RIGHT_OF_WAY || r[rule::PRIORITY].max(r[rule::YIELDING]) <= ids)
        });
    if !rows {
        return false;
    }
    let points = (t.xyz.len() / 3) as u64;
    let mut spans = spans(t);
    spans.sort();
    let stored = |s: &(u64, u64)| s.0 <= points && s.1 <= points - s.0;
    spans.iter().all(stored) && spans.windows(2).all(|w| w[0].0 + w[0].1 <= w[1].0)
}

/// Where the lines of the map lie: start and length.
fn spans(t: &Tables) -> Vec<(u64, u64)> {
    let mut out: Vec<(u64, u64)> = t.rows(BOUNDARIES).map(|r| (r[2], r[3])).collect();
    let explicit = t.rows(LANES).filter(|r| r[lane::CENTRE] == 1);
    out.extend(explicit.map(|r| (r[lane::START], r[lane::LENGTH])));
    out.extend(t.rows(STOP_LINES).map(|r| (r[1], r[2])));
    out.extend(
        t.rows(CROSSWALKS)
            .flat_map(|r| [(r[1], r[2]), (r[3], r[4])]),
    );
    out.retain(|s| s.1 > 0);
    out
}

/// The row can be computed in the steps that a declaration may take.
fn small(t: &Turn) -> bool {
    let split = matches!(t.call, Call::SplitLane { .. });
    [t.before, t.after].iter().all(|s| {
        let lines = spans(&s.tables);
        lines.iter().map(|s| s.1 as usize).sum::<usize>() <= MOST
            && (!split || lines.iter().all(|s| s.1 as usize <= LONGEST))
    })
}

fn side(s: Side) -> &'static str {
    match s {
        Side::Left => "Left",
        Side::Right => "Right",
    }
}

pub fn command(call: &Call) -> String {
    match *call {
        Call::Connect { from, to } => format!("(ConnectLanes {from} {to})"),
        Call::Disconnect { from, to } => format!("(DisconnectLanes {from} {to})"),
        Call::SetNeighbor {
            lane,
            side: s,
            neighbor: to,
        } => {
            let n = option(to.map(|n| neighbor(n.direction, n.lane.0)));
            format!("(SetNeighbor {lane} {} {n})", side(s))
        }
        Call::RemoveLane { lane } => format!("(RemoveLane {lane})"),
        Call::MergeLanes { first, second } => format!("(MergeLanes {first} {second})"),
        Call::SplitLane {
            lane,
            at,
            neighbors,
        } => {
            let at = match at {
                SplitAt::Fraction(x) => format!("(Fraction (f {}))", float(x)),
                SplitAt::Station(x) => format!("(Station (f {}))", float(x)),
            };
            format!("(SplitLane {lane} {at} {})", truth(neighbors))
        }
    }
}

const KINDS: [&str; 8] = [
    "LaneKind",
    "BoundaryKind",
    "RoadKind",
    "JunctionKind",
    "StopLineKind",
    "SignalKind",
    "CrosswalkKind",
    "RuleKind",
];

fn entity(x: &Entity) -> String {
    format!("e {} {}", KINDS[x.0 as usize], x.1)
}

fn issue(w: &Warning) -> String {
    let code = match w[1] {
        1 => "NoOp",
        2 => "GeometricGap",
        3 => "BoundaryUnshared",
        4 => "NeighborDropped",
        5 => "OrphanRule",
        8 => "AttributeConflict",
        n => panic!("code {n}"),
    };
    let related = (0..w[4] as usize).map(|i| entity(&(w[5 + 2 * i], w[6 + 2 * i])));
    format!(
        "issue {} {code} ({}) {} {}",
        ["Info", "Warning", "Error"][w[0] as usize],
        entity(&(w[2], w[3])),
        list(related),
        truth(w[9] == 1)
    )
}

fn refusal(number: u64, entity: Option<Entity>) -> String {
    let (name, kind) = match number {
        1 => ("LaneAbsent", Some(0)),
        2 => ("FractionOutside", None),
        3 => ("PositionOutside", Some(0)),
        4 => ("OwnPartner", Some(0)),
        5 => ("NotMergeable", Some(0)),
        6 => ("BoundaryAbsent", Some(1)),
        7 => ("NoUsableLine", Some(0)),
        8 => ("NotCrossing", Some(1)),
        9 => ("Unsound", None),
        10 => ("NoRoom", None),
        11 => ("NoIds", None),
        n => panic!("refusal {n}"),
    };
    assert_eq!(entity.map(|e| e.0), kind, "the entity of refusal {number}");
    match entity {
        None => name.into(),
        Some(e) => format!("({name} {})", e.1),
    }
}

fn changes(answer: &Answer) -> String {
    let Answer::Changed {
        created,
        modified,
        deleted,
        warnings,
        second,
    } = answer
    else {
        panic!("a refusal has no change set");
    };
    format!(
        "(changes {} {} {} {}) {}",
        list(created.iter().map(entity)),
        list(modified.iter().map(entity)),
        list(deleted.iter().map(entity)),
        list(warnings.iter().map(issue)),
        option(second.map(|s| s.to_string()))
    )
}

// ---- files -------------------------------------------------------------------------------------

/// The rows of one file, and the states that stand in it.
#[derive(Default)]
struct File {
    text: String,
    rows: usize,
    states: BTreeSet<String>,
}

impl File {
    fn state(&mut self, name: &str, s: &State) {
        if self.states.insert(name.into()) {
            let value = state(&s.tables, s.counter);
            write!(self.text, "\nabbrev {name} : State\n{name} = {value}").expect("a string");
        }
    }

    /// The row of a call, `map` and `call` being its place. `at` counts the states.
    fn row(&mut self, map: usize, call: usize, at: usize, t: &Turn) {
        let before = format!("s_{map}_{at}");
        self.state(&before, t.before);
        let words = &t.before.tables.words;
        let lent = format!(
            "(room {} {} {}) (lists {} {} {} {})",
            (words[LANES].len() - 1) / ROW[LANES],
            (words[BOUNDARIES].len() - 1) / ROW[BOUNDARIES],
            t.before.tables.xyz.len() / 3,
            t.room.created,
            t.room.modified,
            t.room.deleted,
            t.room.warnings
        );
        let command = command(t.call);
        let claim = match t.answer {
            Answer::Refused { number, entity } => {
                let why = refusal(*number, *entity);
                format!("Refuses {before} {lent} {command} {why}")
            }
            changed => {
                let after = format!("s_{map}_{}", at + 1);
                self.state(&after, t.after);
                let what = changes(changed);
                format!("Accepts {before} {lent} {command} {after} {what}")
            }
        };
        let name = format!("row_{map}_{call}");
        write!(
            self.text,
            "\n{name} : {claim}\nunfolding opened\n{name} = refl\n"
        )
        .expect("a string");
        self.rows += 1;
    }
}

/// Writes the first `count` rows of the seed's maps: the files, their list, and what they share.
pub fn make(seed: u64, count: usize, dir: &Path) -> io::Result<bool> {
    fs::create_dir_all(dir)?;
    fs::write(dir.join("Shapes.antt"), SHAPES)?;
    let mut names = vec!["Shapes".to_string()];
    let mut tally = Tally::default();
    let (mut hidden, mut long) = (0, 0);
    let mut file = File::default();
    let mut close = |file: &mut File| -> io::Result<()> {
        let name = format!("Rows{:03}", names.len());
        let text = format!("-- {} rows of seed {seed}.\n{HEAD}{}", file.rows, file.text);
        fs::write(dir.join(format!("{name}.antt")), text)?;
        names.push(name);
        *file = File::default();
        Ok(())
    };
    let mut index = 0;
    while tally.calls < count {
        let case = generate::case(seed, index, Profile::Small);
        let (mut at, mut call) = (0, 0);
        let mut failed = Ok(());
        if !legible(&case.tables) {
            hidden += 1;
        } else {
            tally.case(&case);
            let every = case.calls.len().div_ceil(SPREAD);
            case.play(|t| {
                if call % every != every / 2 {
                    // Between two rows.
                } else if small(&t) {
                    file.row(index, call, at, &t);
                    tally.turn(&t);
                    if file.rows >= FILE {
                        failed = close(&mut file);
                    }
                } else {
                    long += 1;
                }
                at += matches!(t.answer, Answer::Changed { .. }) as usize;
                call += 1;
                failed.is_ok() && tally.calls < count
            });
        }
        failed?;
        index += 1;
    }
    if file.rows > 0 {
        close(&mut file)?;
    }
    let list: String = names.iter().map(|n| format!("mod {n}\n")).collect();
    fs::write(dir.join("Lib.antt"), list)?;
    tally.print();
    eprintln!("{hidden:>8} maps left out: not sound as tables alone");
    eprintln!("{long:>8} calls left out: too many points");
    Ok(true)
}
