//! The command line.

use std::path::{Path, PathBuf};
use std::str::FromStr;

use crate::Failure;
use crate::files;
use voldrekka::{Command, Kind, LaneId, Neighbor, NeighborDirection, Side, SplitAt};

pub const USAGE: &str = "\
voldrekka: shows, checks, edits and draws lane maps (docs/MAPS.md)

  voldrekka show FILE                                  the map as tables
  voldrekka check FILE                                 whether it is sound
  voldrekka split FILE LANE --fraction F               cuts a lane with its neighbours at a part of its length,
  voldrekka split FILE LANE --station METRES             or at a distance from its start; --alone: without neighbours
  voldrekka merge FILE FIRST SECOND                    merges a lane's only successor into it
  voldrekka connect FILE FROM TO                       links the end of a lane to the start of another
  voldrekka disconnect FILE FROM TO                    removes a link
  voldrekka neighbor FILE LANE left|right OTHER        sets the lane beside it: ID:same, ID:opposite, or none
  voldrekka remove FILE LANE                           removes a lane
  voldrekka job FILE EDITS                             makes the edits of the file EDITS, one a line (split 1 --fraction 0.5), all of them or none
  voldrekka draw FILE [EDIT ..]                        a picture of the map, or of an edit (split 1 --fraction 0.5) or a job (job EDITS): before and after

An edit or a job replaces FILE once all has gone well. With --output OTHER it is left alone and OTHER is written, with --dry-run nothing is; --draw SVG draws it too.
draw writes FILE's name with the ending svg, or --output SVG. --json: answers for programs.

Exit status: 0 done; 1 to 11 the edit was refused with that number, and check gives 9 for a map that is not sound; a job is refused with 9, 10, 12 (one of its
edits, told with its line) or 13 (more than 64); 64 the command line, 65 a line of a file, 66 a file that cannot be read or written, 70 the machine's floating-point state.
";

pub struct Request {
    pub task: Task,
    pub json: bool,
}

pub enum Task {
    Help,
    Show { file: PathBuf },
    Check { file: PathBuf },
    Edit(Edit),
    Draw { file: PathBuf, edit: Option<Change>, output: Option<PathBuf> },
}

/// What is to be made of a map.
pub enum Change {
    Edit(Command),
    /// The edits of this file, all of them or none.
    Job(PathBuf),
}

/// An edit or a job, and where to write.
pub struct Edit {
    pub file: PathBuf,
    pub change: Change,
    /// Where the map goes, if not to its own file.
    pub output: Option<PathBuf>,
    pub dry_run: bool,
    /// Where a picture of the edit goes.
    pub picture: Option<PathBuf>,
}

type Told<T> = Result<T, String>;

/// The words of a command line: those in order, and the options, some with a value.
#[derive(Default)]
struct Words {
    plain: Vec<String>,
    options: Vec<(String, Option<String>)>,
}

const VALUED: [&str; 4] = ["--fraction", "--station", "--output", "--draw"];

impl Words {
    fn of(words: &[String]) -> Told<Words> {
        let mut sorted = Words::default();
        let mut rest = words.iter();
        while let Some(word) = rest.next() {
            if VALUED.contains(&word.as_str()) {
                let value = rest.next().ok_or_else(|| format!("expected a value behind {word}"))?;
                sorted.options.push((word.clone(), Some(value.clone())));
            } else if word.starts_with("--") {
                sorted.options.push((word.clone(), None));
            } else {
                sorted.plain.push(word.clone());
            }
        }
        Ok(sorted)
    }

    /// No option but those known, and none twice.
    fn check(&self, known: &[&str]) -> Told<()> {
        for (i, (option, _)) in self.options.iter().enumerate() {
            if known.is_empty() {
                return Err(format!("{option} is no option here; expected none"));
            }
            if !known.contains(&option.as_str()) {
                return Err(format!("{option} is no option here; expected one of {}", known.join(", ")));
            }
            if self.options[..i].iter().any(|(earlier, _)| earlier == option) {
                return Err(format!("{option} is given twice"));
            }
        }
        Ok(())
    }

    fn flag(&self, name: &str) -> bool {
        self.options.iter().any(|(option, _)| option == name)
    }

    fn value(&self, name: &str) -> Option<&str> {
        self.options.iter().find(|(option, _)| option == name)?.1.as_deref()
    }

    fn path(&self, name: &str) -> Option<PathBuf> {
        self.value(name).map(PathBuf::from)
    }
}

/// The options that a command line may have.
fn options(plain: &[&str]) -> Vec<&'static str> {
    let (own, edit): (&[&str], _) = match plain {
        [] | ["show" | "check", ..] => (&[], None),
        ["draw", _, edit, ..] => (&["--output"], Some(*edit)),
        ["draw", ..] => (&["--output"], None),
        [edit, ..] => (&["--output", "--dry-run", "--draw"], Some(*edit)),
    };
    let split: &[&str] = if edit == Some("split") { &SPLIT } else { &[] };
    [&["--json"], own, split].concat()
}

pub fn read(words: &[String]) -> Result<Request, Failure> {
    let request = Words::of(words).and_then(|words| {
        let task = task(&words)?;
        Ok(Request { task, json: words.flag("--json") })
    });
    request.map_err(|e| Failure::Usage(format!("{e} (voldrekka --help)")))
}

fn task(words: &Words) -> Told<Task> {
    let plain: Vec<&str> = words.plain.iter().map(String::as_str).collect();
    if words.flag("--help") || plain.first() == Some(&"help") {
        return Ok(Task::Help);
    }
    words.check(&options(&plain))?;
    let output = words.path("--output");
    match plain[..] {
        ["show", file] => Ok(Task::Show { file: file.into() }),
        ["check", file] => Ok(Task::Check { file: file.into() }),
        ["show" | "check", ..] => Err("expected one file".into()),
        ["draw", file] => Ok(Task::Draw { file: file.into(), edit: None, output }),
        ["draw", file, edit, ref rest @ ..] => {
            Ok(Task::Draw { file: file.into(), edit: Some(change(edit, rest, words)?), output })
        }
        [edit, file, ref rest @ ..] => Ok(Task::Edit(Edit {
            file: file.into(),
            change: change(edit, rest, words)?,
            output,
            dry_run: words.flag("--dry-run"),
            picture: words.path("--draw"),
        })),
        _ => Err("expected a command and a file".into()),
    }
}

/// An edit or a job, and what follows it.
fn change(edit: &str, rest: &[&str], words: &Words) -> Told<Change> {
    match (edit, rest) {
        ("job", [edits]) => Ok(Change::Job(edits.into())),
        ("job", _) => Err("expected the file of a job's edits".into()),
        _ => command(edit, rest, words).map(Change::Edit),
    }
}

/// An edit of a job, and the line on which it stands.
pub struct Line {
    pub line: usize,
    pub command: Command,
}

/// The edits of a job: a line each, in the words of the command line without the file; what follows a `#` is a comment.
pub fn edits(file: &Path) -> Result<Vec<Line>, Failure> {
    let mut all = Vec::new();
    for (i, text) in files::text(file)?.lines().enumerate() {
        let code = text.split('#').next().unwrap_or("");
        let words: Vec<String> = code.split_whitespace().map(String::from).collect();
        if words.is_empty() {
            continue;
        }
        let command = edit(&words).map_err(|e| Failure::Text(format!("{}: line {}: {e}", file.display(), i + 1)))?;
        all.push(Line { line: i + 1, command });
    }
    Ok(all)
}

/// The words of one line.
fn edit(words: &[String]) -> Told<Command> {
    let words = Words::of(words)?;
    let plain: Vec<&str> = words.plain.iter().map(String::as_str).collect();
    let Some((edit, rest)) = plain.split_first() else {
        return Err("expected an edit".into());
    };
    if !EDITS.contains(edit) {
        return Err(format!("expected {}, found {edit}", EDITS.join(", ")));
    }
    words.check(if *edit == "split" { &SPLIT } else { &[] })?;
    command(edit, rest, &words)
}

/// The edits that a line of a job may name.
const EDITS: [&str; 6] = ["split", "merge", "connect", "disconnect", "neighbor", "remove"];

/// The options of a split.
const SPLIT: [&str; 3] = ["--fraction", "--station", "--alone"];

/// An edit, and what follows it.
fn command(edit: &str, rest: &[&str], words: &Words) -> Told<Command> {
    let two = |name: &str| match rest {
        [a, b] => Ok((lane(a)?, lane(b)?)),
        _ => Err(format!("expected two lanes behind {name}, found {} words", rest.len())),
    };
    match edit {
        "split" => split(rest, words),
        "merge" => two(edit).map(|(first, second)| Command::MergeLanes { first, second }),
        "connect" => two(edit).map(|(from, to)| Command::ConnectLanes { from, to }),
        "disconnect" => two(edit).map(|(from, to)| Command::DisconnectLanes { from, to }),
        "neighbor" => neighbor(rest),
        "remove" => match rest {
            [one] => Ok(Command::RemoveLane { lane: lane(one)? }),
            _ => Err("expected one lane".into()),
        },
        _ => Err(format!(
            "expected show, check, split, merge, connect, disconnect, neighbor, remove, job or draw, found {edit}"
        )),
    }
}

fn split(rest: &[&str], words: &Words) -> Told<Command> {
    let [one] = rest else {
        return Err("expected one lane".into());
    };
    let at = match (words.value("--fraction"), words.value("--station")) {
        (Some(f), None) => SplitAt::Fraction(number(f)?),
        (None, Some(s)) => SplitAt::Station(number(s)?),
        _ => return Err("expected --fraction or --station, one of them".into()),
    };
    Ok(Command::SplitLane { lane: lane(one)?, at, include_neighbors: !words.flag("--alone") })
}

fn neighbor(rest: &[&str]) -> Told<Command> {
    let [one, side, other] = rest else {
        return Err("expected a lane, a side and the lane beside it".into());
    };
    let side = Side::of_name(side).ok_or_else(|| format!("expected left or right, found {side}"))?;
    let neighbor = match other.split_once(':') {
        None if *other == "none" => None,
        Some((id, direction)) => Some(Neighbor { lane: lane(id)?, direction: way(direction)? }),
        None => return Err(format!("expected none, ID:same or ID:opposite, found {other}")),
    };
    Ok(Command::SetNeighbor { lane: lane(one)?, side, neighbor })
}

fn way(word: &str) -> Told<NeighborDirection> {
    NeighborDirection::of_name(word).ok_or_else(|| format!("expected same or opposite, found {word}"))
}

fn lane(word: &str) -> Told<LaneId> {
    u64::from_str(word).map(LaneId).map_err(|_| format!("expected the id of a lane, found {word}"))
}

fn number(word: &str) -> Told<f64> {
    f64::from_str(word).map_err(|_| format!("expected a number, found {word}"))
}
