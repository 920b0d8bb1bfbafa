//! The editor: shows, checks, edits and draws maps in their text form (docs/MAPS.md).

mod arguments;
mod files;
mod json;
mod report;

use std::path::Path;
use std::process::ExitCode;

use arguments::{Change, Edit, Line, Request, Task, USAGE};
use report::Report;
use voldrekka::text::Document;
use voldrekka::{ChangeSet, Command, Done, JobRefused, Map, Refused, draw, sys};

/// What ends a task, with its exit status: a refusal's number, or one above all refusals, there as <sysexits.h> has it.
pub enum Failure {
    /// The edit or the job was refused, or the map is not sound.
    Refused(u64),
    /// The command line is not understood.
    Usage(String),
    /// A file cannot be read or written.
    File(String),
    /// A line of the map or of a job is not understood.
    Text(String),
    /// The machine is not in the state that the library assumes.
    Machine(String),
}

impl Failure {
    fn status(&self) -> u8 {
        match self {
            Failure::Refused(number) => *number as u8,
            Failure::Usage(_) => 64,
            Failure::Text(_) => 65,
            Failure::File(_) => 66,
            Failure::Machine(_) => 70,
        }
    }

    fn message(&self) -> Option<&str> {
        match self {
            Failure::Refused(_) => None,
            Failure::Usage(m) | Failure::File(m) | Failure::Text(m) | Failure::Machine(m) => Some(m),
        }
    }
}

fn main() -> ExitCode {
    let words: Vec<String> = std::env::args().skip(1).collect();
    match arguments::read(&words).and_then(run) {
        Ok(()) => ExitCode::SUCCESS,
        Err(failure) => {
            let json = words.iter().any(|word| word == "--json");
            if let Some(message) = failure.message() {
                Report { json }.failed(failure.status(), message);
            }
            ExitCode::from(failure.status())
        }
    }
}

/// What an editor says first that is built with the library of host/unproved.
const UNPROVED: &str = "voldrekka: this editor is built with a library that nothing has proved";

fn run(request: Request) -> Result<(), Failure> {
    if !sys::float_state() {
        return Err(Failure::Machine("the floating-point state is not round to nearest with subnormals kept".into()));
    }
    if !sys::PROVED {
        eprintln!("{UNPROVED}");
    }
    let report = Report { json: request.json };
    match request.task {
        Task::Help => print!("{USAGE}"),
        Task::Show { file } => report.show(&file, &files::read(&file)?),
        Task::Check { file } => return check(&report, &file),
        Task::Edit(edit) => return change(&report, &edit),
        Task::Draw { file, edit, output } => return picture(&report, &file, edit, output.as_deref()),
    }
    Ok(())
}

/// An edit or a job as it was made.
enum Made {
    Edit(Command, Done),
    Job(usize, ChangeSet),
}

impl Made {
    fn changes(&self) -> &ChangeSet {
        match self {
            Made::Edit(_, done) => &done.changes,
            Made::Job(_, changes) => changes,
        }
    }

    fn sentence(&self) -> String {
        match self {
            Made::Edit(command, _) => report::sentence(command),
            Made::Job(edits, _) => report::job_sentence(*edits),
        }
    }
}

/// Makes an edit or a job and writes what it is to be written to: the map, and the picture.
fn change(report: &Report, edit: &Edit) -> Result<(), Failure> {
    let document = files::read(&edit.file)?;
    let (after, made) = changed(report, &document, &edit.change)?;
    let text = after.write();
    let svg = edit.picture.as_ref().map(|_| drawn(&edit.file, &document, &after, &made));
    let mut texts: Vec<(&Path, &str)> = Vec::new();
    if !edit.dry_run {
        texts.push((edit.output.as_deref().unwrap_or(&edit.file), &text));
    }
    texts.extend(edit.picture.as_deref().zip(svg.as_deref()));
    files::write(&texts)?;
    match &made {
        Made::Edit(command, done) => report.done(command, done, after.map.next_id()),
        Made::Job(edits, changes) => report.job_done(*edits, changes, after.map.next_id()),
    }
    Ok(())
}

fn drawn(file: &Path, before: &Document, after: &Document, made: &Made) -> String {
    let title = format!("{}: {}", file.display(), made.sentence());
    draw::edit(&before.map, &after.map, made.changes(), &title)
}

fn check(report: &Report, file: &Path) -> Result<(), Failure> {
    let document = files::read(file)?;
    let fault = document.map.fault();
    report.checked(file, &document, fault.as_ref());
    fault.map_or(Ok(()), |_| Err(Failure::Refused(UNSOUND)))
}

/// The number of the refusal of a map that is not sound.
const UNSOUND: u64 = voldrekka::layout::UNSOUND;

/// The document after an edit or a job; a refusal is reported.
fn changed(report: &Report, document: &Document, change: &Change) -> Result<(Document, Made), Failure> {
    let mut after = document.clone();
    let made = match change {
        Change::Edit(command) => {
            let done = after.map.call(command).map_err(|refused| told(report, document, command, &refused))?;
            Made::Edit(*command, done)
        }
        Change::Job(file) => {
            let lines = arguments::edits(file)?;
            let commands: Vec<Command> = lines.iter().map(|line| line.command).collect();
            let made = after.map.job(&commands);
            let changes = made.map_err(|refused| job_told(report, document, file, &lines, &refused))?;
            Made::Job(commands.len(), changes)
        }
    };
    Ok((after, made))
}

fn told(report: &Report, document: &Document, command: &Command, refused: &Refused) -> Failure {
    report.refused(document, command, refused);
    Failure::Refused(refused.refusal.number)
}

fn job_told(report: &Report, document: &Document, file: &Path, lines: &[Line], refused: &JobRefused) -> Failure {
    report.job_refused(document, file, lines, refused);
    Failure::Refused(refused.number())
}

/// Draws a map, or an edit or a job on it, to `output` or to the file's name with the ending svg.
fn picture(report: &Report, file: &Path, edit: Option<Change>, output: Option<&Path>) -> Result<(), Failure> {
    let document = files::read(file)?;
    let svg = match edit {
        None => draw::map(&document.map, &format!("{}: {}", file.display(), summary(&document.map))),
        Some(change) => {
            let (after, made) = changed(report, &document, &change)?;
            drawn(file, &document, &after, &made)
        }
    };
    let output = output.map_or_else(|| file.with_extension("svg"), Path::to_path_buf);
    files::write(&[(&output, &svg)])?;
    report.drawn(&output);
    Ok(())
}

fn summary(map: &Map) -> String {
    format!("{} lanes, {} boundaries", map.lanes().len(), map.boundaries().len())
}
