//! What the editor tells: tables for people, JSON for programs.

use std::path::Path;

use crate::arguments::Line;
use crate::json::Json;
use voldrekka::text::Document;
use voldrekka::*;

pub struct Report {
    pub json: bool,
}

/// A command in words.
pub fn sentence(command: &Command) -> String {
    match *command {
        Command::SplitLane { lane, at, include_neighbors } => {
            let place = match at {
                SplitAt::Fraction(f) => format!("{f} of its length"),
                SplitAt::Station(s) => format!("{s} m"),
            };
            let with = if include_neighbors { "with its neighbours" } else { "alone" };
            format!("split {lane} at {place}, {with}")
        }
        Command::MergeLanes { first, second } => format!("merge {first} and {second}"),
        Command::ConnectLanes { from, to } => format!("connect {from} to {to}"),
        Command::DisconnectLanes { from, to } => format!("disconnect {from} from {to}"),
        Command::SetNeighbor { lane, side, neighbor: Some(n) } => {
            format!("{} becomes the {side} neighbour of {lane}, {} direction", n.lane, n.direction)
        }
        Command::SetNeighbor { lane, side, neighbor: None } => format!("{lane} has no {side} neighbour"),
        Command::RemoveLane { lane } => format!("remove {lane}"),
    }
}

/// A job in words.
pub fn job_sentence(edits: usize) -> String {
    match edits {
        1 => "job of 1 edit".into(),
        n => format!("job of {n} edits"),
    }
}

/// The refused edit of a job: where it stands in the file of edits, and what it says.
struct RefusedEdit<'a> {
    place: usize,
    edit: &'a Line,
    refused: &'a Refused,
    /// The line of the map on which the entity stands that the refusal names.
    entity_line: Option<usize>,
}

impl Report {
    fn print(&self, json: impl FnOnce() -> Json, text: impl FnOnce() -> String) {
        match self.json {
            true => println!("{}", json()),
            false => print!("{}", text()),
        }
    }

    pub fn done(&self, command: &Command, done: &Done, next: u64) {
        self.print(|| done_json(command, done, next), || done_text(command, done));
    }

    pub fn refused(&self, document: &Document, command: &Command, refused: &Refused) {
        let line = refused.refusal.entity.and_then(|e| document.line_of(e));
        self.print(
            || refused_json(command, refused, line),
            || match flaw(document) {
                Some(flaw) => format!("{}  {flaw}\n", refused_head(command, refused)),
                None => refused_text(command, refused, line),
            },
        );
    }

    pub fn job_done(&self, edits: usize, changes: &ChangeSet, next: u64) {
        self.print(|| job_done_json(edits, changes, next), || job_done_text(edits, changes));
    }

    pub fn job_refused(&self, document: &Document, file: &Path, lines: &[Line], refused: &JobRefused) {
        let edit = refused.edit().map(|(place, refused)| RefusedEdit {
            place,
            edit: &lines[place - 1],
            refused,
            entity_line: refused.refusal.entity.and_then(|e| document.line_of(e)),
        });
        self.print(
            || job_refused_json(refused, edit.as_ref()),
            || match flaw(document) {
                Some(flaw) => format!("{}  {flaw}\n", job_refused_head(lines.len(), refused)),
                None => job_refused_text(lines.len(), file, refused, edit.as_ref()),
            },
        );
    }

    pub fn checked(&self, file: &Path, document: &Document, fault: Option<&Fault>) {
        let line = fault.and_then(|f| f.entity).and_then(|e| document.line_of(e));
        self.print(
            || {
                Json::Object(vec![
                    ("sound", Json::Bool(fault.is_none())),
                    ("clause", Json::option(fault, |f| Json::text(f.clause))),
                    ("entity", Json::option(fault.and_then(|f| f.entity), entity)),
                    ("line", Json::option(line, |l| Json::number(l as u64))),
                ])
            },
            || match fault {
                None => format!("{}: sound\n", file.display()),
                Some(fault) => format!("{}: not sound: {}\n", file.display(), fault_text(fault, line)),
            },
        );
    }

    /// What is neither done nor refused; people read it on standard error.
    pub fn failed(&self, status: u8, message: &str) {
        match self.json {
            true => {
                let fields = vec![("status", Json::number(status.into())), ("message", Json::text(message))];
                println!("{}", Json::Object(fields));
            }
            false => eprintln!("voldrekka: {message}"),
        }
    }

    pub fn drawn(&self, file: &Path) {
        let name = file.display();
        self.print(|| Json::Object(vec![("drawn", Json::text(&name))]), || format!("drawn: {name}\n"));
    }

    pub fn show(&self, file: &Path, document: &Document) {
        let map = &document.map;
        self.print(|| map_json(map), || format!("{}: {}", file.display(), map_text(map)));
    }
}

fn fault_text(fault: &Fault, line: Option<usize>) -> String {
    let entity = fault.entity.map_or(String::new(), |e| format!(", at {e}"));
    let line = line.map_or(String::new(), |l| format!(" on line {l}"));
    format!("{}{entity}{line}", fault.clause)
}

/// Why a map is not sound, which is why everything is refused on it; none of a sound one.
fn flaw(document: &Document) -> Option<String> {
    let fault = document.map.fault()?;
    Some(fault_text(&fault, fault.entity.and_then(|e| document.line_of(e))))
}

// ---- the answer of an edit, for people

fn entities(list: &[EntityRef]) -> String {
    if list.is_empty() {
        return "-".into();
    }
    list.iter().map(EntityRef::to_string).collect::<Vec<_>>().join(" ")
}

/// What changed, a list a line, and a warning a line.
fn changes_text(changes: &ChangeSet) -> String {
    let mut rows = vec![
        vec!["created".into(), entities(&changes.created)],
        vec!["modified".into(), entities(&changes.modified)],
        vec!["deleted".into(), entities(&changes.deleted)],
    ];
    for issue in &changes.warnings {
        rows.push(vec![issue.severity.to_string(), format!("{} {}: {}", issue.code, issue.entity, issue.message)]);
    }
    table(&rows)
}

/// What is said of an accepted edit or a made job that changed nothing.
fn nothing(changes: &ChangeSet) -> &'static str {
    if changes.is_empty() { ", nothing changed" } else { "" }
}

fn done_text(command: &Command, done: &Done) -> String {
    let second = done.second.map_or(String::new(), |id| format!(", the second half is {id}"));
    let nothing = nothing(&done.changes);
    format!("{}: accepted{second}{nothing}\n{}", sentence(command), changes_text(&done.changes))
}

fn job_done_text(edits: usize, changes: &ChangeSet) -> String {
    format!("{}: made{}\n{}", job_sentence(edits), nothing(changes), changes_text(changes))
}

fn job_refused_head(edits: usize, refused: &JobRefused) -> String {
    format!("{}: refused, {} {}\n", job_sentence(edits), refused.number(), refused.name())
}

fn job_refused_text(edits: usize, file: &Path, refused: &JobRefused, edit: Option<&RefusedEdit>) -> String {
    let head = job_refused_head(edits, refused);
    let Some(RefusedEdit { place, edit, refused, entity_line }) = edit else {
        return format!("{head}  {refused}\n");
    };
    let at = format!("edit {place}, {} line {}", file.display(), edit.line);
    format!("{head}  {at}: {}", refused_text(&edit.command, refused, *entity_line))
}

fn refused_head(command: &Command, refused: &Refused) -> String {
    let Refusal { number, .. } = refused.refusal;
    format!("{}: refused, {number} {}\n", sentence(command), refused.refusal.name())
}

fn refused_text(command: &Command, refused: &Refused, line: Option<usize>) -> String {
    let line = line.map_or(String::new(), |l| format!(" (line {l})"));
    format!("{}  {}{line}\n", refused_head(command, refused), refused.error)
}

// ---- the answer of an edit, for programs

fn entity(entity: EntityRef) -> Json {
    Json::Object(vec![("kind", Json::text(entity.kind())), ("id", Json::number(entity.raw()))])
}

fn issue(issue: &Issue) -> Json {
    Json::Object(vec![
        ("severity", Json::text(issue.severity)),
        ("code", Json::text(issue.code)),
        ("message", Json::text(&issue.message)),
        ("entity", entity(issue.entity)),
        ("related", Json::list(&issue.related, |e| entity(*e))),
        ("fix", Json::Bool(issue.fix)),
    ])
}

/// The lists and the next id behind what was done.
fn changes_json(mut fields: Vec<(&'static str, Json)>, changes: &ChangeSet, next: u64) -> Json {
    let list = |entities: &[EntityRef]| Json::list(entities, |e| entity(*e));
    fields.extend([
        ("created", list(&changes.created)),
        ("modified", list(&changes.modified)),
        ("deleted", list(&changes.deleted)),
        ("warnings", Json::list(&changes.warnings, issue)),
        ("next", Json::number(next)),
    ]);
    Json::Object(fields)
}

fn done_json(command: &Command, done: &Done, next: u64) -> Json {
    let fields = vec![
        ("op", Json::text(command.name())),
        ("number", Json::number(0)),
        ("second", Json::option(done.second, |id| Json::number(id.0))),
    ];
    changes_json(fields, &done.changes, next)
}

fn job_done_json(edits: usize, changes: &ChangeSet, next: u64) -> Json {
    let fields = vec![("op", Json::text("job")), ("number", Json::number(0)), ("edits", Json::number(edits as u64))];
    changes_json(fields, changes, next)
}

/// The refused edit stands inside, as a refused edit alone does, with its place in the job and its line in the file of edits.
fn job_refused_json(refused: &JobRefused, edit: Option<&RefusedEdit>) -> Json {
    let number = |n: usize| Json::number(n as u64);
    Json::Object(vec![
        ("op", Json::text("job")),
        ("number", Json::number(refused.number())),
        ("refusal", Json::text(refused.name())),
        ("place", Json::option(edit, |e| number(e.place))),
        ("edits_line", Json::option(edit, |e| number(e.edit.line))),
        ("edit", Json::option(edit, |e| refused_json(&e.edit.command, e.refused, e.entity_line))),
        ("message", Json::text(refused)),
    ])
}

fn refused_json(command: &Command, refused: &Refused, line: Option<usize>) -> Json {
    Json::Object(vec![
        ("op", Json::text(command.name())),
        ("number", Json::number(refused.refusal.number)),
        ("refusal", Json::text(refused.refusal.name())),
        ("entity", Json::option(refused.refusal.entity, entity)),
        ("line", Json::option(line, |l| Json::number(l as u64))),
        ("code", Json::text(refused.error.code())),
        ("message", Json::text(&refused.error)),
    ])
}

// ---- a map, for people

/// Rows of cells, in columns two spaces apart.
fn table(rows: &[Vec<String>]) -> String {
    let columns = rows.iter().map(Vec::len).max().unwrap_or(0);
    let width = |c: usize| rows.iter().filter_map(|r| r.get(c)).map(|cell| cell.chars().count()).max().unwrap_or(0);
    let widths: Vec<usize> = (0..columns).map(width).collect();
    let mut text = String::new();
    for row in rows {
        let cells = row.iter().zip(&widths).map(|(cell, width)| format!("{cell:width$}"));
        text += format!("  {}", cells.collect::<Vec<_>>().join("  ")).trim_end();
        text += "\n";
    }
    text
}

fn ids(list: &[LaneId]) -> String {
    if list.is_empty() {
        return "-".into();
    }
    list.iter().map(|id| id.0.to_string()).collect::<Vec<_>>().join(",")
}

fn words(list: &[&str]) -> Vec<String> {
    list.iter().map(|w| w.to_string()).collect()
}

fn lane_row(map: &Map, lane: &Lane) -> Vec<String> {
    let reference = |r: BoundaryRef| format!("{}{}", r.boundary.0, if r.reversed { " reversed" } else { "" });
    let slot = |n: Option<Neighbor>| n.map_or("-".into(), |n| format!("{} {}", n.lane.0, n.direction));
    vec![
        lane.id.0.to_string(),
        lane.kind.to_string(),
        map.centerline(lane).map_or("no line".into(), |c| format!("{:.2}", c.length())),
        lane.speed_limit.map_or("-".into(), |s| s.kmh.to_string()),
        reference(lane.left),
        reference(lane.right),
        slot(lane.left_neighbor),
        slot(lane.right_neighbor),
        ids(&lane.predecessors),
        ids(&lane.successors),
    ]
}

fn lanes_text(map: &Map) -> String {
    let head = ["lane", "kind", "metres", "km/h", "left", "right", "left of it", "right of it", "from", "to"];
    let mut rows = vec![words(&head)];
    rows.extend(map.lanes().map(|l| lane_row(map, &l)));
    table(&rows)
}

fn boundaries_text(map: &Map) -> String {
    let mut rows = vec![words(&["boundary", "kind", "points", "metres"])];
    rows.extend(map.boundaries().map(|b| {
        let length = format!("{:.2}", b.geometry.length());
        vec![b.id.0.to_string(), b.kind.to_string(), b.geometry.len().to_string(), length]
    }));
    table(&rows)
}

/// Roads, junctions, stop lines, crosswalks and rules.
fn features_text(map: &Map) -> String {
    let mut rows = vec![words(&["other", "kind", "lanes"])];
    rows.extend(map.roads().map(|r| vec![r.id.to_string(), "-".into(), ids(&r.lanes)]));
    rows.extend(map.junctions().map(|j| vec![j.id.to_string(), "-".into(), ids(&j.lanes)]));
    rows.extend(map.stop_lines().map(|s| vec![s.id.to_string()]));
    rows.extend(map.crosswalks().map(|c| vec![c.id.to_string()]));
    rows.extend(map.regulatory_elements().map(|r| vec![r.id.to_string(), r.rule.name().into(), ids(&r.lanes)]));
    if rows.len() == 1 { String::new() } else { table(&rows) }
}

fn map_text(map: &Map) -> String {
    let sound = if map.is_sound() { "sound" } else { "not sound" };
    format!(
        "{sound}, {} lanes, {} boundaries, the next id is {}\n{}{}{}",
        map.lanes().len(),
        map.boundaries().len(),
        map.next_id(),
        lanes_text(map),
        boundaries_text(map),
        features_text(map)
    )
}

// ---- a map, for programs

fn lane_ids(list: &[LaneId]) -> Json {
    Json::list(list, |id| Json::number(id.0))
}

fn line(line: &Polyline3) -> Json {
    Json::list(&line.points, |p| Json::list([p.x, p.y, p.z], Json::float))
}

fn lane_json(map: &Map, lane: &Lane) -> Json {
    let reference = |r: BoundaryRef| {
        Json::Object(vec![("boundary", Json::number(r.boundary.0)), ("reversed", Json::Bool(r.reversed))])
    };
    let slot =
        |n: Neighbor| Json::Object(vec![("lane", Json::number(n.lane.0)), ("direction", Json::text(n.direction))]);
    Json::Object(vec![
        ("id", Json::number(lane.id.0)),
        ("kind", Json::text(lane.kind)),
        ("left", reference(lane.left)),
        ("right", reference(lane.right)),
        ("centerline", Json::option(lane.centerline.as_ref(), line)),
        ("length", Json::option(map.centerline(lane), |c| Json::float(c.length()))),
        ("speed_limit_kmh", Json::option(lane.speed_limit, |s| Json::float(s.kmh))),
        ("one_way", Json::Bool(lane.one_way)),
        ("turn", Json::text(lane.turn_direction)),
        ("attributes", Json::number(lane.attributes.into())),
        ("left_neighbor", Json::option(lane.left_neighbor, slot)),
        ("right_neighbor", Json::option(lane.right_neighbor, slot)),
        ("predecessors", lane_ids(&lane.predecessors)),
        ("successors", lane_ids(&lane.successors)),
    ])
}

fn boundary_json(boundary: Boundary) -> Json {
    Json::Object(vec![
        ("id", Json::number(boundary.id.0)),
        ("kind", Json::text(boundary.kind)),
        ("line", line(&boundary.geometry)),
        ("attributes", Json::number(boundary.attributes.into())),
    ])
}

fn road_json(road: Road) -> Json {
    Json::Object(vec![
        ("id", Json::number(road.id.0)),
        ("name", Json::number(road.name.into())),
        ("attributes", Json::number(road.attributes.into())),
        ("lanes", lane_ids(&road.lanes)),
    ])
}

fn junction_json(junction: Junction) -> Json {
    Json::Object(vec![
        ("id", Json::number(junction.id.0)),
        ("name", Json::number(junction.name.into())),
        ("outline", Json::number(junction.outline.into())),
        ("attributes", Json::number(junction.attributes.into())),
        ("lanes", lane_ids(&junction.lanes)),
    ])
}

fn stop_line_json(stop_line: StopLine) -> Json {
    Json::Object(vec![
        ("id", Json::number(stop_line.id.0)),
        ("line", line(&stop_line.geometry)),
        ("attributes", Json::number(stop_line.attributes.into())),
    ])
}

fn crosswalk_json(crosswalk: Crosswalk) -> Json {
    Json::Object(vec![
        ("id", Json::number(crosswalk.id.0)),
        ("left_edge", line(&crosswalk.left_edge)),
        ("right_edge", line(&crosswalk.right_edge)),
        ("outline", Json::number(crosswalk.outline.into())),
        ("attributes", Json::number(crosswalk.attributes.into())),
    ])
}

/// What a rule has by its kind.
fn rule_fields(rule: &Rule) -> Vec<(&'static str, Json)> {
    let stops = |list: &[StopLineId]| Json::list(list, |s| Json::number(s.0));
    match rule {
        Rule::TrafficLight { signals, stop_line } => {
            vec![("signals", Json::number((*signals).into())), ("stop_lines", stops(stop_line.as_slice()))]
        }
        Rule::TrafficSign { sign, stop_line } => {
            vec![("sign", Json::number((*sign).into())), ("stop_lines", stops(stop_line.as_slice()))]
        }
        Rule::StopLine { stop_line } => vec![("stop_lines", stops(&[*stop_line]))],
        Rule::RightOfWay { priority, yielding, stop_lines } => {
            vec![("priority", lane_ids(priority)), ("yielding", lane_ids(yielding)), ("stop_lines", stops(stop_lines))]
        }
        Rule::Crosswalk { crosswalk, stop_lines } => {
            vec![("crosswalk", Json::number(crosswalk.0)), ("stop_lines", stops(stop_lines))]
        }
        Rule::Other { kind } => vec![("other", Json::number((*kind).into()))],
    }
}

fn rule_json(element: RegulatoryElement) -> Json {
    let mut fields = vec![
        ("id", Json::number(element.id.0)),
        ("kind", Json::text(element.rule.name())),
        ("lanes", lane_ids(&element.lanes)),
        ("controls", Json::list(&element.controlled_crosswalks, |c| Json::number(c.0))),
        ("attributes", Json::number(element.attributes.into())),
    ];
    fields.extend(rule_fields(&element.rule));
    Json::Object(fields)
}

fn map_json(map: &Map) -> Json {
    Json::Object(vec![
        ("sound", Json::Bool(map.is_sound())),
        ("next", Json::number(map.next_id())),
        ("lanes", Json::list(map.lanes(), |l| lane_json(map, &l))),
        ("boundaries", Json::list(map.boundaries(), boundary_json)),
        ("roads", Json::list(map.roads(), road_json)),
        ("junctions", Json::list(map.junctions(), junction_json)),
        ("stop_lines", Json::list(map.stop_lines(), stop_line_json)),
        ("crosswalks", Json::list(map.crosswalks(), crosswalk_json)),
        ("rules", Json::list(map.regulatory_elements(), rule_json)),
    ])
}
