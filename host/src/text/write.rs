//! Writing a map as text.

use std::fmt::Write;

use super::fields::*;
use super::read::completed;
use super::{Document, ENTITIES, HEAD, NEXT, Notes};
use crate::ids::*;
use crate::records::*;

/// The words of a line; a field that has its usual value is left out.
struct Words(String);

impl Words {
    fn field(&mut self, name: &str, value: impl std::fmt::Display) {
        write!(self.0, " {name}={value}").expect("a string takes all");
    }

    fn unless(&mut self, usual: bool, name: &str, value: impl std::fmt::Display) {
        if !usual {
            self.field(name, value);
        }
    }

    fn ids<Id: Copy + Into<EntityRef>>(&mut self, name: &str, ids: &[Id]) {
        self.unless(ids.is_empty(), name, ids_text(ids));
    }

    fn handle(&mut self, name: &str, handle: Handle) {
        self.unless(handle == 0, name, handle);
    }
}

/// `filled` is the lane as the other lanes' lines would complete it.
fn lane(words: &mut Words, lane: &Lane, filled: &Lane) {
    words.unless(lane.kind == LaneKind::Driving, "kind", lane.kind);
    words.field("left", boundary_ref_text(lane.left));
    words.field("right", boundary_ref_text(lane.right));
    if let Some(centerline) = &lane.centerline {
        words.field("centerline", line_text(centerline));
    }
    if let Some(limit) = lane.speed_limit {
        words.field("speed", speed_text(limit));
    }
    words.unless(lane.one_way, "one-way", "no");
    words.unless(lane.turn_direction == Turn::None, "turn", lane.turn_direction);
    words.handle("attributes", lane.attributes);
    for (side, name) in [(Side::Left, "left-neighbor"), (Side::Right, "right-neighbor")] {
        let absent = lane.neighbor(side).is_none() && filled.neighbor(side).is_none();
        words.unless(absent, name, neighbor_text(lane.neighbor(side)));
    }
    words.unless(lane.predecessors == filled.predecessors, "predecessors", ids_text(&lane.predecessors));
    words.ids("successors", &lane.successors);
}

fn boundary(words: &mut Words, boundary: &Boundary) {
    words.unless(boundary.kind == BoundaryKind::SolidThin, "kind", boundary.kind);
    words.field("line", line_text(&boundary.geometry));
    words.handle("attributes", boundary.attributes);
}

fn road(words: &mut Words, road: &Road) {
    words.handle("name", road.name);
    words.handle("attributes", road.attributes);
    words.ids("lanes", &road.lanes);
}

fn junction(words: &mut Words, junction: &Junction) {
    words.handle("name", junction.name);
    words.handle("outline", junction.outline);
    words.handle("attributes", junction.attributes);
    words.ids("lanes", &junction.lanes);
}

fn stop_line(words: &mut Words, stop_line: &StopLine) {
    words.field("line", line_text(&stop_line.geometry));
    words.handle("attributes", stop_line.attributes);
}

fn crosswalk(words: &mut Words, crosswalk: &Crosswalk) {
    words.field("left-edge", line_text(&crosswalk.left_edge));
    words.field("right-edge", line_text(&crosswalk.right_edge));
    words.handle("outline", crosswalk.outline);
    words.handle("attributes", crosswalk.attributes);
}

fn rule(words: &mut Words, element: &RegulatoryElement) {
    words.0 += " ";
    words.0 += element.rule.name();
    match &element.rule {
        Rule::TrafficLight { signals: handle, stop_line } | Rule::TrafficSign { sign: handle, stop_line } => {
            let name = if matches!(element.rule, Rule::TrafficLight { .. }) { "signals" } else { "sign" };
            words.handle(name, *handle);
            if let Some(stop_line) = stop_line {
                words.field("stop-line", stop_line.0);
            }
        }
        Rule::StopLine { stop_line } => words.field("stop-line", stop_line.0),
        Rule::RightOfWay { priority, yielding, stop_lines } => {
            words.ids("priority", priority);
            words.ids("yielding", yielding);
            words.ids("stop-lines", stop_lines);
        }
        Rule::Crosswalk { crosswalk, stop_lines } => {
            words.field("crosswalk", crosswalk.0);
            words.ids("stop-lines", stop_lines);
        }
        Rule::Other { kind } => words.handle("other", *kind),
    }
    words.ids("lanes", &element.lanes);
    words.ids("controls", &element.controlled_crosswalks);
    words.handle("attributes", element.attributes);
}

impl Document {
    /// Writes the map with its comments: lanes, boundaries, roads, junctions, stop lines, crosswalks, rules, ids ascending.
    pub fn write(&self) -> String {
        let mut text = String::new();
        put(&mut text, HEAD, Some(&self.head));
        put(&mut text, &format!("{NEXT} {}", self.map.lent.counter), Some(&self.next));
        for (entity, words) in self.entities() {
            put(&mut text, &words, self.notes.get(&entity));
        }
        for line in &self.tail {
            text += line;
            text += "\n";
        }
        text
    }

    /// Every entity with its line.
    fn entities(&self) -> Vec<(EntityRef, String)> {
        let map = &self.map;
        let filled = completed(map);
        let mut lines = Vec::new();
        lines.extend(map.lanes().map(|l| line_of(l.id, |w| lane(w, &l, &filled[&l.id.0]))));
        lines.extend(map.boundaries().map(|b| line_of(b.id, |w| boundary(w, &b))));
        lines.extend(map.roads().map(|r| line_of(r.id, |w| road(w, &r))));
        lines.extend(map.junctions().map(|j| line_of(j.id, |w| junction(w, &j))));
        lines.extend(map.stop_lines().map(|s| line_of(s.id, |w| stop_line(w, &s))));
        lines.extend(map.crosswalks().map(|c| line_of(c.id, |w| crosswalk(w, &c))));
        lines.extend(map.regulatory_elements().map(|r| line_of(r.id, |w| rule(w, &r))));
        lines
    }
}

fn line_of(id: impl Into<EntityRef>, write: impl FnOnce(&mut Words)) -> (EntityRef, String) {
    let entity = id.into();
    let word = ENTITIES.iter().find(|(_, kind)| *kind == entity.kind()).map_or("", |(word, _)| word);
    let mut words = Words(format!("{word} {}", entity.raw()));
    write(&mut words);
    (entity, words.0)
}

fn put(text: &mut String, words: &str, notes: Option<&Notes>) {
    for line in notes.iter().flat_map(|n| &n.above) {
        *text += line;
        *text += "\n";
    }
    *text += words;
    if let Some(comment) = notes.and_then(|n| n.beside.as_deref()) {
        *text += " # ";
        *text += comment;
    }
    *text += "\n";
}
