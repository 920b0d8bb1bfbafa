//! Reading a map's text.

use std::collections::BTreeMap;
use std::str::SplitWhitespace;

use super::fields::*;
use super::{Document, ENTITIES, HEAD, NEXT, Notes, TextError};
use crate::ids::*;
use crate::map::{Map, MapError};
use crate::records::*;

type Words<'a> = SplitWhitespace<'a>;

/// A lane as its line gives it. What the line leaves out, the lines of other lanes may give.
struct Draft {
    lane: Lane,
    predecessors_given: bool,
    slots_given: [bool; 2],
}

// ---- lines of entities

fn lane(id: u64, words: Words) -> Told<Draft> {
    let known = [
        "kind",
        "left",
        "right",
        "centerline",
        "speed",
        "one-way",
        "turn",
        "attributes",
        "left-neighbor",
        "right-neighbor",
        "predecessors",
        "successors",
    ];
    let fields = Fields::new(words, &known)?;
    let lane = Lane {
        id: LaneId(id),
        kind: fields.optional("kind", kind)?.unwrap_or(LaneKind::Driving),
        left: fields.required("left", boundary_ref)?,
        right: fields.required("right", boundary_ref)?,
        centerline: fields.optional("centerline", line)?,
        speed_limit: fields.optional("speed", speed)?,
        one_way: fields.optional("one-way", yes_or_no)?.unwrap_or(true),
        turn_direction: fields.optional("turn", kind)?.unwrap_or(Turn::None),
        attributes: fields.handle("attributes")?,
        left_neighbor: fields.optional("left-neighbor", neighbor)?.flatten(),
        right_neighbor: fields.optional("right-neighbor", neighbor)?.flatten(),
        predecessors: fields.ids("predecessors", LaneId)?,
        successors: fields.ids("successors", LaneId)?,
    };
    Ok(Draft {
        lane,
        predecessors_given: fields.has("predecessors"),
        slots_given: [fields.has("left-neighbor"), fields.has("right-neighbor")],
    })
}

fn boundary(id: u64, words: Words) -> Told<Boundary> {
    let fields = Fields::new(words, &["kind", "line", "attributes"])?;
    Ok(Boundary {
        id: BoundaryId(id),
        kind: fields.optional("kind", kind)?.unwrap_or(BoundaryKind::SolidThin),
        geometry: fields.required("line", line)?,
        attributes: fields.handle("attributes")?,
    })
}

fn road(id: u64, words: Words) -> Told<Road> {
    let fields = Fields::new(words, &["name", "attributes", "lanes"])?;
    Ok(Road {
        id: RoadId(id),
        name: fields.handle("name")?,
        attributes: fields.handle("attributes")?,
        lanes: fields.ids("lanes", LaneId)?,
    })
}

fn junction(id: u64, words: Words) -> Told<Junction> {
    let fields = Fields::new(words, &["name", "outline", "attributes", "lanes"])?;
    Ok(Junction {
        id: JunctionId(id),
        name: fields.handle("name")?,
        outline: fields.handle("outline")?,
        attributes: fields.handle("attributes")?,
        lanes: fields.ids("lanes", LaneId)?,
    })
}

fn stop_line(id: u64, words: Words) -> Told<StopLine> {
    let fields = Fields::new(words, &["line", "attributes"])?;
    Ok(StopLine {
        id: StopLineId(id),
        geometry: fields.required("line", line)?,
        attributes: fields.handle("attributes")?,
    })
}

fn crosswalk(id: u64, words: Words) -> Told<Crosswalk> {
    let fields = Fields::new(words, &["left-edge", "right-edge", "outline", "attributes"])?;
    Ok(Crosswalk {
        id: CrosswalkId(id),
        left_edge: fields.required("left-edge", line)?,
        right_edge: fields.required("right-edge", line)?,
        outline: fields.handle("outline")?,
        attributes: fields.handle("attributes")?,
    })
}

/// A rule's line begins with its kind, which decides its fields.
fn rule(id: u64, mut words: Words) -> Told<RegulatoryElement> {
    let kind = words.next().unwrap_or("");
    let own: &[&str] = match kind {
        "traffic-light" => &["signals", "stop-line"],
        "traffic-sign" => &["sign", "stop-line"],
        "stop-line" => &["stop-line"],
        "right-of-way" => &["priority", "yielding", "stop-lines"],
        "crosswalk" => &["crosswalk", "stop-lines"],
        "other" => &["other"],
        _ => {
            return Err(format!(
                "expected traffic-light, traffic-sign, stop-line, right-of-way, crosswalk or other, found `{kind}`"
            ));
        }
    };
    let fields = Fields::new(words, &[own, &["lanes", "controls", "attributes"]].concat())?;
    Ok(RegulatoryElement {
        id: RegulatoryElementId(id),
        rule: rule_of(kind, &fields)?,
        lanes: fields.ids("lanes", LaneId)?,
        controlled_crosswalks: fields.ids("controls", CrosswalkId)?,
        attributes: fields.handle("attributes")?,
    })
}

fn rule_of(kind: &str, fields: &Fields) -> Told<Rule> {
    let stop_line = |value: &str| id(value).map(StopLineId);
    let stop_lines = || fields.ids("stop-lines", StopLineId);
    Ok(match kind {
        "traffic-light" => Rule::TrafficLight {
            signals: fields.handle("signals")?,
            stop_line: fields.optional("stop-line", stop_line)?,
        },
        "traffic-sign" => {
            Rule::TrafficSign { sign: fields.handle("sign")?, stop_line: fields.optional("stop-line", stop_line)? }
        }
        "stop-line" => Rule::StopLine { stop_line: fields.required("stop-line", stop_line)? },
        "right-of-way" => Rule::RightOfWay {
            priority: fields.ids("priority", LaneId)?,
            yielding: fields.ids("yielding", LaneId)?,
            stop_lines: stop_lines()?,
        },
        "crosswalk" => Rule::Crosswalk {
            crosswalk: fields.required("crosswalk", |value| id(value).map(CrosswalkId))?,
            stop_lines: stop_lines()?,
        },
        _ => Rule::Other { kind: fields.handle("other")? },
    })
}

// ---- the whole text

struct Reader {
    document: Document,
    /// Lanes wait until all are read.
    lanes: BTreeMap<u64, Draft>,
    next: Option<u64>,
    headed: bool,
    /// Comment lines since the last line that was none.
    above: Vec<String>,
}

impl Document {
    /// Reads a map.
    pub fn read(text: &str) -> Result<Document, TextError> {
        let mut reader = Reader {
            document: Document::new(Map::new()),
            lanes: BTreeMap::new(),
            next: None,
            headed: false,
            above: Vec::new(),
        };
        for (i, line) in text.lines().enumerate() {
            reader.line(i + 1, line).map_err(|message| TextError { line: i + 1, message })?;
        }
        reader.finish()
    }
}

impl Reader {
    fn line(&mut self, number: usize, line: &str) -> Told<()> {
        let (content, comment) = match line.split_once('#') {
            Some((content, comment)) => (content.trim(), Some(comment.trim().to_string())),
            None => (line.trim(), None),
        };
        if content.is_empty() {
            self.above.push(line.trim().to_string());
            return Ok(());
        }
        let notes = Notes { above: std::mem::take(&mut self.above), beside: comment };
        if !self.headed {
            return self.head(content, notes);
        }
        let mut words = content.split_whitespace();
        match words.next() {
            Some(NEXT) => self.next_id(words, notes),
            Some(word) => self.entity_line(number, word, words, notes),
            None => Ok(()),
        }
    }

    fn entity_line(&mut self, number: usize, word: &str, mut words: Words, notes: Notes) -> Told<()> {
        let Some((_, kind)) = ENTITIES.iter().find(|(known, _)| *known == word) else {
            let known: Vec<&str> = ENTITIES.iter().map(|(known, _)| *known).collect();
            return Err(format!("expected {NEXT}, {}, found `{word}`", known.join(", ")));
        };
        let given = words.next().ok_or_else(|| format!("expected the id of the {word}"))?;
        let entity = EntityRef::new(*kind, id(given)?);
        self.entity(entity, words).map_err(|e| format!("{word} {}: {e}", entity.raw()))?;
        self.document.notes.insert(entity, notes);
        self.document.lines.insert(entity, number);
        Ok(())
    }

    fn head(&mut self, content: &str, notes: Notes) -> Told<()> {
        if content != HEAD {
            return Err(format!("expected `{HEAD}`, the form and its version, found `{content}`"));
        }
        self.headed = true;
        self.document.head = notes;
        Ok(())
    }

    fn next_id(&mut self, mut words: Words, notes: Notes) -> Told<()> {
        if self.next.is_some() {
            return Err(format!("`{NEXT}` is given twice"));
        }
        self.next = Some(id(words.next().unwrap_or(""))?);
        self.document.next = notes;
        words.next().map_or(Ok(()), |word| Err(format!("expected the end of the line, found `{word}`")))
    }

    fn entity(&mut self, entity: EntityRef, words: Words) -> Told<()> {
        let (map, id) = (&mut self.document.map, entity.raw());
        let inserted = match entity.kind() {
            EntityKind::Lane => return self.lane(id, words),
            EntityKind::Boundary => map.insert_boundary(boundary(id, words)?),
            EntityKind::Road => map.insert_road(road(id, words)?),
            EntityKind::Junction => map.insert_junction(junction(id, words)?),
            EntityKind::StopLine => map.insert_stop_line(stop_line(id, words)?),
            EntityKind::Crosswalk => map.insert_crosswalk(crosswalk(id, words)?),
            EntityKind::RegulatoryElement => map.insert_regulatory_element(rule(id, words)?),
            EntityKind::TrafficSignal => unreachable!("no line begins with a signal"),
        };
        inserted.map_err(|e| self.told(e))
    }

    fn lane(&mut self, id: u64, words: Words) -> Told<()> {
        if self.lanes.contains_key(&id) {
            return Err(self.told(MapError::DuplicateId(LaneId(id).into())));
        }
        self.lanes.insert(id, lane(id, words)?);
        Ok(())
    }

    fn told(&self, error: MapError) -> String {
        match error {
            MapError::DuplicateId(entity) => {
                format!("the id is taken already, on line {}", self.document.line_of(entity).unwrap_or(0))
            }
            MapError::TooMany { what, limit } => format!("expected at most {limit} {what}"),
        }
    }

    fn finish(mut self) -> Result<Document, TextError> {
        if !self.headed {
            return Err(TextError { line: 1, message: format!("expected `{HEAD}`, found no line") });
        }
        complete(&mut self.lanes);
        for draft in std::mem::take(&mut self.lanes).into_values() {
            let id = draft.lane.id;
            let inserted = self.document.map.insert_lane(draft.lane);
            inserted.map_err(|e| TextError {
                line: self.document.line_of(id.into()).unwrap_or(0),
                message: format!("lane {}: {}", id.0, self.told(e)),
            })?;
        }
        if let Some(next) = self.next {
            self.document.map.set_next_id(next);
        }
        self.document.tail = self.above;
        Ok(self.document)
    }
}

/// Fills in what a line left out and another lane's line says: the predecessors of a lane, and the slot that answers a neighbour.
fn complete(lanes: &mut BTreeMap<u64, Draft>) {
    let given: Vec<Lane> = lanes.values().map(|d| d.lane.clone()).collect();
    for from in &given {
        for to in &from.successors {
            if let Some(draft) = lanes.get_mut(&to.0).filter(|d| !d.predecessors_given) {
                draft.lane.predecessors.push(from.id);
            }
        }
        for side in Side::BOTH {
            let Some(n) = from.neighbor(side) else { continue };
            let answer = n.reciprocal_side(side);
            if let Some(draft) = lanes.get_mut(&n.lane.0).filter(|d| !d.slots_given[answer as usize]) {
                let slot = draft.lane.neighbor_mut(answer);
                *slot = slot.or(Some(Neighbor { lane: from.id, direction: n.direction }));
            }
        }
    }
}

/// The lanes of a map as they would be read if no line gave predecessors or an empty slot: the writer leaves out what this fills in.
pub(super) fn completed(map: &Map) -> BTreeMap<u64, Lane> {
    let mut lanes: BTreeMap<u64, Draft> = map
        .lanes()
        .map(|lane| {
            let slots_given = [lane.left_neighbor.is_some(), lane.right_neighbor.is_some()];
            let draft =
                Draft { lane: Lane { predecessors: Vec::new(), ..lane }, predecessors_given: false, slots_given };
            (draft.lane.id.0, draft)
        })
        .collect();
    complete(&mut lanes);
    lanes.into_iter().map(|(id, draft)| (id, draft.lane)).collect()
}
