//! Pictures of maps, as SVG: lanes with their direction, boundaries by kind, stop lines, crosswalks, links as arrows, ids; and of an edit, the
//! map before and after it with what vanished, appeared and changed in colour.
//!
//! ```
//! use voldrekka::{draw, text::Document};
//!
//! let yard = "voldrekka 1
//! boundary 101 line=0,2;10,2
//! boundary 102 line=0,-2;10,-2
//! lane 1 left=101 right=102
//! ";
//! let svg = draw::map(&Document::read(yard)?.map, "a gate");
//! assert!(svg.starts_with("<svg"));
//! # Ok::<(), voldrekka::text::TextError>(())
//! ```

mod panel;
mod style;
mod svg;

use std::collections::BTreeMap;

use crate::changes::ChangeSet;
use crate::geometry::Polyline3;
use crate::ids::*;
use crate::map::Map;
use crate::records::*;
use panel::Panel;
use style::Status;
use svg::{Svg, escaped};

/// The part of the plane that a picture shows, in metres.
#[derive(Debug, Clone, Copy, PartialEq)]
pub(crate) struct Frame {
    west: f64,
    south: f64,
    east: f64,
    north: f64,
}

impl Frame {
    /// The smallest frame around lines, if one of them has a point.
    fn around<'a>(lines: impl IntoIterator<Item = &'a Polyline3>) -> Option<Frame> {
        let mut points = lines.into_iter().flat_map(|l| &l.points);
        let first = points.next()?;
        let mut frame = Frame { west: first.x, south: first.y, east: first.x, north: first.y };
        for p in points {
            frame.west = frame.west.min(p.x);
            frame.south = frame.south.min(p.y);
            frame.east = frame.east.max(p.x);
            frame.north = frame.north.max(p.y);
        }
        Some(frame)
    }

    fn widened(self, by: f64) -> Frame {
        Frame { west: self.west - by, south: self.south - by, east: self.east + by, north: self.north + by }
    }

    /// The part that another frame has too; the two meet.
    fn within(self, other: Frame) -> Frame {
        Frame {
            west: self.west.max(other.west),
            south: self.south.max(other.south),
            east: self.east.min(other.east),
            north: self.north.min(other.north),
        }
    }

    fn width(self) -> f64 {
        self.east - self.west
    }

    fn height(self) -> f64 {
        self.north - self.south
    }

    fn meets(self, other: Frame) -> bool {
        self.west <= other.east && other.west <= self.east && self.south <= other.north && other.south <= self.north
    }
}

/// The frame of a map without a point.
const EMPTY: Frame = Frame { west: 0.0, south: 0.0, east: 10.0, north: 10.0 };

/// Room around a map, in metres.
const MARGIN: f64 = 4.0;

/// Room around what an edit changed: at least so many metres, and this part of its size.
const SURROUNDINGS: (f64, f64) = (10.0, 0.3);

/// A picture is so many pixels wide at least, for its title.
const LEAST_WIDTH: f64 = 640.0;

/// The width of a letter, in pixels.
const LETTER: f64 = 7.5;

/// Lines of text above a picture, and below it, in pixels.
const TEXT: f64 = 22.0;

fn lines_of(map: &Map) -> Vec<Polyline3> {
    let mut lines: Vec<Polyline3> = map.boundaries().map(|b| b.geometry).collect();
    lines.extend(map.lanes().filter_map(|l| l.centerline));
    lines.extend(map.stop_lines().map(|s| s.geometry));
    lines.extend(map.crosswalks().flat_map(|c| [c.left_edge, c.right_edge]));
    lines
}

/// The lines of what an edit changed: those of boundaries, and of lanes their own and their boundaries'.
fn lines_of_changed(map: &Map, changed: &BTreeMap<EntityRef, Status>) -> Vec<Polyline3> {
    let lane_lines = |lane: Lane| {
        let sides = Side::BOTH.into_iter().filter_map(|side| map.oriented_boundary(&lane, side)).collect::<Vec<_>>();
        sides.into_iter().chain(lane.centerline)
    };
    let mut lines = Vec::new();
    for entity in changed.keys() {
        match *entity {
            EntityRef::Lane(id) => lines.extend(map.lane(id).into_iter().flat_map(lane_lines)),
            EntityRef::Boundary(id) => lines.extend(map.boundary(id).map(|b| b.geometry)),
            _ => {}
        }
    }
    lines
}

/// The frame of a whole map.
fn frame_of(map: &Map) -> Frame {
    Frame::around(&lines_of(map)).unwrap_or(EMPTY).widened(MARGIN)
}

/// A picture of a map.
pub fn map(map: &Map, title: &str) -> String {
    let frame = frame_of(map);
    let panel = Panel::new(frame, panel::scale(map, frame));
    let mut svg = Svg::new(panel.width().max(LEAST_WIDTH), panel.height() + TEXT);
    svg.text(8.0, 16.0, "title", &escaped(title));
    panel.draw(&mut svg, map, &BTreeMap::new(), 0.0, TEXT);
    svg.finish()
}

/// What an edit changed, with colours; `status` is that of what is in one of the two maps alone.
fn statuses(changes: &ChangeSet, only: &[EntityRef], status: Status) -> BTreeMap<EntityRef, Status> {
    let changed = changes.modified.iter().map(|e| (*e, Status::Modified));
    changed.chain(only.iter().map(|e| (*e, status))).collect()
}

/// What an edit changed with its surroundings; the whole map where nothing that has a line changed.
fn frame_of_edit(before: &Map, changed: &[Polyline3]) -> Frame {
    let whole = frame_of(before);
    match Frame::around(changed) {
        Some(f) => f.widened(SURROUNDINGS.0.max(SURROUNDINGS.1 * f.width().max(f.height()))).within(whole),
        None => whole,
    }
}

/// A picture of an edit: the part of the map that it changed, before and after.
pub fn edit(before: &Map, after: &Map, changes: &ChangeSet, title: &str) -> String {
    let old = statuses(changes, &changes.deleted, Status::Deleted);
    let new = statuses(changes, &changes.created, Status::Created);
    let mut changed = lines_of_changed(before, &old);
    changed.extend(lines_of_changed(after, &new));
    let frame = frame_of_edit(before, &changed);
    let panel = Panel::new(frame, panel::scale(before, frame));
    // Two wide pictures stand one above the other, two high ones side by side.
    let wide = frame.width() > frame.height();
    let (dx, dy) = if wide { (0.0, panel.height() + TEXT) } else { (panel.width() + TEXT, 0.0) };
    let bottom = panel.height() + dy + 2.0 * TEXT;
    let key_height = TEXT * (changes.warnings.len() as f64 + 1.5);
    let mut svg = Svg::new((panel.width() + dx).max(key_width(changes)), bottom + key_height);
    svg.text(8.0, 16.0, "title", &escaped(title));
    svg.text(8.0, 16.0 + TEXT, "caption", "before");
    panel.draw(&mut svg, before, &old, 0.0, 2.0 * TEXT);
    svg.text(8.0 + dx, 16.0 + TEXT + dy, "caption", "after");
    panel.draw(&mut svg, after, &new, dx, 2.0 * TEXT + dy);
    key(&mut svg, bottom + TEXT, changes);
    svg.finish()
}

/// The width of the longest warning, and of a title.
fn key_width(changes: &ChangeSet) -> f64 {
    let longest = changes.warnings.iter().map(|w| w.to_string().chars().count()).max().unwrap_or(0);
    (longest as f64 * LETTER).max(LEAST_WIDTH)
}

/// The colours and the warnings, below the pictures.
fn key(svg: &mut Svg, y: f64, changes: &ChangeSet) {
    let mut x = 8.0;
    let lists = [
        (Status::Created, "created", &changes.created),
        (Status::Modified, "modified", &changes.modified),
        (Status::Deleted, "deleted", &changes.deleted),
    ];
    for (status, name, entities) in lists {
        let label = format!("{name} {}", entities.len());
        svg.push(&format!(
            "<rect x='{x}' y='{}' width='14' height='14' fill='{}' stroke='{}'/>",
            y - 12.0,
            status.fill(),
            status.line()
        ));
        svg.text(x + 20.0, y, "caption", &label);
        x += 40.0 + LETTER * label.len() as f64;
    }
    for (i, issue) in changes.warnings.iter().enumerate() {
        svg.text(8.0, y + TEXT * (i + 1) as f64, "caption", &escaped(&issue.to_string()));
    }
}
