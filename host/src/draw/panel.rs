//! One picture of a map: a frame of the plane at a scale.

use std::collections::BTreeMap;

use super::Frame;
use super::style::{self, Status};
use super::svg::{Svg, points};
use crate::geometry::{Point3, Polyline3};
use crate::ids::*;
use crate::map::Map;
use crate::records::*;

pub struct Panel {
    frame: Frame,
    /// Pixels a metre.
    scale: f64,
}

type Statuses = BTreeMap<EntityRef, Status>;

/// Pixels that a lane's width takes at least, so that its id can be read, and that a metre takes at most.
const LEAST_LANE: f64 = 24.0;
const MOST: f64 = 40.0;
/// The longer side of a picture, where the lanes are wide enough.
const SIDE: f64 = 1400.0;
/// The longer side of a picture at most.
const LARGEST: f64 = 6000.0;

/// The width of a lane that has none that can be measured.
const USUAL_WIDTH: f64 = 3.5;

fn width(map: &Map, lane: &Lane) -> Option<f64> {
    let middle = |side| map.oriented_boundary(lane, side)?.point_at_fraction(0.5);
    Some(middle(Side::Left)?.distance(middle(Side::Right)?)).filter(|w| *w > 0.0)
}

/// Half of the lanes are wider.
fn median_width(map: &Map) -> f64 {
    let mut widths: Vec<f64> = map.lanes().filter_map(|l| width(map, &l)).collect();
    widths.sort_by(f64::total_cmp);
    widths.get(widths.len() / 2).copied().unwrap_or(USUAL_WIDTH)
}

/// Pixels a metre: the picture fills its side, lanes are wide enough for their ids, and neither makes it too large.
pub fn scale(map: &Map, frame: Frame) -> f64 {
    let longest = frame.width().max(frame.height()).max(1.0);
    (SIDE / longest).min(MOST).max(LEAST_LANE / median_width(map)).min(LARGEST / longest)
}

impl Panel {
    pub fn new(frame: Frame, scale: f64) -> Self {
        Self { frame, scale }
    }

    pub fn width(&self) -> f64 {
        self.frame.width() * self.scale
    }

    pub fn height(&self) -> f64 {
        self.frame.height() * self.scale
    }

    fn place(&self, p: Point3) -> (f64, f64) {
        ((p.x - self.frame.west) * self.scale, (self.frame.north - p.y) * self.scale)
    }

    fn places(&self, line: &Polyline3) -> Vec<(f64, f64)> {
        line.points.iter().map(|p| self.place(*p)).collect()
    }

    fn shows(&self, line: &Polyline3) -> bool {
        Frame::around([line]).is_some_and(|f| f.meets(self.frame))
    }

    /// Draws the map with its upper left corner at (x, y); what the frame does not show is cut off.
    pub fn draw(&self, svg: &mut Svg, map: &Map, statuses: &Statuses, x: f64, y: f64) {
        let (w, h) = (self.width(), self.height());
        svg.push(&format!("<svg x='{x:.1}' y='{y:.1}' width='{w:.1}' height='{h:.1}'>"));
        let lanes: Vec<(Lane, Polyline3)> =
            map.lanes().filter_map(|l| map.centerline(&l).map(|c| (l, c))).filter(|(_, c)| self.shows(c)).collect();
        for (lane, _) in &lanes {
            self.surface(svg, map, lane, statuses.get(&lane.id.into()));
        }
        for crosswalk in map.crosswalks() {
            self.crosswalk(svg, &crosswalk);
        }
        for boundary in map.boundaries().filter(|b| self.shows(&b.geometry)) {
            self.boundary(svg, &boundary, statuses.get(&boundary.id.into()));
        }
        for stop_line in map.stop_lines() {
            self.polyline(svg, &stop_line.geometry, "#b3261e", 0.45, &[]);
        }
        for (lane, center) in &lanes {
            self.direction(svg, lane, center);
            self.links(svg, map, lane, center);
        }
        self.ids(svg, map, &lanes, statuses);
        svg.push("</svg>");
    }

    // ---- areas and lines

    fn surface(&self, svg: &mut Svg, map: &Map, lane: &Lane, status: Option<&Status>) {
        let side = |side| map.oriented_boundary(lane, side).map(|l| self.places(&l));
        let (Some(mut outline), Some(right)) = (side(Side::Left), side(Side::Right)) else { return };
        outline.extend(right.into_iter().rev());
        let fill = status.map_or(style::lane_fill(lane.kind), |s| s.fill());
        svg.push(&format!("<polygon points='{}' fill='{fill}'/>", points(&outline)));
    }

    fn polyline(&self, svg: &mut Svg, line: &Polyline3, colour: &str, width: f64, dashes: &[f64]) {
        let width = (width * self.scale).max(0.8);
        let dashes: Vec<String> = dashes.iter().map(|d| format!("{:.1}", d * self.scale)).collect();
        svg.push(&format!(
            "<polyline points='{}' fill='none' stroke='{colour}' stroke-width='{width:.1}' stroke-dasharray='{}'/>",
            points(&self.places(line)),
            if dashes.is_empty() { "none".into() } else { dashes.join(" ") }
        ));
    }

    fn boundary(&self, svg: &mut Svg, boundary: &Boundary, status: Option<&Status>) {
        for stroke in style::boundary(boundary.kind) {
            let colour = status.map_or(stroke.colour, |s| s.line());
            let widened = if status.is_some() { 2.0 } else { 1.0 };
            let line = beside(&boundary.geometry, stroke.offset);
            self.polyline(svg, &line, colour, stroke.width * widened, stroke.dashes);
        }
    }

    /// Stripes from edge to edge.
    fn crosswalk(&self, svg: &mut Svg, crosswalk: &Crosswalk) {
        let (left, right) = (&crosswalk.left_edge, &crosswalk.right_edge);
        let stripes = (left.length().max(right.length()) / 1.2).ceil().clamp(2.0, 60.0) as usize;
        for i in 0..stripes {
            let at = (i as f64 + 0.5) / stripes as f64;
            if let (Some(a), Some(b)) = (left.point_at_fraction(at), right.point_at_fraction(at)) {
                self.polyline(svg, &Polyline3::new(vec![a, b]), "#9aa5b1", 0.5, &[]);
            }
        }
    }

    // ---- arrows

    /// Arrow heads along the centreline; both ways where the lane may be driven both ways.
    fn direction(&self, svg: &mut Svg, lane: &Lane, center: &Polyline3) {
        let length = center.length();
        for at in [0.22, 0.78] {
            let (Some(p), Some(ahead)) = (center.point_at(at * length), heading(center, at * length)) else { continue };
            self.head(svg, p, ahead, "#6b7785", 0.55);
            if !lane.one_way {
                self.head(svg, p, ahead + std::f64::consts::PI, "#6b7785", 0.55);
            }
        }
    }

    /// An arrow head that starts at a point and looks along an angle.
    fn head(&self, svg: &mut Svg, p: Point3, angle: f64, colour: &str, size: f64) {
        let corner = |along: f64, left: f64| {
            let (sin, cos) = angle.sin_cos();
            self.place(Point3::new(
                p.x + size * (along * cos - left * sin),
                p.y + size * (along * sin + left * cos),
                0.0,
            ))
        };
        let corners = [corner(1.6, 0.0), corner(0.0, 0.9), corner(0.4, 0.0), corner(0.0, -0.9)];
        svg.push(&format!("<polygon points='{}' fill='{colour}'/>", points(&corners)));
    }

    /// From shortly before a lane's end to shortly behind the start of each successor.
    fn links(&self, svg: &mut Svg, map: &Map, lane: &Lane, center: &Polyline3) {
        for successor in lane.successors.iter().filter_map(|id| map.lane(*id)) {
            let Some(next) = map.centerline(&successor) else { continue };
            let (length, beyond) = (center.length(), reach(&next));
            let ends = (center.point_at(length - reach(center)), center.last(), next.first(), next.point_at(beyond));
            let (Some(from), Some(end), Some(start), Some(to)) = ends else { continue };
            let curve = [from, end, start, to].map(|p| self.place(p));
            let [a, b, c, d] = curve.map(|(x, y)| format!("{x:.1},{y:.1}"));
            let width = (0.18 * self.scale).max(0.8);
            svg.push(&format!("<path d='M{a} C{b} {c} {d}' fill='none' stroke='#1f6feb' stroke-width='{width:.1}'/>"));
            if let Some(angle) = heading(&next, beyond) {
                self.head(svg, to, angle, "#1f6feb", 0.4);
            }
        }
    }

    // ---- ids

    fn ids(&self, svg: &mut Svg, map: &Map, lanes: &[(Lane, Polyline3)], statuses: &Statuses) {
        let size = (median_width(map) * 0.5 * self.scale).clamp(5.0, 22.0);
        for boundary in map.boundaries().filter(|b| self.shows(&b.geometry)) {
            let colour = statuses.get(&boundary.id.into()).map_or("#5a6673", |s| s.line());
            self.id(svg, &boundary.geometry, 0.38, size * 0.62, boundary.id.0, colour);
        }
        for stop_line in map.stop_lines().filter(|s| self.shows(&s.geometry)) {
            self.id(svg, &stop_line.geometry, 0.5, size * 0.62, stop_line.id.0, "#b3261e");
        }
        for crosswalk in map.crosswalks().filter(|c| self.shows(&c.left_edge)) {
            self.id(svg, &crosswalk.left_edge, 0.5, size * 0.62, crosswalk.id.0, "#5a6673");
        }
        for (lane, center) in lanes {
            self.id(svg, center, 0.5, size, lane.id.0, "#1c2733");
        }
    }

    /// An id on a line, along it, never upside down.
    fn id(&self, svg: &mut Svg, line: &Polyline3, at: f64, size: f64, id: u64, colour: &str) {
        let (Some(p), Some(angle)) = (line.point_at_fraction(at), heading(line, at * line.length())) else { return };
        let (x, y) = self.place(p);
        let degrees = -angle.to_degrees();
        let upright = if degrees > 89.0 { degrees - 180.0 } else { degrees };
        let upright = if upright < -91.0 { upright + 180.0 } else { upright };
        svg.push(&format!(
            "<text class='id' dy='0.35em' transform='translate({x:.1} {y:.1}) rotate({upright:.1})' style='font-size:{size:.1}px;fill:{colour};stroke-width:{:.1}px'>{id}</text>",
            size * 0.22
        ));
    }
}

/// How far a link's arrow reaches into a lane.
fn reach(line: &Polyline3) -> f64 {
    (line.length() * 0.3).min(2.5)
}

/// The angle of the segment at a station; none of a line without one.
fn heading(line: &Polyline3, station: f64) -> Option<f64> {
    let mut left = station;
    let mut last = None;
    for w in line.points.windows(2) {
        let (dx, dy) = (w[1].x - w[0].x, w[1].y - w[0].y);
        if dx != 0.0 || dy != 0.0 {
            last = Some(dy.atan2(dx));
        }
        left -= w[0].distance(w[1]);
        if left <= 0.0 && last.is_some() {
            break;
        }
    }
    last
}

/// A line moved to its left by so many metres, point by point.
fn beside(line: &Polyline3, offset: f64) -> Polyline3 {
    if offset == 0.0 {
        return line.clone();
    }
    let mut station = 0.0;
    let mut moved = Vec::with_capacity(line.len());
    for (i, p) in line.points.iter().enumerate() {
        if i > 0 {
            station += line.points[i - 1].distance(*p);
        }
        let (sin, cos) = heading(line, station).unwrap_or(0.0).sin_cos();
        moved.push(Point3::new(p.x - sin * offset, p.y + cos * offset, p.z));
    }
    Polyline3::new(moved)
}
