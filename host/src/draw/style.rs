//! Colours and strokes.

use crate::records::{BoundaryKind, LaneKind};

/// What an edit made of an entity.
#[derive(Debug, Clone, Copy, PartialEq, Eq)]
pub enum Status {
    Created,
    Modified,
    Deleted,
}

impl Status {
    pub const fn fill(self) -> &'static str {
        match self {
            Status::Created => "#bfe8c4",
            Status::Modified => "#fdeab0",
            Status::Deleted => "#f6c3bd",
        }
    }

    pub const fn line(self) -> &'static str {
        match self {
            Status::Created => "#12812a",
            Status::Modified => "#b87700",
            Status::Deleted => "#c0281a",
        }
    }
}

pub const fn lane_fill(kind: LaneKind) -> &'static str {
    match kind {
        LaneKind::Driving => "#e4e9ef",
        LaneKind::Shoulder => "#efece4",
        LaneKind::Bus => "#f3e3d3",
        LaneKind::Bicycle => "#dcefe3",
        LaneKind::Walkway => "#f0e6f2",
        LaneKind::Parking => "#dbe3f6",
        LaneKind::Emergency => "#f8e0e0",
        LaneKind::Other => "#eeeeee",
    }
}

/// How a boundary is drawn: its strokes, each a width, a dash pattern and an offset to the left, in metres, and a colour.
pub struct Stroke {
    pub width: f64,
    pub dashes: &'static [f64],
    pub offset: f64,
    pub colour: &'static str,
}

const INK: &str = "#39424e";
const DASHES: &[f64] = &[1.5, 1.0];
const DOTS: &[f64] = &[0.25, 0.5];
const THIN: f64 = 0.14;
const THICK: f64 = 0.3;
/// How far a double line's two lines are from the middle.
const APART: f64 = 0.2;

fn single(width: f64, dashes: &'static [f64], colour: &'static str) -> Vec<Stroke> {
    vec![Stroke { width, dashes, offset: 0.0, colour }]
}

fn double(width: f64, left: &'static [f64], right: &'static [f64]) -> Vec<Stroke> {
    vec![
        Stroke { width, dashes: left, offset: APART, colour: INK },
        Stroke { width, dashes: right, offset: -APART, colour: INK },
    ]
}

pub fn boundary(kind: BoundaryKind) -> Vec<Stroke> {
    match kind {
        BoundaryKind::Virtual => single(THIN / 2.0, DOTS, "#8a94a0"),
        BoundaryKind::SolidThin => single(THIN, &[], INK),
        BoundaryKind::SolidThick => single(THICK, &[], INK),
        BoundaryKind::DashedThin => single(THIN, DASHES, INK),
        BoundaryKind::DashedThick => single(THICK, DASHES, INK),
        BoundaryKind::SolidSolidThin => double(THIN, &[], &[]),
        BoundaryKind::SolidSolidThick => double(THICK, &[], &[]),
        BoundaryKind::SolidDashedThin => double(THIN, &[], DASHES),
        BoundaryKind::SolidDashedThick => double(THICK, &[], DASHES),
        BoundaryKind::DashedSolidThin => double(THIN, DASHES, &[]),
        BoundaryKind::DashedSolidThick => double(THICK, DASHES, &[]),
        BoundaryKind::Curb => single(0.4, &[], "#7c8794"),
        BoundaryKind::RoadEdge => single(0.25, &[], "#8a6d3b"),
        BoundaryKind::Other => single(THIN, DOTS, "#7a3e9d"),
    }
}
