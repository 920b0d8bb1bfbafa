//! Stand-in for polygons: points alone.

use serde::{Deserialize, Serialize};

use super::{BoundingBox, Point2, Point3, Polyline3};

#[derive(Debug, Clone, PartialEq, Default, Serialize, Deserialize)]
pub struct Polygon2 {
    pub points: Vec<Point2>,
}

#[derive(Debug, Clone, PartialEq, Default, Serialize, Deserialize)]
pub struct Polygon3 {
    pub points: Vec<Point3>,
}

impl Polygon3 {
    pub fn from_sides(left: &Polyline3, right: &Polyline3) -> Self {
        let mut points = left.points.clone();
        points.extend(right.points.iter().rev());
        Self { points }
    }

    pub fn area_2d(&self) -> f64 {
        unimplemented!()
    }

    pub fn bounding_box(&self) -> Option<BoundingBox> {
        BoundingBox::from_points(self.points.iter().copied())
    }
}
