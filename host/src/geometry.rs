//! Points and lines, as far as messages and pictures need them. What an edit decides and draws is the library's.

/// A point: metres, x east, y north, z up.
#[derive(Debug, Clone, Copy, PartialEq, Default)]
pub struct Point3 {
    /// East.
    pub x: f64,
    /// North.
    pub y: f64,
    /// Up.
    pub z: f64,
}

impl Point3 {
    /// A point.
    pub const fn new(x: f64, y: f64, z: f64) -> Self {
        Self { x, y, z }
    }

    /// The distance to another point.
    pub fn distance(self, other: Point3) -> f64 {
        let (dx, dy, dz) = (self.x - other.x, self.y - other.y, self.z - other.z);
        (dx * dx + dy * dy + dz * dz).sqrt()
    }

    /// The point a part `t` of the way to another.
    pub fn lerp(self, other: Point3, t: f64) -> Point3 {
        Point3::new(self.x + (other.x - self.x) * t, self.y + (other.y - self.y) * t, self.z + (other.z - self.z) * t)
    }
}

/// A line through points.
#[derive(Debug, Clone, PartialEq, Default)]
pub struct Polyline3 {
    /// The points, in order.
    pub points: Vec<Point3>,
}

impl Polyline3 {
    /// A line through points.
    pub fn new(points: Vec<Point3>) -> Self {
        Self { points }
    }

    /// A line through points at height 0.
    pub fn from_xy(points: &[[f64; 2]]) -> Self {
        Self::new(points.iter().map(|&[x, y]| Point3::new(x, y, 0.0)).collect())
    }

    /// A line through `[x, y, z]` triples.
    pub fn from_xyz(points: &[[f64; 3]]) -> Self {
        Self::new(points.iter().map(|&[x, y, z]| Point3::new(x, y, z)).collect())
    }

    /// How many points.
    pub fn len(&self) -> usize {
        self.points.len()
    }

    /// Whether there is no point.
    pub fn is_empty(&self) -> bool {
        self.points.is_empty()
    }

    /// The first point.
    pub fn first(&self) -> Option<Point3> {
        self.points.first().copied()
    }

    /// The last point.
    pub fn last(&self) -> Option<Point3> {
        self.points.last().copied()
    }

    /// The length along the line.
    pub fn length(&self) -> f64 {
        self.points.windows(2).map(|w| w[0].distance(w[1])).sum()
    }

    /// The same line from its end to its start.
    pub fn reversed(&self) -> Polyline3 {
        Polyline3::new(self.points.iter().rev().copied().collect())
    }

    /// The point at a station, held within the line.
    pub fn point_at(&self, station: f64) -> Option<Point3> {
        let mut left = station;
        for w in self.points.windows(2) {
            let segment = w[0].distance(w[1]);
            if left <= segment && segment > 0.0 {
                return Some(w[0].lerp(w[1], (left / segment).clamp(0.0, 1.0)));
            }
            left -= segment;
        }
        self.last()
    }

    /// The point at a part of the length, from 0 to 1.
    pub fn point_at_fraction(&self, fraction: f64) -> Option<Point3> {
        self.point_at(fraction * self.length())
    }

    fn resampled(&self, count: usize) -> impl Iterator<Item = Point3> + '_ {
        let step = self.length() / (count - 1) as f64;
        (0..count).filter_map(move |i| self.point_at(step * i as f64))
    }

    /// The line halfway between two that run the same way; none where one of them has no point.
    pub fn centerline(left: &Polyline3, right: &Polyline3) -> Option<Polyline3> {
        if left.is_empty() || right.is_empty() {
            return None;
        }
        let count = left.len().max(right.len()).max(2);
        let pairs = left.resampled(count).zip(right.resampled(count));
        Some(Polyline3::new(pairs.map(|(a, b)| a.lerp(b, 0.5)).collect()))
    }
}
