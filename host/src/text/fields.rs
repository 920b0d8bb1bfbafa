//! The fields of a line: `name=value`, each at most once.

use std::str::FromStr;

use crate::geometry::{Point3, Polyline3};
use crate::ids::*;
use crate::layout::MAX_COORDINATE;
use crate::records::*;

/// What is wrong with a line; the reader adds its number.
pub type Told<T> = Result<T, String>;

/// The fields of an entity's line, read from left to right.
pub struct Fields<'a> {
    given: Vec<(&'a str, &'a str)>,
}

impl<'a> Fields<'a> {
    /// Splits the words of a line; only the names in `known` may stand there.
    pub fn new(words: impl Iterator<Item = &'a str>, known: &[&str]) -> Told<Self> {
        let mut given: Vec<(&str, &str)> = Vec::new();
        for word in words {
            let Some((name, value)) = word.split_once('=') else {
                return Err(format!("expected name=value, found `{word}`"));
            };
            if !known.contains(&name) {
                return Err(format!("`{name}` is no field here; expected one of {}", known.join(", ")));
            }
            if given.iter().any(|(n, _)| *n == name) {
                return Err(format!("`{name}` is given twice"));
            }
            given.push((name, value));
        }
        Ok(Self { given })
    }

    pub fn get(&self, name: &str) -> Option<&'a str> {
        self.given.iter().find(|(n, _)| *n == name).map(|(_, value)| *value)
    }

    pub fn has(&self, name: &str) -> bool {
        self.get(name).is_some()
    }

    /// A field that may be missing, by a reader of its value.
    pub fn optional<T>(&self, name: &str, read: impl Fn(&str) -> Told<T>) -> Told<Option<T>> {
        let Some(value) = self.get(name) else {
            return Ok(None);
        };
        read(value).map(Some).map_err(|e| format!("{name}: {e}"))
    }

    /// A field that must be there.
    pub fn required<T>(&self, name: &str, read: impl Fn(&str) -> Told<T>) -> Told<T> {
        self.optional(name, read)?.ok_or_else(|| format!("expected a field {name}="))
    }

    /// A list of ids, empty if the field is missing.
    pub fn ids<Id>(&self, name: &str, of: impl Fn(u64) -> Id + Copy) -> Told<Vec<Id>> {
        Ok(self.optional(name, |value| ids(value, of))?.unwrap_or_default())
    }

    /// A handle, 0 if the field is missing.
    pub fn handle(&self, name: &str) -> Told<Handle> {
        Ok(self.optional(name, handle)?.unwrap_or(0))
    }
}

// ---- values

/// A number without a sign.
fn digits<N: FromStr>(value: &str) -> Option<N> {
    let plain = !value.is_empty() && value.bytes().all(|b| b.is_ascii_digit());
    plain.then(|| value.parse().ok()).flatten()
}

pub fn id(value: &str) -> Told<u64> {
    digits(value).ok_or_else(|| format!("expected an id from 0 to {}, found `{value}`", u64::MAX))
}

fn handle(value: &str) -> Told<Handle> {
    digits(value).ok_or_else(|| format!("expected a handle from 0 to {}, found `{value}`", Handle::MAX))
}

/// Ids with commas between them; no id at all is an empty list.
pub fn ids<Id>(value: &str, of: impl Fn(u64) -> Id) -> Told<Vec<Id>> {
    if value.is_empty() {
        return Ok(Vec::new());
    }
    value.split(',').map(|i| id(i).map(&of)).collect()
}

pub fn kind<K: Kind>(value: &str) -> Told<K> {
    K::of_name(value).ok_or_else(|| {
        let names: Vec<&str> = K::NAMES.iter().map(|(_, name)| *name).collect();
        format!("expected one of {}, found `{value}`", names.join(", "))
    })
}

pub fn yes_or_no(value: &str) -> Told<bool> {
    match value {
        "yes" => Ok(true),
        "no" => Ok(false),
        _ => Err(format!("expected yes or no, found `{value}`")),
    }
}

/// An id, and `:reversed` where the lane runs against the boundary.
pub fn boundary_ref(value: &str) -> Told<BoundaryRef> {
    match value.split_once(':') {
        None => Ok(BoundaryRef::forward(BoundaryId(id(value)?))),
        Some((boundary, "reversed")) => Ok(BoundaryRef::backward(BoundaryId(id(boundary)?))),
        Some(_) => Err(format!("expected an id, or an id and `:reversed`, found `{value}`")),
    }
}

/// A lane and its direction, or `none`.
pub fn neighbor(value: &str) -> Told<Option<Neighbor>> {
    if value == "none" {
        return Ok(None);
    }
    let Some((lane, direction)) = value.split_once(':') else {
        return Err(format!("expected none, or a lane and `:same` or `:opposite`, found `{value}`"));
    };
    Ok(Some(Neighbor { lane: LaneId(id(lane)?), direction: kind(direction)? }))
}

fn coordinate(value: &str) -> Told<f64> {
    let most = MAX_COORDINATE as f64;
    match value.parse::<f64>() {
        Ok(x) if (-most..=most).contains(&x) => Ok(x),
        _ => Err(format!("expected a coordinate from -{MAX_COORDINATE} to {MAX_COORDINATE}, found `{value}`")),
    }
}

fn point(value: &str) -> Told<Point3> {
    let numbers: Vec<f64> = value.split(',').map(coordinate).collect::<Told<_>>()?;
    match numbers[..] {
        [x, y] => Ok(Point3::new(x, y, 0.0)),
        [x, y, z] => Ok(Point3::new(x, y, z)),
        _ => Err(format!("expected a point x,y or x,y,z, found `{value}`")),
    }
}

/// Points with semicolons between them; no point at all is an empty line.
pub fn line(value: &str) -> Told<Polyline3> {
    if value.is_empty() {
        return Ok(Polyline3::default());
    }
    Ok(Polyline3::new(value.split(';').map(point).collect::<Told<_>>()?))
}

/// A number, or `nan:` and the sixteen hexadecimal digits of its bits.
pub fn speed(value: &str) -> Told<SpeedLimit> {
    let bits = value.strip_prefix("nan:").filter(|digits| digits.len() == 16);
    let kmh = match bits {
        Some(digits) => u64::from_str_radix(digits, 16).ok().map(f64::from_bits).filter(|x| x.is_nan()),
        None => value.parse::<f64>().ok().filter(|x| !x.is_nan()),
    };
    match kmh {
        Some(kmh) => Ok(SpeedLimit { kmh }),
        None => Err(format!("expected a number of km/h, or nan: and 16 hexadecimal digits, found `{value}`")),
    }
}

// ---- the same, written

/// The shortest decimal that is read as the same double.
pub fn number(x: f64) -> String {
    let text = format!("{x:?}");
    text.strip_suffix(".0").map(str::to_string).unwrap_or(text)
}

pub fn speed_text(limit: SpeedLimit) -> String {
    match limit.kmh.is_nan() {
        true => format!("nan:{:016x}", limit.kmh.to_bits()),
        false => number(limit.kmh),
    }
}

fn point_text(p: &Point3) -> String {
    match p.z.to_bits() {
        0 => format!("{},{}", number(p.x), number(p.y)),
        _ => format!("{},{},{}", number(p.x), number(p.y), number(p.z)),
    }
}

pub fn line_text(line: &Polyline3) -> String {
    line.points.iter().map(point_text).collect::<Vec<_>>().join(";")
}

pub fn ids_text<Id: Copy + Into<EntityRef>>(ids: &[Id]) -> String {
    ids.iter().map(|&id| id.into().raw().to_string()).collect::<Vec<_>>().join(",")
}

pub fn boundary_ref_text(reference: BoundaryRef) -> String {
    let reversed = if reference.reversed { ":reversed" } else { "" };
    format!("{}{reversed}", reference.boundary.0)
}

pub fn neighbor_text(neighbor: Option<Neighbor>) -> String {
    neighbor.map_or("none".into(), |n| format!("{}:{}", n.lane.0, n.direction))
}
