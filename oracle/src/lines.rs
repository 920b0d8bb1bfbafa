//! The functions of geometry/mod.rs and geometry/polyline.rs on random lines.

use std::io::{self, Write};

use vectormap_core::*;

use crate::format::{self, In, Out};
use crate::rng::Rng;
use crate::sound::EDGE;

/// The functions by number, from 1.
pub const FUNCTIONS: [&str; 20] = [
    "length",
    "first",
    "last",
    "locate",
    "point_at",
    "point_at_fraction",
    "nearest_point",
    "slice",
    "split_at",
    "resample_count",
    "reversed",
    "concat",
    "centerline",
    "project_on_segment",
    "lerp",
    "distance",
    "distance_2d",
    "Point2::norm",
    "Point2::normalized",
    "Point3::norm",
];

const NAN: f64 = f64::from_bits(0x7FF8_0000_0000_0000);

impl Out {
    /// A result: any NaN goes as the plain one.
    fn result(&mut self, x: f64) {
        self.float(if x.is_nan() { NAN } else { x });
    }

    fn point(&mut self, p: Point3) {
        [p.x, p.y, p.z].into_iter().for_each(|x| self.result(x));
    }

    fn line(&mut self, l: &Polyline3) {
        self.number(l.len() as u64);
        l.points.iter().for_each(|p| self.point(*p));
    }

    fn maybe<T>(&mut self, x: Option<T>, put: impl Fn(&mut Out, T)) {
        self.number(x.is_some() as u64);
        if let Some(x) = x {
            put(self, x);
        }
    }
}

impl In<'_> {
    fn point2(&mut self) -> Point2 {
        Point2::new(self.float(), self.float())
    }

    fn point3(&mut self) -> Point3 {
        Point3::new(self.float(), self.float(), self.float())
    }

    fn line(&mut self) -> Polyline3 {
        let n = self.number();
        Polyline3::new((0..n).map(|_| self.point3()).collect())
    }
}

/// What the Rust answers to function `f` on the lines `a` and `b` with the arguments read.
fn answer(f: u64, a: &Polyline3, b: &Polyline3, args: &mut In) -> Vec<u8> {
    let mut out = Out::default();
    match f {
        1 => out.result(a.length()),
        2 => out.maybe(a.first(), Out::point),
        3 => out.maybe(a.last(), Out::point),
        4 => out.maybe(a.oracle_locate(args.float()), |out, (i, t)| {
            out.number(i as u64);
            out.result(t);
        }),
        5 => out.maybe(a.point_at(args.float()), Out::point),
        6 => out.maybe(a.point_at_fraction(args.float()), Out::point),
        7 => out.maybe(a.nearest_point(args.point2()), |out, n| {
            out.point(n.point);
            out.result(n.distance);
            out.result(n.station);
            out.number(n.segment as u64);
            out.result(n.lateral);
        }),
        8 => out.line(&a.slice(args.float(), args.float())),
        9 => {
            let (first, second) = a.split_at(args.float());
            out.line(&first);
            out.line(&second);
        }
        10 => out.line(&a.resample_count(args.number() as usize)),
        11 => out.line(&a.reversed()),
        12 => out.line(&a.concat(b)),
        13 => out.maybe(Polyline3::centerline(a, b), |out, l| out.line(&l)),
        14 => out.result(project_on_segment(
            args.point2(),
            args.point2(),
            args.point2(),
        )),
        15 => {
            let (p, q) = (args.point3(), args.point3());
            out.point(p.lerp(q, args.float()));
        }
        16 => out.result(args.point3().distance(args.point3())),
        17 => out.result(args.point3().distance_2d(args.point3())),
        18 => out.result(args.point2().norm()),
        19 => out.maybe(args.point2().normalized(), |out, p| {
            out.result(p.x);
            out.result(p.y);
        }),
        20 => out.result(args.point3().norm()),
        _ => panic!("function {f}"),
    }
    out.0
}

/// How the numbers of a group look.
#[derive(Clone, Copy)]
enum Style {
    Whole,
    Free,
    Edge,
    Tiny,
}

fn number(rng: &mut Rng, style: Style) -> f64 {
    match style {
        Style::Whole => match rng.below(8) {
            0 => -0.0,
            _ => rng.within(0, 12) as f64 - 6.0,
        },
        Style::Free => rng.between(-100.0, 100.0),
        Style::Edge => match rng.below(5) {
            0 => EDGE,
            1 => -EDGE,
            2 => EDGE.next_down(),
            3 => rng.between(-EDGE, EDGE),
            _ => rng.between(-1.0, 1.0),
        },
        Style::Tiny => match rng.below(4) {
            0 => 0.0,
            1 => 1e-9 * rng.within(0, 4) as f64,
            2 => rng.between(0.0, 3e-9),
            _ => rng.between(-1e-6, 1e-6),
        },
    }
}

fn point(rng: &mut Rng, style: Style) -> Point3 {
    let flat = rng.chance(40);
    let z = if flat { 0.0 } else { number(rng, style) };
    Point3::new(number(rng, style), number(rng, style), z)
}

fn line(rng: &mut Rng, style: Style, n: usize) -> Polyline3 {
    let mut points: Vec<Point3> = Vec::new();
    for _ in 0..n {
        // A repeated point is a segment of length 0.
        match points.last() {
            Some(p) if rng.chance(12) => points.push(*p),
            _ => points.push(point(rng, style)),
        }
    }
    Polyline3::new(points)
}

/// A station: at a vertex or beside it, at the ends, beyond them, anywhere, or NaN.
fn station(rng: &mut Rng, a: &Polyline3) -> f64 {
    let length = a.length();
    let vertices = a.stations();
    let vertex = if vertices.is_empty() {
        0.0
    } else {
        *rng.pick(&vertices)
    };
    match rng.below(16) {
        0 => 0.0,
        1 => -0.0,
        2 => length,
        3 => length.next_up(),
        4 => length + 1.0,
        5 => -1.0,
        6 => NAN,
        7 => vertex,
        8 => vertex.next_up(),
        9 => vertex.next_down(),
        10 => vertex + EPSILON,
        11 => vertex - EPSILON,
        _ => length * rng.unit(),
    }
}

/// A value on an edge, or one step to either side of it.
fn beside(rng: &mut Rng, x: f64) -> f64 {
    match rng.below(3) {
        0 => x,
        1 => x.next_up(),
        _ => x.next_down(),
    }
}

fn query(rng: &mut Rng, style: Style, a: &Polyline3) -> Point2 {
    match (rng.below(4), a.is_empty()) {
        (0, false) => rng.pick(&a.points).xy(),
        (1, false) => {
            let length = a.length();
            a.point_at(length * rng.unit()).expect("a point").xy()
        }
        _ => Point2::new(number(rng, style), number(rng, style)),
    }
}

fn arguments(rng: &mut Rng, style: Style, f: u64, a: &Polyline3) -> Vec<u8> {
    let mut out = Out::default();
    let mut floats = |list: &[f64]| list.iter().for_each(|x| out.float(*x));
    let length = a.length();
    match f {
        4 | 5 | 9 => floats(&[station(rng, a)]),
        6 => {
            let u = rng.unit();
            let f = *rng.pick(&[0.0, 1.0, 0.5, -1.0, 2.0, NAN, u, u]);
            floats(&[f]);
        }
        7 => {
            let q = query(rng, style, a);
            floats(&[q.x, q.y]);
        }
        8 => {
            let (x, y) = (station(rng, a), station(rng, a));
            let (x, y) = if x > y && rng.chance(80) {
                (y, x)
            } else {
                (x, y)
            };
            match rng.below(8) {
                0 => floats(&[0.0, y]),
                1 => floats(&[x, length]),
                2 => floats(&[x, x]),
                _ => floats(&[x, y]),
            }
        }
        10 => out.number(*rng.pick(&[0, 1, 2, 2, 3, 4, 5, 7, 12])),
        14 => {
            let (p, q, r) = (point(rng, style), point(rng, style), point(rng, style));
            let r = match rng.below(4) {
                0 => q,
                1 => Point3::new(q.x + beside(rng, EPSILON), q.y, 0.0),
                _ => r,
            };
            floats(&[p.x, p.y, q.x, q.y, r.x, r.y]);
        }
        15 => {
            let (p, q) = (point(rng, style), point(rng, style));
            let u = rng.unit();
            let t = *rng.pick(&[0.0, 1.0, 0.5, -0.0, 1f64.next_down(), u, u]);
            floats(&[p.x, p.y, p.z, q.x, q.y, q.z, t]);
        }
        16 | 17 => {
            let (p, q) = (point(rng, style), point(rng, style));
            floats(&[p.x, p.y, p.z, q.x, q.y, q.z]);
        }
        18 | 19 => {
            let p = match rng.below(4) {
                0 => Point2::new(beside(rng, EPSILON), 0.0),
                1 => Point2::new(0.0, -beside(rng, EPSILON)),
                _ => point(rng, style).xy(),
            };
            floats(&[p.x, p.y]);
        }
        20 => {
            let p = point(rng, style);
            floats(&[p.x, p.y, p.z]);
        }
        _ => {}
    }
    out.0
}

/// A line and queries on the 1e-9 edge: a corner, and a point whose distances to its two legs differ
/// by EPSILON or next to it.
fn corner(rng: &mut Rng) -> (Polyline3, Vec<Point2>) {
    let reach = rng.within(1, 20) as f64;
    let line = Polyline3::from_xy(&[[-reach, 0.0], [0.0, 0.0], [0.0, reach]]);
    let queries = (0..6)
        .map(|_| {
            let far = reach * rng.between(0.1, 0.9);
            let near = beside(rng, far - EPSILON);
            Point2::new(-near, far)
        })
        .collect();
    (line, queries)
}

pub fn make(seed: u64, count: usize) -> io::Result<bool> {
    let mut to = io::BufWriter::new(io::stdout().lock());
    let mut out = Out::default();
    let mut made = [0usize; FUNCTIONS.len()];
    out.number(format::LINES);
    out.number(count as u64);
    for group in 0..count {
        let mut rng = Rng::new(seed ^ (group as u64 + 1).wrapping_mul(0xD134_2543_DE82_EF95));
        let rng = &mut rng;
        let style = *rng.pick(&[
            Style::Whole,
            Style::Whole,
            Style::Free,
            Style::Free,
            Style::Free,
            Style::Edge,
            Style::Tiny,
        ]);
        let n = match group % 90 {
            41 => 256,
            7 | 77 => 40,
            _ => *rng.pick(&[0, 1, 2, 2, 2, 3, 3, 4, 5, 6]),
        };
        let mut a = line(rng, style, n);
        let mut b = match n {
            256 if rng.chance(50) => line(rng, style, 2),
            256 => line(rng, style, 0),
            _ => {
                let n = *rng.pick(&[0, 1, 2, 2, 3, 4, 5]);
                line(rng, style, n)
            }
        };
        // Ends that meet, or lie 1e-6 apart.
        if let (Some(end), Some(start)) = (a.last(), b.points.first_mut())
            && rng.chance(60)
        {
            *start = end;
            if rng.chance(50) {
                start.x = (start.x + beside(rng, 1e-6)).clamp(-EDGE, EDGE);
            }
        }
        let mut calls: Vec<(u64, Vec<u8>)> = Vec::new();
        if group % 15 == 4 {
            let (line, queries) = corner(rng);
            a = line;
            for q in queries {
                let mut args = Out::default();
                args.float(q.x);
                args.float(q.y);
                calls.push((7, args.0));
            }
        }
        for _ in 0..rng.within(6, 16) {
            let f = rng.below(FUNCTIONS.len()) as u64 + 1;
            // A long line is handed back once or twice at most.
            if n == 256 && (8..=13).contains(&f) && rng.chance(70) {
                continue;
            }
            calls.push((f, arguments(rng, style, f, &a)));
        }
        out.line(&a);
        out.line(&b);
        out.number(calls.len() as u64);
        for (f, args) in calls {
            made[f as usize - 1] += 1;
            out.number(f);
            out.0.extend(&args);
            let want = answer(f, &a, &b, &mut In(&args));
            out.0.extend(want);
        }
        out.flush(&mut to)?;
    }
    to.flush()?;
    eprintln!("{count} groups, {} calls", made.iter().sum::<usize>());
    for (name, n) in FUNCTIONS.iter().zip(made) {
        eprintln!("{n:>8} {name}");
    }
    Ok(true)
}

/// Reads a stored stream of lines and makes its calls again: how many groups and calls there were.
pub fn replay(bytes: &[u8]) -> Result<(usize, usize), String> {
    let mut from = In(bytes);
    if from.number() != format::LINES {
        return Err("not a stream of lines".into());
    }
    let groups = from.number() as usize;
    let mut made = 0;
    for group in 0..groups {
        let (a, b) = (from.line(), from.line());
        for place in 0..from.number() {
            let f = from.number();
            let want = answer(f, &a, &b, &mut from);
            let Some(rest) = from.0.strip_prefix(&want[..]) else {
                return Err(format!("group {group}, call {place}, function {f}"));
            };
            from.0 = rest;
            made += 1;
        }
    }
    if !from.0.is_empty() {
        return Err("bytes left over".into());
    }
    Ok((groups, made))
}
