// How long the proved line functions take beside the Rust of docs/src, on the same lines and queries. `bench/lines` builds and runs it.
// The lines: roads of steps of 0.5 to 8.5 metres that bend and climb a little, from a fixed seed.
use std::hint::black_box;
use std::time::Instant;

use vectormap_core::{Point2, Point3, Polyline3};
use voldrekka::sys;

const LONG: usize = 256;
const SHORT: usize = 64;
const LINES: usize = 64;
const QUERIES: usize = 1024;
// Timed a block at a time: a block takes far less than the slice of time for which the system lets another process run, so that few
// blocks are interrupted, and the median over the rounds leaves those out, for both sides alike.
const BLOCK: usize = 16;
const ROUNDS: usize = 41;
// Each piece of a split has at most one point more than the line, so that two always fit.
const ROOM: usize = 2 * (SHORT + 1) * 3;

// One line in the forms of both sides.
struct Line {
    floats: Vec<f64>,
    line: Polyline3,
}

// A call's input: a line, a place in the plane near it, and a station on it.
struct Query<'a> {
    on: &'a Line,
    x: f64,
    y: f64,
    station: f64,
}

// ---- the proved functions. None has a `requires`. Without room `nearest_point` and `split_at` write nothing and answer 0: here they always have it.

#[inline(never)]
fn length(q: &Query, _: &mut [f64]) {
    black_box(sys::length(&q.on.floats));
}

fn nearest(q: &Query, out: &mut [f64]) -> usize {
    assert!(5 <= out.len());
    sys::nearest_point(&q.on.floats, q.x, q.y, out)
}

#[inline(never)]
fn nearest_point(q: &Query, out: &mut [f64]) {
    black_box(nearest(q, out));
}

fn split(q: &Query, out: &mut [f64]) -> (usize, usize) {
    let f = &q.on.floats;
    assert!(f.len() <= SHORT * 3 && ROOM <= out.len());
    let mut second = 0;
    let first = sys::split_at(f, q.station, out, &mut second);
    (first, second)
}

#[inline(never)]
fn split_at(q: &Query, out: &mut [f64]) {
    black_box(split(q, out));
}

// ---- the Rust

#[inline(never)]
fn rust_length(q: &Query, _: &mut [f64]) {
    black_box(q.on.line.length());
}

#[inline(never)]
fn rust_nearest_point(q: &Query, _: &mut [f64]) {
    black_box(q.on.line.nearest_point(Point2::new(q.x, q.y)));
}

#[inline(never)]
fn rust_split_at(q: &Query, _: &mut [f64]) {
    black_box(q.on.line.split_at(q.station));
}

// ---- the inputs

// SplitMix64, as a double from 0 to 1.
struct Random(u64);

impl Random {
    fn next(&mut self) -> f64 {
        self.0 = self.0.wrapping_add(0x9E37_79B9_7F4A_7C15);
        let mut z = self.0;
        z = (z ^ (z >> 30)).wrapping_mul(0xBF58_476D_1CE4_E5B9);
        z = (z ^ (z >> 27)).wrapping_mul(0x94D0_49BB_1331_11EB);
        ((z ^ (z >> 31)) >> 11) as f64 / (1u64 << 53) as f64
    }
}

fn line(random: &mut Random, points: usize) -> Line {
    let mut p = Point3::new(random.next() * 2000.0, random.next() * 2000.0, random.next() * 50.0);
    let mut heading = random.next() * 6.0;
    let mut all = Vec::new();
    for _ in 0..points {
        all.push(p);
        heading += (random.next() - 0.5) * 0.2;
        let step = 0.5 + random.next() * 8.0;
        p = Point3::new(p.x + step * heading.cos(), p.y + step * heading.sin(), p.z + (random.next() - 0.5) * 0.3);
    }
    Line {
        floats: all.iter().flat_map(|p| [p.x, p.y, p.z]).collect(),
        line: Polyline3::new(all),
    }
}

// Places up to 10 metres beside a point of the line, and stations from a twentieth of it to its end less a twentieth.
fn queries<'a>(random: &mut Random, lines: &'a [Line]) -> Vec<Query<'a>> {
    (0..QUERIES)
        .map(|i| {
            let on = &lines[i % lines.len()];
            let near = on.line.points[(random.next() * on.line.points.len() as f64) as usize];
            Query {
                on,
                x: near.x + (random.next() - 0.5) * 20.0,
                y: near.y + (random.next() - 0.5) * 20.0,
                station: on.line.length() * (0.05 + 0.9 * random.next()),
            }
        })
        .collect()
}

// ---- the answers agree

fn same(a: f64, b: f64, what: &str) {
    assert_eq!(a.to_bits(), b.to_bits(), "{what}: {a} and {b}");
}

fn same_line(floats: &[f64], line: &Polyline3, what: &str) {
    assert_eq!(floats.len(), line.points.len() * 3, "{what}: the number of points");
    for (three, p) in floats.chunks(3).zip(&line.points) {
        same(three[0], p.x, what);
        same(three[1], p.y, what);
        same(three[2], p.z, what);
    }
}

fn agree(long: &[Query], short: &[Query], out: &mut [f64]) {
    for q in long {
        same(sys::length(&q.on.floats), q.on.line.length(), "length");
        let segment = nearest(q, out);
        let n = q.on.line.nearest_point(Point2::new(q.x, q.y)).expect("a point");
        assert_eq!(segment, n.segment);
        for (a, b) in out.iter().zip([n.point.x, n.point.y, n.point.z, n.distance, n.station]) {
            same(*a, b, "nearest_point");
        }
    }
    for q in short {
        let (first, second) = split(q, out);
        let (one, two) = q.on.line.split_at(q.station);
        same_line(&out[..first * 3], &one, "the first piece");
        same_line(&out[first * 3..(first + second) * 3], &two, "the second piece");
    }
}

// ---- the times

type Call = fn(&Query, &mut [f64]);

// The time of a call in a block, in nanoseconds.
fn time(f: Call, block: &[Query], out: &mut [f64]) -> f64 {
    let start = Instant::now();
    for q in block {
        f(q, out);
    }
    start.elapsed().as_secs_f64() * 1e9 / block.len() as f64
}

fn median(mut times: Vec<f64>) -> f64 {
    times.sort_by(f64::total_cmp);
    times[times.len() / 2]
}

// The mean over all the queries of the time of a call: of each block the median over the rounds, of these the mean.
fn mean(rounds: &[Vec<f64>]) -> f64 {
    let blocks = rounds[0].len();
    let sum: f64 = (0..blocks).map(|b| median(rounds.iter().map(|round| round[b]).collect())).sum();
    sum / blocks as f64
}

fn compare(name: &str, proved: Call, rust: Call, queries: &[Query], out: &mut [f64]) {
    let mut ours = Vec::new();
    let mut own = Vec::new();
    for _ in 0..ROUNDS {
        ours.push(queries.chunks(BLOCK).map(|block| time(black_box(proved), block, out)).collect());
        own.push(queries.chunks(BLOCK).map(|block| time(black_box(rust), block, out)).collect());
    }
    let (ours, own) = (mean(&ours), mean(&own));
    println!("{name}: proved {ours:.0} ns, Rust {own:.0} ns, ratio {:.2}", ours / own);
}

fn main() {
    let mut random = Random(2026);
    let longs: Vec<Line> = (0..LINES).map(|_| line(&mut random, LONG)).collect();
    let shorts: Vec<Line> = (0..LINES).map(|_| line(&mut random, SHORT)).collect();
    let long = queries(&mut random, &longs);
    let short = queries(&mut random, &shorts);
    let mut out = vec![0.0; ROOM];
    agree(&long, &short, &mut out);
    println!("{QUERIES} calls on {LINES} lines, {ROUNDS} rounds: mean time of a call");
    compare("length of 256 points", length, rust_length, &long, &mut out);
    compare("nearest_point of 256 points", nearest_point, rust_nearest_point, &long, &mut out);
    compare("split_at of 64 points", split_at, rust_split_at, &short, &mut out);
}
