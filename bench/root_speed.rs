// How long the proved square root takes beside the processor's own, both as calls that are not inlined. `bench/run` builds and runs it.
// The doubles: bit patterns from 1 to that of infinity less one, all equally likely, from a fixed seed.
use std::hint::black_box;
use std::time::Instant;

use voldrekka::sys::voldrekka_sqrt;

type Root = extern "C" fn(f64) -> f64;

#[inline(never)]
extern "C" fn processor(x: f64) -> f64 {
    x.sqrt()
}

const COUNT: usize = 1 << 16;
// Timed a block at a time: a block takes far less than the slice of time for which the system lets another process run, so that few
// blocks are interrupted, and the median over the rounds leaves those out, for both roots alike.
const BLOCK: usize = 1 << 12;
const ROUNDS: usize = 41;
const INFINITY: u64 = 0x7FF0_0000_0000_0000;

// SplitMix64.
fn next(state: &mut u64) -> u64 {
    *state = state.wrapping_add(0x9E37_79B9_7F4A_7C15);
    let mut z = *state;
    z = (z ^ (z >> 30)).wrapping_mul(0xBF58_476D_1CE4_E5B9);
    z = (z ^ (z >> 27)).wrapping_mul(0x94D0_49BB_1331_11EB);
    z ^ (z >> 31)
}

fn values() -> Vec<u64> {
    let mut state = 1;
    (0..COUNT).map(|_| 1 + next(&mut state) % (INFINITY - 1)).collect()
}

// Each call stands alone: how many there can be in a second.
fn apart(f: Root, values: &[u64]) -> f64 {
    let start = Instant::now();
    let mut sum = 0;
    for &v in values {
        sum ^= f(f64::from_bits(v)).to_bits();
    }
    black_box(sum);
    start.elapsed().as_secs_f64() * 1e9 / values.len() as f64
}

// Each call waits for the last one's answer; `none` is 0, and the compiler does not know it.
fn in_turn(f: Root, values: &[u64]) -> f64 {
    let none = black_box(0);
    let start = Instant::now();
    let mut last = 0;
    for &v in values {
        last = f(f64::from_bits(v ^ (last & none))).to_bits();
    }
    black_box(last);
    start.elapsed().as_secs_f64() * 1e9 / values.len() as f64
}

fn median(mut times: Vec<f64>) -> f64 {
    times.sort_by(f64::total_cmp);
    times[times.len() / 2]
}

// The mean over all the doubles of the time of a call: of each block the median over the rounds, of these the mean.
fn mean(rounds: &[Vec<f64>]) -> f64 {
    let blocks = rounds[0].len();
    let sum: f64 = (0..blocks).map(|b| median(rounds.iter().map(|round| round[b]).collect())).sum();
    sum / blocks as f64
}

fn compare(name: &str, time: fn(Root, &[u64]) -> f64, values: &[u64]) {
    let mut ours = Vec::new();
    let mut own = Vec::new();
    for _ in 0..ROUNDS {
        ours.push(values.chunks(BLOCK).map(|block| time(black_box(voldrekka_sqrt), block)).collect());
        own.push(values.chunks(BLOCK).map(|block| time(black_box(processor), block)).collect());
    }
    let (ours, own) = (mean(&ours), mean(&own));
    println!("{name}: proved {ours:.2} ns, processor {own:.2} ns, ratio {:.2}", ours / own);
}

fn main() {
    let values = values();
    for &v in &values {
        let x = f64::from_bits(v);
        assert_eq!(voldrekka_sqrt(x).to_bits(), processor(x).to_bits(), "at the pattern {v:#x}");
    }
    println!("{COUNT} random positive doubles, {ROUNDS} rounds: mean time of a call");
    compare("throughput", apart, &values);
    compare("latency", in_turn, &values);
}
