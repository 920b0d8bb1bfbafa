// Makes the list that the program root_sample compares the proved square root with: 4,000 rows of the bits of x and the bits of its root
// by the processor's own instruction (sqrtsd on x86-64), each eight bytes, least first. bench/README.md has the command. The same bytes come out
// at each run: the seed is fixed.
use std::hint::black_box;
use std::io::Write;

const ROWS: usize = 4000;
const SIGN: u64 = 0x8000_0000_0000_0000;
const INFINITY: u64 = 0x7FF0_0000_0000_0000;
const LARGEST: u64 = INFINITY - 1;
// The least double with 53 digits; below it are the subnormals.
const NORMAL: u64 = 0x0010_0000_0000_0000;

// SplitMix64.
struct Random(u64);

impl Random {
    fn below(&mut self, end: u64) -> u64 {
        self.0 = self.0.wrapping_add(0x9E37_79B9_7F4A_7C15);
        let mut z = self.0;
        z = (z ^ (z >> 30)).wrapping_mul(0xBF58_476D_1CE4_E5B9);
        z = (z ^ (z >> 27)).wrapping_mul(0x94D0_49BB_1331_11EB);
        (z ^ (z >> 31)) % end
    }
}

fn with_neighbours(xs: &mut Vec<u64>, x: u64) {
    xs.extend([x - 1, x, x + 1]);
}

fn main() {
    let mut random = Random(2026);
    let mut xs = Vec::new();
    // zeros, infinities and NaNs, quiet and signalling
    xs.extend([0, SIGN, INFINITY, SIGN | INFINITY]);
    for payload in [1, 0x4_5678, 0x7_FFFF_FFFF_FFFF, 0x8_0000_0000_0000, 0xF_FFFF_FFFF_FFFF] {
        xs.extend([INFINITY | payload, SIGN | INFINITY | payload]);
    }
    // the smallest, the largest, and where the subnormals end
    xs.extend(1..=64);
    xs.extend(LARGEST - 63..=LARGEST);
    xs.extend(NORMAL - 16..NORMAL + 16);
    // powers of two and their neighbours: each subnormal one that is not among the smallest, and each seventh of the others
    for place in 7..52 {
        with_neighbours(&mut xs, 1 << place);
    }
    for field in (8..2047).step_by(7) {
        with_neighbours(&mut xs, field * NORMAL);
    }
    // squares that are doubles, and the unit above and below: of whole numbers up to 2 ^ 26, at any even power of two
    for _ in 0..200 {
        let whole = (1 + random.below(1 << 26)) as f64;
        let scale = f64::from_bits((523 + random.below(960)) * NORMAL);
        with_neighbours(&mut xs, ((whole * scale) * (whole * scale)).to_bits());
    }
    // squares of random doubles, rounded, and their neighbours
    for _ in 0..100 {
        let x = f64::from_bits(550 * NORMAL + random.below(900 * NORMAL));
        with_neighbours(&mut xs, (x * x).to_bits());
    }
    // subnormals of 7 to 52 digits
    for _ in 0..100 {
        let end = 1 << (7 + random.below(46));
        xs.push(end / 2 + random.below(end / 2));
    }
    // below zero
    xs.extend([SIGN | 1, SIGN | NORMAL, SIGN | LARGEST, (-1f64).to_bits()]);
    for _ in 0..150 {
        xs.push(SIGN | (1 + random.below(LARGEST)));
    }
    // the rest: any double that is finite and above zero
    assert!(xs.len() <= ROWS);
    while xs.len() < ROWS {
        xs.push(1 + random.below(LARGEST));
    }
    let mut out = std::io::stdout().lock();
    for x in xs {
        let root = black_box(f64::from_bits(x)).sqrt();
        out.write_all(&x.to_le_bytes()).unwrap();
        out.write_all(&root.to_bits().to_le_bytes()).unwrap();
    }
}
