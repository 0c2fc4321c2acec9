//! Compares the proved binary64 of the crate `float64` with the host's own arithmetic: edge patterns
//! crossed with each other, halfway cases, and random patterns of every exponent.
//! Arguments: [SEED [PAIRS]]. Exits with 1 where anything differs.

use std::process::exit;

extern "C" {
    fn float64_apply(n: u64, a: u64, b: u64) -> u64;
    fn float64_to_i64(a: u64) -> i64;
}

/// The proved functions' numbers, from 0 on; those from `to_u64` on take one operand.
const ADD: u64 = 0;
const SUB: u64 = 1;
const MUL: u64 = 2;
const DIV: u64 = 3;
const TO_U64: u64 = 4;
const FROM_U64: u64 = 5;
const IS_BELOW_ZERO: u64 = 6;
const IS_NAN: u64 = 7;

fn apply(n: u64, a: u64, b: u64) -> u64 {
    // Safe: it takes and returns plain numbers.
    unsafe { float64_apply(n, a, b) }
}

fn to_i64(a: u64) -> i64 {
    // Safe: as above.
    unsafe { float64_to_i64(a) }
}

const QUIET: u64 = 0x7ff8_0000_0000_0000;
const DIGITS: u64 = (1 << 52) - 1;
const MISMATCHES_SHOWN: u32 = 5;

/// splitmix64
struct Random(u64);

impl Random {
    fn next(&mut self) -> u64 {
        self.0 = self.0.wrapping_add(0x9e37_79b9_7f4a_7c15);
        let mut z = self.0;
        z = (z ^ (z >> 30)).wrapping_mul(0xbf58_476d_1ce4_e5b9);
        z = (z ^ (z >> 27)).wrapping_mul(0x94d0_49bb_1331_11eb);
        z ^ (z >> 31)
    }

    fn below(&mut self, n: u64) -> u64 {
        self.next() % n
    }
}

fn make(sign: u64, exponent: u64, digits: u64) -> u64 {
    (sign & 1) << 63 | (exponent & 0x7ff) << 52 | (digits & DIGITS)
}

/// The host's result as a pattern, with the one NaN that every NaN result is.
fn bits(x: f64) -> u64 {
    if x.is_nan() {
        QUIET
    } else {
        x.to_bits()
    }
}

#[derive(Default)]
struct Tally {
    pairs: u64,
    conversions: u64,
    mismatches: u32,
}

impl Tally {
    fn same(&mut self, what: &str, operands: &[u64], ours: u64, host: u64) {
        if ours == host {
            return;
        }
        eprint!("float64: {what}");
        for a in operands {
            eprint!(" {a:#018x}");
        }
        eprintln!(": ours {ours:#018x}, the host's {host:#018x}");
        self.mismatches += 1;
        if self.mismatches == MISMATCHES_SHOWN {
            exit(1);
        }
    }

    fn pair(&mut self, a: u64, b: u64) {
        let (x, y) = (f64::from_bits(a), f64::from_bits(b));
        let ours = [ADD, SUB, MUL, DIV].map(|n| apply(n, a, b));
        let host = [bits(x + y), bits(x - y), bits(x * y), bits(x / y)];
        for (i, what) in ["add", "sub", "mul", "div"].iter().enumerate() {
            self.same(what, &[a, b], ours[i], host[i]);
        }
        self.pairs += 1;
    }

    fn pattern(&mut self, a: u64) {
        let x = f64::from_bits(a);
        self.same("to_i64", &[a], to_i64(a) as u64, x as i64 as u64);
        self.same("to_u64", &[a], apply(TO_U64, a, 0), x as u64);
        let below = apply(IS_BELOW_ZERO, a, 0);
        self.same("is_below_zero", &[a], below, (x < 0.0) as u64);
        self.same("is_nan", &[a], apply(IS_NAN, a, 0), x.is_nan() as u64);
        self.conversions += 4;
    }

    fn whole(&mut self, n: u64) {
        self.same("from_u64", &[n], apply(FROM_U64, n, 0), bits(n as f64));
        self.conversions += 1;
    }
}

/// Both signs of each edge of the exponent with each edge of the digits: zeros, subnormals, the
/// ends of the ranges of whole numbers, the largest, infinities, and NaNs of several payloads.
fn edges() -> Vec<u64> {
    let exponents = [
        0, 1, 2, 52, 53, 54, 969, 970, 971, 1021, 1022, 1023, 1024, 1074, 1075, 1076, 1085, 1086, 1087, 1992, 1993, 1994, 2044, 2045, 2046,
        2047,
    ];
    let half = 1 << 51;
    let digits = [0, 1, 2, 3, half - 1, half, half + 1, DIGITS - 1, DIGITS];
    let mut out = Vec::new();
    for sign in 0..2 {
        for exponent in exponents {
            for d in digits {
                out.push(make(sign, exponent, d));
            }
        }
    }
    out
}

/// An odd number of k + 1 digits, with its exponent's field left at 0.
fn odd(r: &mut Random, k: u64) -> u64 {
    make(r.next(), 0, (r.next() | 1) << (52 - k))
}

/// A pair whose sum or product is halfway between two neighbours, or next to that.
fn halfway(r: &mut Random) -> (u64, u64) {
    let nudge = r.below(3).wrapping_sub(1);
    let (a, b) = match r.below(3) {
        0 => {
            // a number and half of its last place
            let e = 54 + r.below(1993);
            (make(r.next(), e, r.next()), make(r.next(), e - 53, 0))
        }
        1 => {
            // a product of 54 digits, or of 53
            (odd(r, 26) | (1 + r.below(2046)) << 52, odd(r, 26) | (1 + r.below(2046)) << 52)
        }
        _ => {
            // a subnormal product whose last digit is half of the smallest value
            let k = 1 + r.below(26);
            let both = 971 + 2 * k;
            let e = 1 + r.below(both - 1);
            (odd(r, k) | e << 52, odd(r, k) | (both - e) << 52)
        }
    };
    (a, b.wrapping_add(nudge))
}

/// The i-th pair: the first's exponent goes through all, the second's is free, near the first's, or
/// such that the product or the quotient comes near an end of the range. Exponents wrap around.
fn free(r: &mut Random, i: u64) -> (u64, u64) {
    let e = i % 2048;
    let near = r.below(120).wrapping_sub(60);
    let d = match r.below(4) {
        0 => r.next(),
        1 => e.wrapping_add(near),
        2 => near.wrapping_add(1023).wrapping_sub(e),
        _ => near.wrapping_add(1023).wrapping_add(e),
    };
    (make(r.next(), e, r.next()), make(r.next(), d, r.next()))
}

fn main() {
    let mut arguments = std::env::args().skip(1).map(|a| a.parse::<u64>().expect("SEED and PAIRS are numbers"));
    let seed = arguments.next().unwrap_or(754);
    let pairs = arguments.next().unwrap_or(1_000_000);
    let mut r = Random(seed);
    let mut t = Tally::default();

    let edges = edges();
    for &a in &edges {
        t.pattern(a);
        t.whole(a);
        for &b in &edges {
            t.pair(a, b);
        }
    }
    for k in 0..64 {
        for j in 0..=k {
            for near in [-1i64, 0, 1] {
                t.whole((1u64 << k | 1 << j).wrapping_add(near as u64));
            }
        }
    }
    for i in 0..pairs {
        let (a, b) = if r.below(4) == 0 { halfway(&mut r) } else { free(&mut r, i) };
        t.pair(a, b);
        t.pattern(a);
        t.pattern(make(a >> 63, 1010 + i % 90, a));
        let shift = r.below(64);
        t.whole(r.next() >> shift);
    }
    if t.mismatches > 0 {
        exit(1);
    }
    println!("float64: {} pairs by 4 operations and {} conversions agree with the host, seed {seed}", t.pairs, t.conversions);
}
