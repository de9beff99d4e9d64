//! Cases of the stand-ins.

use std::cmp::Ordering;
use std::f64::consts::{FRAC_PI_2, FRAC_PI_4, PI, TAU};

use super::{Payload, Stream, kind};
use crate::random::Random;
use crate::standin;

/// Zeros, subnormals, the largest values, infinities, NaN and the borders of the stand-ins.
pub const BORDERS: [f64; 62] = [
    0.0, -0.0, 5e-324, -5e-324, 2.225_073_858_507_201e-308, -2.225_073_858_507_201e-308,
    f64::MIN_POSITIVE, -f64::MIN_POSITIVE, f64::MAX, -f64::MAX, f64::INFINITY, f64::NEG_INFINITY,
    f64::NAN, 1.0, -1.0, 0.5, -0.5, 0.499_999_999_999_999_94, -0.499_999_999_999_999_94, 1.5, -1.5,
    2.5, -2.5, 2.0, -2.0, 22.0, -22.0, 3.0, 140.0, 1_048_576.0, -1_048_576.0, 1e9, -1e9, 1e-9,
    -1e-9, 1e13, 9_999_999_999_999.998, PI, -PI, TAU, -TAU, FRAC_PI_2, -FRAC_PI_2, FRAC_PI_4,
    3.141_592_653_589_793_6, 3.141_592_653_589_792_7, 6.283_185_307_179_587, 6.283_185_307_179_585,
    -3.141_592_653_589_793_6, 1e-162, 1e-154, 1e154, 1.4e154, 4_503_599_627_370_495.5,
    4_503_599_627_370_496.0, -4_503_599_627_370_495.5, 9_007_199_254_740_991.0,
    9_007_199_254_740_992.0, 1e300, -1e300, 0.1, 1e-300,
];

/// A number of any exponent and sign, never NaN.
pub fn any(rng: &mut Random) -> f64 {
    loop {
        let v = f64::from_bits(rng.next());
        if !v.is_nan() {
            return v;
        }
    }
}

/// A number of the size that drawings have.
pub fn ordinary(rng: &mut Random) -> f64 {
    match rng.below(4) {
        0 => rng.below(801) as f64 - 400.0,
        1 => rng.between(-1.0, 1.0),
        2 => rng.between(-20.0, 20.0),
        _ => rng.between(-1000.0, 1000.0),
    }
}

/// A border, an ordinary number, or any number.
pub fn mixed(rng: &mut Random) -> f64 {
    match rng.below(5) {
        0 => any(rng),
        1 | 2 => rng.pick(&BORDERS),
        _ => ordinary(rng),
    }
}

/// The next f64 away from zero (1) or towards it (-1), within the finite ones.
pub fn beside(v: f64, step: i64) -> f64 {
    let moved = f64::from_bits(v.to_bits().wrapping_add_signed(step));
    if moved.is_finite() { moved } else { v }
}

pub fn cases(out: &mut Stream) {
    let rng = &mut Random::new(101);
    roots(out, rng);
    one(out, kind::REM_EUCLID, standin::rem_euclid, &angles(rng, 300));
    one(out, kind::SIN, standin::sin, &angles(rng, 400));
    one(out, kind::COS, standin::cos, &angles(rng, 400));
    one(out, kind::ROUND, standin::round, &halves(rng));
    one(out, kind::ABS, f64::abs, &values(rng, 40));
    one(out, kind::SIGNUM, f64::signum, &values(rng, 40));
    two(out, kind::HYPOT, standin::hypot, &pairs(rng, 500));
    two(out, kind::MIDPOINT, standin::midpoint, &pairs(rng, 200));
    two(out, kind::ATAN2, standin::atan2, &directions(rng));
    two(out, kind::MIN, standin::min, &pairs(rng, 250));
    two(out, kind::MAX, standin::max, &pairs(rng, 250));
    // The sign of a NaN is no part of the port's numbers.
    let signed: Vec<(f64, f64)> = pairs(rng, 300)
        .into_iter()
        .filter(|(a, b)| !a.is_nan() && !b.is_nan())
        .collect();
    two(out, kind::COPYSIGN, f64::copysign, &signed[..200]);
    for &(a, b) in &signed {
        let order = match a.total_cmp(&b) {
            Ordering::Less => 0,
            Ordering::Equal => 1,
            Ordering::Greater => 2,
        };
        out.case(kind::TOTAL_CMP, Payload::new().floats(&[a, b]).byte(order));
        if a == 22.0 {
            out.spoiled(kind::TOTAL_CMP, Payload::new().floats(&[a, b]).byte((order + 1) % 3));
        }
    }
    clamps(out, rng);
    one(out, kind::REM_TAU, |a| a % TAU, &remainders(rng));
}

fn one(out: &mut Stream, kind: u8, f: fn(f64) -> f64, list: &[f64]) {
    for (i, &a) in list.iter().enumerate() {
        out.case(kind, Payload::new().floats(&[a, f(a)]));
        if i % 40 == 13 && plain(f(a)) {
            out.spoiled(kind, Payload::new().floats(&[a, beside(f(a), 1)]));
        }
    }
}

fn two(out: &mut Stream, kind: u8, f: fn(f64, f64) -> f64, list: &[(f64, f64)]) {
    for (i, &(a, b)) in list.iter().enumerate() {
        out.case(kind, Payload::new().floats(&[a, b, f(a, b)]));
        if i % 40 == 13 && plain(f(a, b)) {
            out.spoiled(kind, Payload::new().floats(&[a, b, beside(f(a, b), 1)]));
        }
    }
}

/// A number whose neighbour is another number.
fn plain(v: f64) -> bool {
    v.is_finite() && v != 0.0 && v.abs() != f64::MAX
}

/// The borders and n others.
fn values(rng: &mut Random, n: usize) -> Vec<f64> {
    let mut list = BORDERS.to_vec();
    list.extend((0..n).map(|_| mixed(rng)));
    list
}

fn roots(out: &mut Stream, rng: &mut Random) {
    let mut list = values(rng, 150);
    // Squares, and one unit in the last place beside them.
    for _ in 0..120 {
        let q = (rng.next() >> 38) as f64;
        let square = q * q * 2_f64.powi(2 * rng.below(200) as i32 - 200);
        list.extend([square, beside(square, 1), beside(square, -1)]);
    }
    // Numbers whose root is all but halfway between two neighbours.
    for (m, parity) in midpoints() {
        let v = m as f64 * 2_f64.powi(parity + 2 * rng.below(200) as i32 - 200);
        list.extend([v, beside(v, 1), beside(v, -1)]);
    }
    // Subnormals of every size.
    list.extend((1..52).map(|k| f64::from_bits(rng.next() >> (12 + k))));
    one(out, kind::ROOT, standin::root, &list);
}

/// Significands m of 53 bits, and the parity of their exponent, such that m * 2^k is q * q - c with
/// q odd of 54 bits, halfway between two numbers of 53, and c small.
fn midpoints() -> Vec<(u64, i32)> {
    let mut list = Vec::new();
    for k in [54_u32, 55] {
        for c in (-303_i128..300).step_by(8) {
            // A root of c modulo 2^k, bit by bit; c is 1 modulo 8, so it has one.
            let mut x: i128 = 1;
            for bit in 3..k {
                if (x * x - c) >> bit & 1 == 1 {
                    x += 1 << (bit - 1);
                }
            }
            let whole = 1_i128 << k;
            for q in [x, whole - x, x + whole / 2, whole / 2 - x] {
                let q = q.rem_euclid(whole);
                let m = (q * q - c) >> k;
                if q >> 53 == 1 && m >> 52 == 1 && (q * q - c) % whole == 0 {
                    list.push((m as u64, (k % 2) as i32));
                }
            }
        }
    }
    list
}

/// Angles: borders, beside multiples of PI / 2, ordinary and large ones.
fn angles(rng: &mut Random, n: usize) -> Vec<f64> {
    let mut list = values(rng, n / 4);
    for k in -12..=12 {
        let v = f64::from(k) * FRAC_PI_2;
        list.extend([v, beside(v, 1), beside(v, -1)]);
    }
    while list.len() < n {
        list.push(match rng.below(3) {
            0 => rng.between(-TAU, TAU),
            1 => ordinary(rng),
            _ => rng.between(-1e6, 1e6),
        });
    }
    list
}

/// Numbers of every exponent and both signs; multiples of TAU, rounded, and the numbers beside them.
fn remainders(rng: &mut Random) -> Vec<f64> {
    let mut list = values(rng, 40);
    for exponent in 0..2047 {
        let v = f64::from_bits(exponent << 52 | rng.next() >> 12);
        list.extend([v, -v]);
    }
    for i in 1..=400 {
        let k = if i <= 200 { i as f64 } else { (rng.next() >> 11 >> rng.below(53)) as f64 };
        let v = k * TAU;
        for w in [v, beside(v, 1), beside(v, -1)] {
            list.extend([w, -w]);
        }
    }
    list
}

/// Halves and one unit in the last place beside them, and others.
fn halves(rng: &mut Random) -> Vec<f64> {
    let mut list = values(rng, 60);
    for _ in 0..60 {
        let v = rng.below(2_000_000) as f64 - 1e6 + 0.5;
        list.extend([v, beside(v, 1), beside(v, -1)]);
    }
    list.extend((0..20).map(|_| rng.between(4e15, 1e16)));
    list
}

fn pairs(rng: &mut Random, n: usize) -> Vec<(f64, f64)> {
    let mut list = Vec::new();
    for a in [0.0, -0.0, f64::INFINITY, f64::NEG_INFINITY, f64::NAN, 1.0, -5e-324, f64::MAX] {
        for b in [0.0, -0.0, f64::INFINITY, f64::NEG_INFINITY, f64::NAN, 1.0, 5e-324, -f64::MAX] {
            list.push((a, b));
        }
    }
    while list.len() < n {
        let a = mixed(rng);
        let b = match rng.below(8) {
            0 => a,
            1 => -a,
            2 => beside(a, 1),
            _ => mixed(rng),
        };
        list.push((a, b));
    }
    list
}

/// Pairs, the axes and diagonals at several sizes, and ordinary directions. Each NaN is the one
/// whose sign bit is not set: the port's NaN has no sign.
fn directions(rng: &mut Random) -> Vec<(f64, f64)> {
    let mut list = pairs(rng, 300);
    for size in [1.0, 5e-324, 1e-300, 22.0, 1e300] {
        for (y, x) in [(0.0, 1.0), (1.0, 1.0), (1.0, 0.0), (1.0, -1.0), (0.0, -1.0)] {
            for sign in [1.0, -1.0] {
                list.push((sign * y * size, x * size));
            }
        }
    }
    list.extend((0..300).map(|_| (ordinary(rng), ordinary(rng))));
    let plain = |v: f64| if v.is_nan() { f64::from_bits(0x7ff8 << 48) } else { v };
    list.iter().map(|&(y, x)| (plain(y), plain(x))).collect()
}

/// Rust's clamp stops the program where the bounds are out of order or NaN: none are here.
fn clamps(out: &mut Stream, rng: &mut Random) {
    for i in 0..200 {
        let v = mixed(rng);
        let (lo, hi) = match i % 4 {
            0 => (28.0, 64.0),
            1 => (140.0, 320.0),
            2 => (v, v),
            _ => (mixed(rng), mixed(rng)),
        };
        if lo.is_nan() || hi.is_nan() {
            continue;
        }
        let (lo, hi) = if lo <= hi { (lo, hi) } else { (hi, lo) };
        out.case(kind::CLAMP, Payload::new().floats(&[v, lo, hi, v.clamp(lo, hi)]));
        let w = rng.between(0.0, 400.0);
        out.case(kind::CLAMP, Payload::new().floats(&[w, 28.0, 64.0, w.clamp(28.0, 64.0)]));
        if i % 40 == 13 {
            out.spoiled(kind::CLAMP, Payload::new().floats(&[w, 28.0, 64.0, beside(w.clamp(28.0, 64.0), 1)]));
        }
    }
}
