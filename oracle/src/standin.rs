//! The stand-ins of document 01 for the library's float functions. Each operation rounds once.

use std::f64::consts::{PI, TAU};

pub use super::root::root;

pub fn hypot(a: f64, b: f64) -> f64 {
    root(a * a + b * b)
}

pub fn midpoint(a: f64, b: f64) -> f64 {
    (a + b) / 2.0
}

/// The remainder by TAU.
pub fn rem_euclid(a: f64) -> f64 {
    let r = a % TAU;
    if r < 0.0 { r + TAU } else { r }
}

/// The angle taken to -PI..PI.
fn reduced(a: f64) -> f64 {
    let r = a % TAU;
    if r > PI {
        r - TAU
    } else if r < -PI {
        r + TAU
    } else {
        r
    }
}

pub fn sin(a: f64) -> f64 {
    let r = reduced(a);
    let z = r * r;
    let mut t = 1.0;
    for k in (1..=14_u32).rev() {
        t = 1.0 - (z / f64::from(2 * k * (2 * k + 1))) * t;
    }
    r * t
}

pub fn cos(a: f64) -> f64 {
    let r = reduced(a);
    let z = r * r;
    let mut t = 1.0;
    for k in (1..=14_u32).rev() {
        t = 1.0 - (z / f64::from((2 * k - 1) * (2 * k))) * t;
    }
    t
}

pub fn atan2(y: f64, x: f64) -> f64 {
    let a = max(x.abs(), y.abs());
    let b = min(x.abs(), y.abs());
    let mut u = if a == 0.0 { 0.0 } else { b / a };
    for _ in 0..2 {
        u /= 1.0 + root(1.0 + u * u);
    }
    let z = u * u;
    let mut t = 1.0 / 25.0;
    for k in (0..=11_u32).rev() {
        t = 1.0 / f64::from(2 * k + 1) - z * t;
    }
    let mut angle = 4.0 * (u * t);
    if y.abs() > x.abs() {
        angle = PI / 2.0 - angle;
    }
    if x.is_sign_negative() {
        angle = PI - angle;
    }
    if y.is_sign_negative() { -angle } else { angle }
}

/// The first unless the second is strictly smaller; a NaN gives way to the other.
pub fn min(a: f64, b: f64) -> f64 {
    if a.is_nan() || b < a { b } else { a }
}

/// The first unless the second is strictly larger; a NaN gives way to the other.
pub fn max(a: f64, b: f64) -> f64 {
    if a.is_nan() || b > a { b } else { a }
}

/// Half away from zero.
pub fn round(v: f64) -> f64 {
    let whole = v.trunc();
    if (v - whole).abs() >= 0.5 { whole + 1_f64.copysign(v) } else { whole }
}

#[cfg(test)]
mod tests {
    use super::*;
    use crate::random::Random;

    #[test]
    fn round_is_the_librarys() {
        let mut rng = Random::new(2);
        for _ in 0..5_000_000 {
            for v in [f64::from_bits(rng.next()), rng.between(-1e6, 1e6), rng.below(4000) as f64 / 2.0 - 1000.0] {
                let (a, b) = (round(v), v.round());
                assert!(a.to_bits() == b.to_bits() || v.is_nan(), "{v:e}");
            }
        }
    }
}
