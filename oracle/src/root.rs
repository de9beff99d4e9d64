//! The square root: the hardware's, and one by whole numbers.

/// The f64 nearest the exact square root of v. IEEE's square root is that number, and the
/// hardware's is IEEE's; `tests` holds it to [`whole_root`]. Zero and plus infinity give
/// themselves, a negative number and NaN give 0.
pub fn root(v: f64) -> f64 {
    if v.is_nan() || v < 0.0 { 0.0 } else { v.sqrt() }
}

/// The same from exponent and significand bits with whole numbers, one bit of the root a step.
pub fn whole_root(v: f64) -> f64 {
    const INFINITE: u64 = 0x7ff << 52;
    if v.is_nan() {
        return 0.0;
    }
    let bits = v.to_bits();
    if bits << 1 == 0 || bits == INFINITE {
        return v;
    }
    if bits >> 63 == 1 {
        return 0.0;
    }
    // v = s * 2^e
    let (mut s, mut e) = match bits >> 52 {
        0 => (bits, -1074),
        field => ((bits & ((1 << 52) - 1)) | (1 << 52), field as i64 - 1075),
    };
    while s < 1 << 52 {
        s *= 2;
        e -= 1;
    }
    // An even exponent, and a root q of s * 2^54 with 54 bits: 53 and one to round by.
    if e % 2 != 0 {
        s *= 2;
        e -= 1;
    }
    // Two bits of s * 2^54 and one of q a step; r is what is left.
    let (mut q, mut r, mut rest) = (0_u64, 0_u64, s << 10);
    for _ in 0..54 {
        r = (r << 2) | (rest >> 62);
        rest <<= 2;
        let t = (q << 2) | 1;
        q <<= 1;
        if t <= r {
            r -= t;
            q |= 1;
        }
    }
    // The root is q * 2^((e - 54) / 2). It never lies halfway: an odd q has an odd square.
    let half = (e - 54) / 2 + 1;
    let nearest = (q >> 1) + (q & 1);
    f64::from_bits((nearest as f64).to_bits().wrapping_add((half as u64) << 52))
}

#[cfg(test)]
mod tests {
    use super::*;
    use crate::random::Random;

    #[test]
    fn whole_root_is_root() {
        let mut rng = Random::new(1);
        for i in 0..20_000_000_u64 {
            let bits = rng.next();
            let v = f64::from_bits(if i % 3 == 0 { bits & 0x000f_ffff_ffff_ffff } else { bits });
            assert!(root(v).to_bits() == whole_root(v).to_bits(), "{v:e}");
        }
        for v in [0.0, -0.0, f64::INFINITY, f64::NEG_INFINITY, f64::NAN, 5e-324, f64::MAX] {
            assert!(root(v).to_bits() == whole_root(v).to_bits(), "{v:e}");
        }
    }
}
