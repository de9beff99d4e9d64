//! Cases of written numbers.

use super::Calls;
use super::float::{any, beside};
use crate::calls::write_num;
use crate::random::Random;

pub fn cases(c: &mut Calls) {
    let rng = &mut Random::new(404);
    for (i, v) in numbers(rng).into_iter().enumerate() {
        let length = write_num(v, usize::MAX).map_or(0, |t| t.len());
        let rooms = match i % 40 {
            0 => vec![32, 0],
            1 => vec![length],
            2 => vec![length.saturating_sub(1)],
            3 => vec![rng.below(length + 1)],
            _ => vec![32],
        };
        for room in rooms {
            c.written(v, room);
        }
    }
}

fn numbers(rng: &mut Random) -> Vec<f64> {
    let mut list = super::float::BORDERS.to_vec();
    list.extend([-0.004, 12.5, 1.005, 0.005, -0.005, 0.015, 1e12, -1e12, 123.456, 1e13, -1e13]);
    for base in [1e13_f64, -1e13, 9_999_999_999_999.99, 9_999_999_999_999.5, 1e12] {
        for step in -6..=6 {
            list.push(beside(base, step));
        }
    }
    // Halves of hundredths, and one unit in the last place beside them.
    for _ in 0..450 {
        let size = rng.pick(&[10, 1000, 100_000, 100_000_000]);
        let v = (rng.below(size) as f64 + 0.5) / 100.0;
        let v = if rng.once_in(2) { -v } else { v };
        list.extend([v, beside(v, 1), beside(v, -1)]);
    }
    // Whole hundredths, tenths and numbers.
    for _ in 0..250 {
        let n = rng.below(2_000_001) as f64 - 1e6;
        list.extend([n / 100.0, n / 10.0, n]);
    }
    // Every power of ten, and digits of every count before and after the point.
    for e in -20..20 {
        let v = 10_f64.powi(e);
        list.extend([v, -v, beside(v, 1), beside(v, -1), 9.99 * v, 5.05 * v]);
    }
    for _ in 0..400 {
        let e = rng.below(13) as i32;
        list.push(rng.between(-1.0, 1.0) * 10_f64.powi(e));
    }
    list.extend((0..150).map(|_| rng.between(9e12, 1.0001e13)));
    list.extend((0..120).map(|_| any(rng)));
    list.extend((0..60).map(|_| f64::from_bits(rng.next() >> 13)));
    list
}
