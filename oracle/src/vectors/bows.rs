//! Routings at the borders of the search for a bow: states 0 and 1 are the ends of an arrow, or of a
//! two-way pair, and the others stand beside it.

use super::{Calls, Drawn, plenty};
use crate::generate::{centres, line, shuffled};
use crate::random::Random;
use crate::route::probe::{self, Point};
use crate::sheet::{Arrow, Sheet};

const WAYS: usize = 9;
/// The way whose bows end beside 10^9.
const LIMIT: usize = 5;

pub fn cases(c: &mut Calls) {
    let rng = &mut Random::new(606);
    for i in 0..700 {
        let list = positions(rng, i);
        // Near 10^9 it is the two-way pair from state 0 that is tried.
        let limit = i % WAYS == LIMIT;
        let (from, to) = if !limit && rng.once_in(4) { (1, 0) } else { (0, 1) };
        let both = rng.once_in(2) || (limit && !rng.once_in(8));
        c.route(&joined(rng, &list, (from, to), both), plenty);
    }
    for by in -2..=3 {
        let least = next(1e-9, by);
        for (x, y) in [(least, 0.0), (0.0, -least)] {
            c.route(&joined(rng, &[(0.0, 0.0), (x, y)], (0, 1), by % 2 == 0), plenty);
        }
    }
    for i in 0..160 {
        let list = beside(rng, i);
        let from = rng.below(list.len());
        let to = (from + 1 + rng.below(list.len() - 1)) % list.len();
        let both = rng.once_in(2);
        c.route(&joined(rng, &list, (from, to), both), plenty);
    }
}

/// An arrow between two of these centres, now and then with a label, or one each way.
fn joined(rng: &mut Random, centres: &[Point], (from, to): (usize, usize), both: bool) -> Drawn {
    let lines = if rng.once_in(3) { vec![line(rng, 4)] } else { vec![] };
    let arrow = |from, to| Arrow { from: from as u16, to: to as u16, lines: lines.clone() };
    let mut arrows = vec![arrow(from, to)];
    if both {
        arrows.push(arrow(to, from));
    }
    let sheet = Sheet { states: vec![0; centres.len()], arrows };
    Drawn {
        sheet: shuffled(rng, &sheet),
        xs: centres.iter().map(|p| p.0).collect(),
        ys: centres.iter().map(|p| p.1).collect(),
    }
}

/// Two or more centres, each finite: beside the line between the first two, or anywhere.
fn beside(rng: &mut Random, i: usize) -> Vec<Point> {
    let n = if i % 40 == 0 { 2 + rng.below(63) } else { 2 + rng.below(9) };
    if i % 3 == 0 {
        let length = rng.between(40.0, 600.0);
        let mut list = vec![(0.0, 0.0), (length, 0.0)];
        list.extend((2..n).map(|_| (rng.between(-20.0, length), rng.pick(&[0.0, 5.0, 31.0, 32.0, 40.0, 70.0, -33.0]))));
        return list;
    }
    let sheet = Sheet { states: vec![0; n], arrows: vec![] };
    let (x, y) = centres(rng, &sheet);
    let clean = |list: &[f64], k: usize| match list.get(k) {
        Some(v) if v.is_finite() && v.abs() <= 1_048_576.0 => *v,
        _ => 0.0,
    };
    (0..n).map(|k| (clean(&x, k), clean(&y, k))).collect()
}

/// The centres of the way `i % WAYS`, each finite.
fn positions(rng: &mut Random, i: usize) -> Vec<Point> {
    let list = match i % WAYS {
        0 => coincident(rng),
        1 => collinear(rng),
        2 => nearly_coincident(rng),
        3 => subnormal(rng),
        4 => nearly_square(rng),
        LIMIT => beside_the_limit(rng),
        6 => without_rise(rng),
        7 => chained(rng, i),
        _ => touching(rng),
    };
    let mirror = i % WAYS != LIMIT && rng.once_in(2);
    turned(rng, list, mirror)
}

/// The same centres after a turn by right angles, and a mirror, which round nothing.
fn turned(rng: &mut Random, list: Vec<Point>, mirror: bool) -> Vec<Point> {
    let (swap, dx) = (rng.once_in(2), rng.pick(&[1.0, -1.0]));
    let dy = if swap == mirror { dx } else { -dx };
    list.iter()
        .map(|&(x, y)| if swap { (dx * y, dy * x) } else { (dx * x, dy * y) })
        .collect()
}

fn next(v: f64, by: i64) -> f64 {
    f64::from_bits(v.to_bits().wrapping_add(by as u64))
}

/// The two ends in one place; the others there too, or around it.
fn coincident(rng: &mut Random) -> Vec<Point> {
    let at = (rng.between(-300.0, 300.0).round(), rng.between(-300.0, 300.0));
    let mut list = vec![at, at];
    for _ in 0..rng.below(6) {
        let (x, y) = rng.pick(&[(0.0, 0.0), (10.0, 0.0), (0.0, 31.0), (-3.0, 4.0), (200.0, 1.0)]);
        list.push((at.0 + x, at.1 + y));
    }
    list
}

/// All on one line, at steps that repeat, between the ends and beyond them.
fn collinear(rng: &mut Random) -> Vec<Point> {
    let (dx, dy) = rng.pick(&[(1.0, 0.0), (3.0, 4.0), (0.1, 0.3), (1.0, 1.0), (-5.0, 12.0), (1e-3, 7.0)]);
    let (x, y) = (rng.between(-50.0, 50.0), rng.pick(&[0.0, 0.1, 1e5]));
    let step = rng.pick(&[1.0, 10.0, 33.3]);
    let far = 2.0 + rng.below(20) as f64;
    let mut list = vec![(x, y), (x + dx * step * far, y + dy * step * far)];
    for _ in 0..1 + rng.below(8) {
        let k = rng.below(26) as f64 - 2.0;
        list.push((x + dx * step * k, y + dy * step * k));
    }
    list
}

/// The ends apart by about the length below which two points count as the same, or by a length
/// whose square is not normal.
fn nearly_coincident(rng: &mut Random) -> Vec<Point> {
    let size = rng.pick(&[1e-9, 1e-9, 1e-160, 1e-162, 1e-154, 1e-8]);
    let small = |rng: &mut Random| {
        let v = size * rng.pick(&[1.0, 0.5, 0.0, 2.0, -1.0, 0.7, 1.4]);
        if rng.once_in(3) { next(v, rng.below(3) as i64) } else { v }
    };
    let end = (small(rng), rng.pick(&[0.0, 0.0, 1.0]) * small(rng));
    let mut list = vec![(0.0, 0.0), end];
    for _ in 0..rng.below(6) {
        let p = match rng.below(3) {
            0 => (small(rng), small(rng)),
            1 => (small(rng) * 0.5, rng.pick(&[32.0, -32.0, 31.0, 33.0, 5.0])),
            _ => (rng.between(-40.0, 40.0), rng.between(-40.0, 40.0)),
        };
        list.push(p);
    }
    list
}

/// States a subnormal number away from an end, along or across; the ends apart by an ordinary
/// length or a subnormal one.
fn subnormal(rng: &mut Random) -> Vec<Point> {
    let tiny = |rng: &mut Random| rng.pick(&[5e-324, 1e-323, 1e-310, 3e-315, 2.2e-308, -5e-324, 0.0]);
    let end = match rng.below(3) {
        0 => (tiny(rng), tiny(rng)),
        1 => (140.0, tiny(rng)),
        _ => (rng.between(20.0, 700.0), 0.0),
    };
    let mut list = vec![(0.0, 0.0), end];
    for _ in 0..1 + rng.below(5) {
        let y = rng.pick(&[0.0, 1.0, 20.0, 31.0, 32.0, -32.0, 40.0, 1e-310]);
        let p = match rng.below(3) {
            0 => (tiny(rng), y),
            1 => (rng.between(0.0, end.0.max(1.0)), tiny(rng)),
            _ => (tiny(rng), tiny(rng)),
        };
        list.push(p);
    }
    list
}

/// States all but square to an end of the chord, a little inside or outside.
fn nearly_square(rng: &mut Random) -> Vec<Point> {
    let (a, b) = ((0.0, 0.0), (rng.between(-400.0, 400.0), rng.pick(&[0.0, 1.0, 150.0, -77.7])));
    let along = probe::unit_or(b, (1.0, 0.0));
    let left = probe::left(along);
    let mut list = vec![a, b];
    for _ in 0..1 + rng.below(5) {
        let s = rng.pick(&[1e-300, 1e-30, 1e-16, 1e-12, 1e-9, 1e-6, 1e-3, 0.0, -1e-12]);
        let q = rng.pick(&[20.0, 31.0, 32.0, -32.0, 33.0, -20.0, 45.0]) + rng.pick(&[0.0, 1e-14, 0.5]);
        let (end, s) = if rng.once_in(2) { (a, s) } else { (b, -s) };
        list.push((end.0 + along.0 * s + left.0 * q, end.1 + along.1 * s + left.1 * q));
    }
    list
}

/// The upper end of the bows that a state at (s, y) blocks on the chord from the origin to (len, 0).
fn upper(len: f64, s: f64, y: f64) -> f64 {
    let t = s / len;
    (probe::dot((s, y), probe::left((1.0, 0.0))) + 32.0) / (2.0 * t * (1.0 - t))
}

/// A state whose blocked bows end at 10^9, or a few units in the last place below or above; others
/// whose bows chain into that.
fn beside_the_limit(rng: &mut Random) -> Vec<Point> {
    let len = rng.pick(&[128.0, 140.0, 64.5, 500.0, 1024.0]);
    let y = rng.pick(&[0.0, 31.0, -31.0, 10.5, -20.25, 3.0]);
    let across = upper(len, len / 2.0, y) / 2.0 - 32.0;
    let guess = (across + 32.0) * len / 2e9;
    let off = rng.pick(&[0, 0, 0, 1, -1, 1, -1, 2, -3, 1000]);
    let wanted = next(1e9, off);
    let near = (-40..=40).map(|k| next(guess, k));
    let s = near.clone().find(|&s| upper(len, s, y) == wanted);
    let s = s.or_else(|| wider(len, y, guess, wanted)).unwrap_or(guess);
    let mut list = vec![(0.0, 0.0), (len, 0.0), (s, y)];
    for _ in 0..rng.below(3) {
        list.push((rng.between(10.0, len), rng.pick(&[5.0, -5.0, 20.0, -20.0])));
    }
    list
}

/// The place by halving, where it is not beside the guess.
fn wider(len: f64, y: f64, guess: f64, wanted: f64) -> Option<f64> {
    let (mut lo, mut hi) = ((guess * 0.99).to_bits(), (guess * 1.01).to_bits());
    while lo + 1 < hi {
        let mid = lo + (hi - lo) / 2;
        if upper(len, f64::from_bits(mid), y) > wanted { lo = mid } else { hi = mid }
    }
    let found = f64::from_bits(hi);
    (-8..=8).map(|k| next(found, k)).find(|&s| upper(len, s, y) == wanted)
}

/// A state so near to being square to an end that the rise is 0, exactly 32 away or beside that: one
/// end of its interval is NaN, the other infinite.
fn without_rise(rng: &mut Random) -> Vec<Point> {
    let len = rng.pick(&[140.0, 60.0, 1000.0, 3.0]);
    let mut list = vec![(0.0, 0.0), (len, 0.0)];
    for _ in 0..1 + rng.below(3) {
        let y = match rng.below(5) {
            0 => 32.0,
            1 => -32.0,
            2 => rng.pick(&[next(32.0, 1), next(32.0, -1), next(-32.0, 1), next(-32.0, -1)]),
            3 => rng.pick(&[31.0, 0.0, -40.0]),
            _ => rng.pick(&[32.0, -32.0]),
        };
        list.push((rng.pick(&[5e-324, 5e-324, 1e-323, 1e-322]), y));
    }
    for _ in 0..rng.below(3) {
        list.push((rng.between(1.0, len), rng.between(-40.0, 40.0)));
    }
    list
}

/// States whose bows touch 0, the first bow tried, or each other, exactly or all but.
fn touching(rng: &mut Random) -> Vec<Point> {
    let len = rng.pick(&[64.0, 128.0, 256.0, 512.0]);
    let mut list = vec![(0.0, 0.0), (len, 0.0)];
    for _ in 0..1 + rng.below(6) {
        // At half the chord the rise is 1/2: the interval is 2(y - 32) to 2(y + 32).
        let y = rng.pick(&[32.0, -32.0, 44.0, -44.0, 20.0, -20.0, 0.0, 46.0, -46.0, 64.0, -64.0]);
        let y = if rng.once_in(3) { next(y, rng.pick(&[1, -1])) } else { y };
        let y = if y.is_finite() { y } else { 0.0 };
        list.push((len * rng.pick(&[0.5, 0.5, 0.25, 0.75]), y));
    }
    list
}

/// States beside the middle of the chord, in any order, whose bows overlap or touch in a chain: as many
/// moves as states, in one pass or in many.
fn chained(rng: &mut Random, i: usize) -> Vec<Point> {
    let len = rng.pick(&[64.0, 128.0, 256.0, 1024.0]);
    let step = rng.pick(&[64.0, 60.0, 33.0, 64.5, 20.0]);
    let n = if i % 90 == 7 { 62 } else { 1 + rng.below(8) };
    let first = rng.pick(&[0.0, -32.0, 12.0, -20.0]);
    let mut list: Vec<Point> = (0..n).map(|k| (len / 2.0, first + k as f64 * step)).collect();
    if rng.once_in(2) {
        list = list.iter().map(|&(x, y)| (x, -y)).collect();
    }
    match rng.below(3) {
        0 => rng.shuffle(&mut list),
        1 => list.reverse(),
        _ => {}
    }
    list.splice(0..0, [(0.0, 0.0), (len, 0.0)]);
    list
}
