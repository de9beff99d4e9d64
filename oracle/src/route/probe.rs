//! What the oracle asks of the routing's private parts.

use super::*;

pub type Point = (f64, f64);

fn v(p: Point) -> V {
    V::new(p.0, p.1)
}

fn p(v: V) -> Point {
    (v.x, v.y)
}

/// The curve through two, three or four points.
pub fn curve(points: &[Point]) -> Curve {
    match *points {
        [a, b] => Curve::Line(v(a), v(b)),
        [a, c, b] => Curve::Quad(v(a), v(c), v(b)),
        [a, c, d, b] => Curve::Cubic(v(a), v(c), v(d), v(b)),
        _ => unreachable!("a curve has two to four points"),
    }
}

pub fn dot(a: Point, b: Point) -> f64 {
    v(a).dot(v(b))
}

pub fn unit_or(a: Point, fallback: Point) -> Point {
    p(v(a).unit_or(v(fallback)))
}

pub fn left(a: Point) -> Point {
    p(v(a).left())
}

pub fn path(points: &[Point]) -> String {
    let mut out = String::new();
    curve(points).write_path(&mut out);
    out
}

/// The written number, or refusal 10.
pub fn number(x: f64) -> Result<String, u8> {
    if x.is_finite() && x.abs() >= 1e13 {
        return Err(10);
    }
    let mut out = String::new();
    write_num(&mut out, x);
    Ok(out)
}

/// The points of a curve.
pub fn points(c: Curve) -> Vec<Point> {
    match c {
        Curve::Line(a, b) => vec![p(a), p(b)],
        Curve::Quad(a, c, b) => vec![p(a), p(c), p(b)],
        Curve::Cubic(a, c, d, b) => vec![p(a), p(c), p(d), p(b)],
    }
}

/// The bow of the arrow between two of these centres.
pub fn bend(from: usize, to: usize, centres: &[Point], both_ways: bool) -> f64 {
    let pos: Vec<V> = centres.iter().map(|&c| v(c)).collect();
    let len = pos[from].dist(pos[to]);
    let along = (pos[to] - pos[from]).unit_or(V::new(1.0, 0.0));
    super::bend(from, to, &pos, len, along, both_ways)
}
