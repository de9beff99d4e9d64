//! Drawings on both sides of a border: something is moved until the routing, or the clutter count, jumps
//! from one f64 to the next. Some borders are named, the others are those that a small drawing on a grid
//! meets. Boxes have whole coordinates where a label's characters are 12 wide, so that the border is met
//! exactly.

use super::{Calls, Drawn, plenty};
use crate::calls;
use crate::generate::{full_pieces, shuffled, starts};
use crate::random::Random;
use crate::route::probe::Point;
use crate::sheet::{Arrow, Line, MAIN_SCREEN, Sheet};

/// A jump is larger than what moving something by one unit in the last place brings about.
const JUMP: f64 = 1e-4;

pub fn cases(c: &mut Calls) {
    let rng = &mut Random::new(515);
    let named = named();
    let found = named.iter().filter(|b| both_sides(c, rng, b)).count();
    println!("named borders met: {found} of {}", named.len());
    equal_gaps(c, rng);
    for i in 0..310 {
        let border = gridded(rng, i);
        both_sides(c, rng, &border);
    }
}

/// A drawing that depends on a number, and the numbers between which it is looked at.
struct Border {
    lo: f64,
    hi: f64,
    counted: bool,
    scene: Box<dyn Fn(f64) -> Scene>,
}

#[derive(Clone)]
struct Scene {
    states: Vec<u8>,
    centres: Vec<Point>,
    arrows: Vec<Arrow>,
}

impl Scene {
    fn new(centres: &[Point]) -> Self {
        Self { states: vec![0; centres.len()], centres: centres.to_vec(), arrows: vec![] }
    }

    /// An arrow with so many lines of so many characters that are 12 wide.
    fn arrow(mut self, from: usize, to: usize, lines: usize, characters: usize) -> Self {
        let line = full_pieces("↦".repeat(characters).as_bytes());
        self.arrows.push(Arrow { from: from as u16, to: to as u16, lines: vec![line; lines] });
        self
    }

    fn drawn(self, rng: &mut Random) -> Drawn {
        let sheet = Sheet { states: self.states, arrows: self.arrows };
        Drawn {
            sheet: shuffled(rng, &sheet),
            xs: self.centres.iter().map(|p| p.0).collect(),
            ys: self.centres.iter().map(|p| p.1).collect(),
        }
    }
}

/// What is compared: the records, or the count.
fn answer(border: &Border, v: f64) -> Vec<f64> {
    let d = (border.scene)(v).drawn(&mut Random::new(1));
    if border.counted {
        calls::clutter(&d.sheet, MAIN_SCREEN, &d.xs, &d.ys).map_or(vec![], |n| vec![n as f64])
    } else {
        calls::route(&d.sheet, MAIN_SCREEN, &d.xs, &d.ys, (usize::MAX, usize::MAX)).map_or(vec![], |r| r.records)
    }
}

/// The largest difference of two answers.
fn apart(a: &[f64], b: &[f64]) -> f64 {
    if a.len() != b.len() {
        return f64::INFINITY;
    }
    a.iter().zip(b).map(|(p, q)| (p - q).abs()).fold(0.0, f64::max)
}

/// Two neighbouring numbers between which the answer jumps.
fn jump(border: &Border) -> Option<(f64, f64)> {
    let (mut lo, mut hi) = (border.lo, border.hi);
    let (mut low, mut high) = (answer(border, lo), answer(border, hi));
    loop {
        let mid = lo + (hi - lo) / 2.0;
        if !(lo < mid && mid < hi) {
            return (apart(&low, &high) > JUMP).then_some((lo, hi));
        }
        let middle = answer(border, mid);
        if apart(&low, &middle) > apart(&middle, &high) {
            (hi, high) = (mid, middle);
        } else {
            (lo, low) = (mid, middle);
        }
    }
}

/// The call on both sides of the border, if there is one.
fn both_sides(c: &mut Calls, rng: &mut Random, border: &Border) -> bool {
    let Some((lo, hi)) = jump(border) else { return false };
    for v in [lo, hi] {
        let d = (border.scene)(v).drawn(rng);
        if border.counted {
            c.clutter(&d);
        } else {
            c.route(&d, plenty);
        }
    }
    true
}

fn routed(lo: f64, hi: f64, scene: impl Fn(f64) -> Scene + 'static) -> Border {
    Border { lo, hi, counted: false, scene: Box::new(scene) }
}

fn counted(lo: f64, hi: f64, scene: impl Fn(f64) -> Scene + 'static) -> Border {
    Border { lo, hi, counted: true, scene: Box::new(scene) }
}

fn named() -> Vec<Border> {
    [near_states(), near_labels(), near_traces(), crossings(), slants(), directions()].into_iter().flatten().collect()
}

/// A state 26 from a label's box, above it or off its corner; and 24 from a label that is too near to a state
/// wherever it goes.
fn near_states() -> Vec<Border> {
    // The box is 88 .. 112, -19 .. -4.
    let level = |p: Point| Scene::new(&[(0.0, 0.0), (200.0, 0.0), p]).arrow(0, 1, 1, 2);
    let held = |up: f64, down: f64| {
        Scene::new(&[(0.0, 0.0), (200.0, 0.0), (100.0, up), (100.0, down)]).arrow(0, 1, 1, 11)
    };
    vec![
        routed(-60.0, -40.0, move |v| level((100.0, v))),
        routed(-60.0, -40.0, move |v| level((122.0, v))),
        routed(-60.0, -20.0, move |v| level((136.0, v))),
        counted(-45.0, -35.0, move |v| held(v, 42.0)),
        counted(-45.0, -35.0, move |v| held(v, -v)),
    ]
}

/// Labels one above the other, 4 apart, and side by side, a character apart.
fn near_labels() -> Vec<Border> {
    let labels = |x: f64, y: f64| {
        Scene::new(&[(0.0, 0.0), (100.0, 0.0), (x, y), (x + 100.0, y)]).arrow(0, 1, 1, 16).arrow(2, 3, 1, 24)
    };
    vec![routed(10.0, 30.0, move |v| labels(230.0, v)), routed(235.0, 260.0, move |v| labels(v, 0.0))]
}

/// A trace along an edge of a label's widened box, and through each of its corners, either way.
fn near_traces() -> Vec<Border> {
    // From x, y the box is -54 .. 194, -128 .. 0.
    let tall = |x: f64, y: f64, a: Point, b: Point| {
        Scene::new(&[(x, y), (x + 140.0, y), a, b]).arrow(0, 1, 8, 20).arrow(2, 3, 0, 0)
    };
    let mut list = vec![
        routed(-140.0, -110.0, move |v| tall(0.0, 0.0, (-300.0, v), (400.0, v))),
        routed(180.0, 210.0, move |v| tall(0.0, 0.0, (v, -300.0), (v, 300.0))),
        routed(-70.0, -50.0, move |v| tall(0.0, 0.0, (v, 300.0), (v, -300.0))),
    ];
    // The corner stands at 200, 200 or at 200, -200, so that both coordinates round alike.
    for (x, y, down) in [(6.0, 328.0, 400.0), (254.0, 200.0, 400.0), (254.0, -72.0, -400.0), (6.0, -200.0, -400.0)] {
        let (a, b) = ((0.0, 0.0), (400.0, down));
        list.push(routed(-1.0, 1.0, move |v| tall(x + v, y, a, b)));
        list.push(routed(-1.0, 1.0, move |v| tall(x + v, y, b, a)));
    }
    // An upright arrow whose label is beside a start arrow.
    for (characters, up) in [(1, 100.0), (2, -100.0), (3, 100.0)] {
        list.push(routed(-110.0, -60.0, move |v| {
            let mut s = Scene::new(&[(v, up), (v, -up), (0.0, 0.0)]).arrow(0, 1, 1, characters);
            s.states[2] = 1;
            s
        }));
    }
    list
}

/// Arcs that a line crosses in a point of their samples.
fn crossings() -> Vec<Border> {
    let crossed = |x: f64| {
        let list = [(0.0, 0.0), (140.0, 0.0), (x, -200.0), (x, 200.0)];
        Scene::new(&list).arrow(0, 1, 0, 0).arrow(1, 0, 0, 0).arrow(2, 3, 0, 0)
    };
    vec![counted(60.0, 70.0, crossed), counted(70.0, 80.0, crossed)]
}

/// The side of an upright arrow, the anchor of a label beside a slanting one, and a steep arc that keeps just half
/// the clearance from a third state.
fn slants() -> Vec<Border> {
    let mut list = Vec::new();
    for (sign, y, lines) in [(1.0, -200.0_f64, 1), (-1.0, 200.0, 3), (1.0, -150.0, 2), (-1.0, 260.0, 1), (1.0, -333.0, 0), (-1.0, 77.0, 1)] {
        let slanting = move |x, y| Scene::new(&[(0.0, 0.0), (x, y)]).arrow(0, 1, lines, 3);
        list.push(routed(0.0, 4e-9 * y.abs(), move |v| slanting(sign * v, y)));
        for side in [1.0, -1.0] {
            let (lo, hi) = (0.15 * y.abs(), 0.25 * y.abs());
            list.push(routed(lo, hi, move |v| slanting(y, side * v)));
            list.push(routed(lo, hi, move |v| slanting(side * v, y)));
        }
    }
    for (len, x) in [(60.0, -10.0), (60.0, -4.0), (50.0, -8.0), (70.0, -12.0), (40.0, -6.0), (80.0, -15.0)] {
        list.push(routed(10.0, 40.0, move |v| {
            Scene::new(&[(0.0, 0.0), (len, 0.0), (x, v)]).arrow(0, 1, 0, 0).arrow(1, 0, 0, 0)
        }));
    }
    list
}

/// Point p after so many right angles.
fn turned((x, y): Point, turns: usize) -> Point {
    match turns {
        0 => (x, y),
        1 => (-x, -y),
        2 => (-y, x),
        _ => (y, -x),
    }
}

/// Of a loop: an arrow 1.25 from one of the first directions, a state 25 away, and a gap of 1.5.
fn directions() -> Vec<Border> {
    let mut list = Vec::new();
    for turns in 0..4 {
        for other in [(0.0, 200.0), (-200.0, -60.0), (-200.0, 60.0)] {
            list.push(routed(-100.0, -40.0, move |v| {
                let list = [(0.0, 0.0), turned((200.0, v), turns), turned(other, turns)];
                Scene::new(&list).arrow(0, 0, 1, 2).arrow(0, 1, 0, 0).arrow(2, 0, 0, 0)
            }));
        }
        // States nearer to the loops in the other three directions.
        list.push(routed(70.0, 90.0, move |v| {
            let list = [(0.0, 0.0), (0.0, -60.0), (0.0, v), (60.0, 0.0), (-60.0, 0.0)].map(|p| turned(p, turns));
            Scene::new(&list).arrow(0, 0, 0, 0)
        }));
    }
    // A state in the gap; the other gaps are too narrow.
    list.push(routed(100.0, 300.0, |v| {
        let around = [(200.0, -v), (200.0, v), (-20.0, 200.0), (-200.0, 60.0), (-200.0, -60.0), (-20.0, -200.0)];
        let mut list = vec![(0.0, 0.0), (62.0, 0.0)];
        list.extend(around);
        (2..list.len()).fold(Scene::new(&list).arrow(0, 0, 0, 0), |s, k| s.arrow(0, k, 0, 0))
    }));
    list
}

/// Loops of a state whose arrows leave gaps of which several are equal.
fn equal_gaps(c: &mut Calls, rng: &mut Random) {
    let around = [(200.0, 0.0), (150.0, 150.0), (0.0, 200.0), (-150.0, 150.0), (-200.0, 0.0), (-150.0, -150.0), (0.0, -200.0), (150.0, -150.0)];
    for _ in 0..90 {
        let mut centres = vec![(0.0, 0.0)];
        centres.extend(around.iter().filter(|_| rng.once_in(2)));
        let mut scene = Scene::new(&centres).arrow(0, 0, rng.below(3), 2);
        for k in 1..centres.len() {
            scene = if rng.once_in(2) { scene.arrow(0, k, 0, 0) } else { scene.arrow(k, 0, 0, 0) };
        }
        if rng.once_in(2) {
            scene = scene.arrow(0, 0, rng.below(3), 2);
        }
        scene.states[0] = u8::from(rng.once_in(3));
        c.route(&scene.drawn(rng), plenty);
    }
}

/// Lines of characters that are 12 wide, or of others.
fn label(rng: &mut Random) -> Vec<Line> {
    let n = rng.pick(&[0, 1, 1, 2, 3, 8]);
    let long = rng.below(7);
    let wide = !rng.once_in(3);
    (0..n).map(|_| full_pieces(if wide { "↦".repeat(long) } else { "a".repeat(long) }.as_bytes())).collect()
}

/// Two to six states on a grid, with arrows: a level one with a label and others, those of a state with loops, or any.
fn grid(rng: &mut Random, i: usize) -> Scene {
    let n = 2 + rng.below(5);
    let cell = rng.pick(&[10.0, 26.0, 35.0, 70.0]);
    let centres: Vec<Point> = (0..n).map(|_| (rng.below(9) as f64 * cell, rng.below(9) as f64 * cell)).collect();
    let mut scene = Scene::new(&centres);
    starts(rng, &mut scene.states);
    match i % 5 {
        0 | 1 => (scene.centres[0], scene.centres[1]) = ((0.0, 0.0), (rng.pick(&[120.0, 144.0, 200.0, 300.0]), 0.0)),
        2 => scene.centres[0] = (140.0, 140.0),
        _ => {}
    }
    let ends: Vec<(usize, usize)> = match i % 5 {
        0 | 1 => std::iter::once((0, 1)).chain((0..rng.below(3)).map(|_| (rng.below(n), rng.below(n)))).collect(),
        2 => (0..n).map(|k| if rng.once_in(2) { (0, k) } else { (k, 0) }).collect(),
        _ => (0..2 + rng.below(7)).map(|_| (rng.below(n), rng.below(n))).collect(),
    };
    for (from, to) in ends {
        scene.arrows.push(Arrow { from: from as u16, to: to as u16, lines: label(rng) });
    }
    scene
}

/// A drawing on a grid, and a coordinate that is moved until something jumps.
fn gridded(rng: &mut Random, i: usize) -> Border {
    let scene = grid(rng, i);
    let (k, level) = (rng.below(scene.centres.len()), rng.once_in(2));
    let first = if level { scene.centres[k].0 } else { scene.centres[k].1 };
    let step = rng.pick(&[0.5, 1.5, 4.0, 7.0]);
    let moved = move |v: f64| {
        let mut s = scene.clone();
        *(if level { &mut s.centres[k].0 } else { &mut s.centres[k].1 }) = v;
        s
    };
    let mut border = Border { lo: first, hi: first + step, counted: i % 4 == 3, scene: Box::new(moved) };
    let least = if border.counted { 0.5 } else { 4.0 * step };
    for _ in 0..24 {
        if apart(&answer(&border, border.lo), &answer(&border, border.hi)) > least {
            break;
        }
        (border.lo, border.hi) = (border.hi, border.hi + step);
    }
    border
}
