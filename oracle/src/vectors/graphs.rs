//! Routings, clutter counts and layouts of drawings of every size.

use super::{Calls, Drawn, plenty};
use crate::generate::{SORTS, Size, centres, sheet, shuffled, sort_of_starts};
use crate::random::Random;
use crate::sheet::{MAIN_SCREEN, read};

/// All in one place, on one line, or none given.
fn hostile(rng: &mut Random, n: usize) -> (Vec<f64>, Vec<f64>) {
    let (x, y) = (rng.between(-500.0, 500.0), rng.pick(&[0.0, -0.0, 17.5, f64::NAN]));
    let step = rng.pick(&[0.0, 1e-12, 3.0, 44.0, 70.0]);
    match rng.below(4) {
        0 => (vec![x; n], vec![y; n]),
        1 => ((0..n).map(|i| x + i as f64 * step).collect(), vec![y; n]),
        2 => {
            let along = |k: f64| (0..n).map(|i| i as f64 * k * step).collect();
            (along(1.0), along(0.5))
        }
        _ => (vec![], vec![]),
    }
}

/// Sizes from nothing to 64 states and 256 arrows, most of them small.
pub fn size(rng: &mut Random) -> Size {
    match rng.below(24) {
        0 => Size { states: rng.below(65), arrows: rng.below(257), lines: 4, characters: 12 },
        1 => Size { states: 64, arrows: rng.below(65), lines: 2, characters: 12 },
        2..=5 => Size { states: rng.below(25), arrows: rng.below(60), lines: 4, characters: 20 },
        6 => Size { states: rng.below(2), arrows: rng.below(12), lines: 3, characters: 12 },
        _ => Size { states: 1 + rng.below(9), arrows: rng.below(18), lines: 3, characters: 16 },
    }
}

/// A sheet and centres that no refusal but 9 stops.
pub fn drawn(rng: &mut Random, size: Size) -> Drawn {
    let list = sheet(rng, size);
    let n = list.states.len();
    let (xs, ys) = if rng.once_in(15) { hostile(rng, n) } else { centres(rng, &list) };
    let within = |list: Vec<f64>| -> Vec<f64> {
        let far = |v: f64| v.is_finite() && v.abs() > 1_048_576.0;
        let near = |v: f64| if far(v) { 1_048_576.0_f64.copysign(v) } else { v };
        list.into_iter().take(n).map(near).collect()
    };
    Drawn { sheet: shuffled(rng, &list), xs: within(xs), ys: within(ys) }
}

pub fn cases(c: &mut Calls) {
    let rng = &mut Random::new(808);
    let mut starts = [0; SORTS.len()];
    for i in 0..160 {
        let size = match i {
            // The largest, and nothing at all.
            0 => Size { states: 64, arrows: 256, lines: 2, characters: 12 },
            1 => Size { states: 0, arrows: 0, lines: 0, characters: 0 },
            2 => Size { states: 0, arrows: 5, lines: 1, characters: 3 },
            3 => Size { states: 64, arrows: 64, lines: 1, characters: 8 },
            _ => {
                let s = size(rng);
                Size { arrows: s.arrows.min(120), lines: s.lines.min(3), characters: s.characters.min(10), ..s }
            }
        };
        let d = drawn(rng, size);
        starts[sort_of_starts(&read(&d.sheet, MAIN_SCREEN).unwrap().graph())] += 1;
        c.route(&d, plenty);
        c.layout(&d, [0, 1, 0, 2][i % 4], plenty);
        if i % 2 == 0 {
            c.clutter(&d);
        }
    }
    println!("graphs, by starts: {:?}", SORTS.iter().zip(starts).collect::<Vec<_>>());
}
