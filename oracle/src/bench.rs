//! Times, a line for each thing that is timed.

#[cfg(port = "probes")]
use std::f64::consts::TAU;
use std::hint::black_box;
use std::time::Instant;

use crate::random::Random;
use crate::root;
#[cfg(port = "probes")]
use crate::standin;

#[cfg(all(port = "murshogi", not(test)))]
pub mod calls;
#[cfg(all(port = "murshogi", not(test)))]
pub mod counts;
#[cfg(all(port = "murshogi", not(test)))]
pub mod saved;
#[cfg(all(port = "murshogi", not(test)))]
pub mod search;
#[cfg(all(port = "murshogi", not(test)))]
pub mod stack;

#[cfg(port = "probes")]
unsafe extern "C" {
    safe fn murshogi_root(v: f64) -> f64;
    safe fn murshogi_rem_tau(a: f64) -> f64;
    safe fn murshogi_sin(a: f64) -> f64;
    safe fn murshogi_cos(a: f64) -> f64;
}

#[cfg(port = "probes")]
#[link(name = "m")]
unsafe extern "C" {
    safe fn fmod(a: f64, b: f64) -> f64;
}

const ROUNDS: usize = 60;

/// The least time a call over some rounds, in nanoseconds.
fn timed(inputs: &[f64], f: impl Fn(f64) -> f64) -> f64 {
    let mut least = f64::INFINITY;
    for _ in 0..ROUNDS {
        let start = Instant::now();
        for &v in inputs {
            black_box(f(black_box(v)));
        }
        let each = start.elapsed().as_nanos() as f64 / inputs.len() as f64;
        least = least.min(each);
    }
    least
}

/// The port's root, the hardware's, and a whole-number root of one bit a step, on the same inputs.
pub fn roots() {
    let rng = &mut Random::new(7);
    let squares: Vec<f64> = (0..20_000)
        .map(|_| {
            let (a, b) = (rng.between(-1000.0, 1000.0), rng.between(-1000.0, 1000.0));
            a * a + b * b
        })
        .collect();
    let whole: Vec<f64> = (0..20_000).map(|_| rng.below(1 << 20) as f64).collect();
    let any: Vec<f64> = (0..20_000).map(|_| f64::from_bits(rng.next() >> 1)).collect();
    println!("ns a call: squared distances, whole numbers, any number above 0");
    let row = |name: &str, f: &dyn Fn(f64) -> f64| {
        let t: Vec<f64> = [&squares, &whole, &any].iter().map(|list| timed(list, f)).collect();
        println!("{name:<26} {:8.2} {:8.2} {:8.2}", t[0], t[1], t[2]);
    };
    row("nothing", &|v| v);
    row("hardware", &f64::sqrt);
    row("whole numbers, bit by bit", &root::whole_root);
    #[cfg(port = "probes")]
    row("port", &|v| murshogi_root(v));
    #[cfg(not(port = "probes"))]
    println!("port                       not linked: MURSHOGI_LIB does not name libprobes.a");
    #[cfg(port = "probes")]
    for v in squares.iter().chain(&whole).chain(&any) {
        assert!(murshogi_root(*v).to_bits() == root::root(*v).to_bits(), "{v:e}");
    }
}

/// `a % TAU`, the sine and the cosine: the port's, and those over the C library's fmod, on the same angles.
#[cfg(port = "probes")]
pub fn angles() {
    let rng = &mut Random::new(9);
    let sizes = [(0.0, TAU), (TAU, 2.0 * TAU), (TAU, 100.0), (1048576.0, 9007199254740992.0)];
    let mut lists: Vec<Vec<f64>> =
        sizes.iter().map(|&(a, b)| (0..20_000).map(|_| rng.between(a, b)).collect()).collect();
    lists.push((0..20_000).map(|_| any_from_tau(rng)).collect());
    println!("ns a call: to TAU, to 2 TAU, to 100, 2^20 to 2^53, any number from TAU on");
    let row = |name: &str, f: &dyn Fn(f64) -> f64| {
        let t: Vec<String> = lists.iter().map(|list| format!("{:8.2}", timed(list, f))).collect();
        println!("{name:<26} {}", t.join(" "));
    };
    row("nothing", &|a| a);
    row("a % TAU, fmod", &|a| fmod(a, TAU));
    row("a % TAU, port", &|a| murshogi_rem_tau(a));
    row("sin over fmod", &standin::sin);
    row("sin, port", &|a| murshogi_sin(a));
    row("cos over fmod", &standin::cos);
    row("cos, port", &|a| murshogi_cos(a));
}

/// A finite number of any exponent from TAU's on.
#[cfg(port = "probes")]
fn any_from_tau(rng: &mut Random) -> f64 {
    let (from, to) = (TAU.to_bits(), f64::INFINITY.to_bits());
    f64::from_bits(from + rng.next() % (to - from))
}

/// `a % TAU` by the port and by the C library's fmod, bit for bit but for a NaN's: any bits, numbers of every size, multiples of TAU and the numbers
/// beside them. Ends with status 1 where one differs.
#[cfg(port = "probes")]
pub fn remainders(count: usize, seed: u64) {
    let rng = &mut Random::new(seed);
    let mut sorts = [0_usize; 4];
    let mut differ = 0;
    for i in 0..count {
        let a = match i % 4 {
            0 | 1 => f64::from_bits(rng.next()),
            2 => {
                let v = (rng.next() >> 11 >> rng.below(53)) as f64 * TAU;
                let beside = f64::from_bits(v.to_bits().wrapping_add_signed(rng.below(5) as i64 - 2));
                if rng.once_in(2) { -beside } else { beside }
            }
            _ => any_from_tau(rng) * if rng.once_in(2) { -1.0 } else { 1.0 },
        };
        let (port, wanted) = (murshogi_rem_tau(a), fmod(a, TAU));
        let sort = if a.abs() < TAU { 0 } else if a.abs() < 2.0 * TAU { 1 } else if a.is_finite() { 2 } else { 3 };
        sorts[sort] += 1;
        if port.to_bits() != wanted.to_bits() && !(port.is_nan() && wanted.is_nan()) {
            differ += 1;
            println!("{a:e} ({:016x}): {port:e}, fmod {wanted:e}", a.to_bits());
        }
    }
    println!(
        "{count} bit patterns: {} below TAU, {} below 2 TAU, {} beyond, {} infinite or NaN; {differ} differ",
        sorts[0], sorts[1], sorts[2], sorts[3]
    );
    std::process::exit(i32::from(differ > 0));
}

/// The port's check and the oracle's, on large sheets.
#[cfg(port = "murshogi")]
pub fn check() {
    let mut states = vec![0u8; 65536];
    states[0] = 1;
    crate::sheet::put(&mut states, 2, 4095);
    crate::sheet::put(&mut states, 4, 1);
    for k in 1..4096 {
        states[16 * k] = 1;
        crate::sheet::put(&mut states, 16 * k + 2, (k + 1) % 4096);
    }
    let rng = &mut Random::new(11);
    let full = crate::generate::from_first(rng, crate::generate::Size { states: 64, arrows: 256, lines: 8, characters: 12 });
    let full = crate::generate::shuffled(rng, &full);
    println!("microseconds a call: 4,095 states in one chain, a sheet of {} records", full.len() / 16 - 1);
    let row = |name: &str, f: &dyn Fn(&[u8]) -> u8| {
        let t: Vec<f64> = [&states, &full].iter().map(|s| timed_on(s, f)).collect();
        println!("{name:<10} {:8.1} {:8.1}   answers {} {}", t[0], t[1], f(&states), f(&full));
    };
    let limits = crate::sheet::MAIN_SCREEN;
    row("oracle", &|s| crate::calls::check(s, limits).err().unwrap_or(0));
    row("port", &|s| unsafe { crate::port::murshogi_check(s.as_ptr(), s.len(), limits.list().as_ptr()) });
}

/// The least time a call on one sheet over some rounds, in microseconds.
#[cfg(port = "murshogi")]
fn timed_on(sheet: &[u8], f: &dyn Fn(&[u8]) -> u8) -> f64 {
    let mut least = f64::INFINITY;
    for _ in 0..ROUNDS {
        let start = Instant::now();
        for _ in 0..20 {
            black_box(f(black_box(sheet)));
        }
        least = least.min(start.elapsed().as_nanos() as f64 / 20_000.0);
    }
    least
}
