//! The search for the reverse arrow as a part of a call of `route`, in instructions: those of its steps as callgrind
//! sees them, those around the steps estimated.

use std::collections::HashMap;

use super::calls::{Call, Case, Made, figure, sheets};
use super::counts::{callgrind, murshogi_counted};
use crate::generate::shuffled;
use crate::random::Random;
use crate::sheet::Sheet;

/// The sheets, by the lines that an arrow has at most, and the one with a hub.
const SHEETS: [&str; 6] = ["0", "1", "2", "4", "8", HUB];
const HUB: &str = "0, a hub";

/// 64 states and 256 arrows, each sheet with ends of its own; that of 8 lines is the largest sheet of the other tables.
/// From the hub, state 0, 128 arrows lead to some of the states, and 128 lead to it from the others.
fn made(name: &str) -> Made {
    let rng = &mut Random::new(19);
    match name {
        "8" => sheets().into_iter().last().unwrap(),
        HUB => {
            let mut sheet = Made::new(rng, 64, 256, 0).sheet;
            for (i, a) in sheet.arrows.iter_mut().enumerate() {
                (a.from, a.to) = if i < 128 { (0, (1 + i % 31) as u16) } else { ((32 + i % 32) as u16, 0) };
            }
            Made { lines: 0, bytes: shuffled(rng, &sheet), sheet }
        }
        lines => Made::new(rng, 64, 256, lines.parse().unwrap()),
    }
}

/// Routes a sheet once before it is counted, so that its memory is there.
pub fn routed(name: &str) {
    let mut case = Case::new("", made(name));
    case.port(Call::Route);
    murshogi_counted(&mut || case.port(Call::Route));
}

/// How often each instruction is executed, by its address.
fn counted(name: &str) -> HashMap<u64, u64> {
    let options = ["--dump-instr=yes", "--compress-strings=no", "--compress-pos=no"];
    let text = callgrind(&options, &["routed", name]);
    let mut counts = HashMap::new();
    let mut callee = false;
    for line in text.lines() {
        if line.starts_with("calls=") {
            callee = true;
        } else if let Some(words) = line.strip_prefix("0x") {
            let (address, count) = words.split_once(' ').unwrap();
            if !callee {
                let at = counts.entry(u64::from_str_radix(address, 16).unwrap()).or_insert(0);
                *at += count.parse::<u64>().unwrap();
            }
            callee = false;
        }
    }
    counts
}

/// The searches that a drawing makes, as `bend::leads` goes through the arrows: how many, how often each part of a step
/// is executed (the look at the source of the first of two arrows, that at the second's, the way to the next two), and
/// how often an arrow's target is looked at, since its source is the wanted one.
#[derive(Default)]
struct Looks {
    searches: u64,
    parts: [u64; 3],
    targets: u64,
}

impl Looks {
    /// Whether some arrow leads from a to b.
    fn search(&mut self, sheet: &Sheet, a: u16, b: u16) -> bool {
        self.searches += 1;
        let steps = sheet.arrows.chunks_exact(2);
        let last = steps.remainder();
        for two in steps {
            for (k, e) in two.iter().enumerate() {
                self.parts[k] += 1;
                if e.from == a {
                    self.targets += 1;
                    if e.to == b {
                        return true;
                    }
                }
            }
            self.parts[2] += 1;
        }
        last.iter().any(|e| e.from == a && e.to == b)
    }
}

fn looks(sheet: &Sheet) -> Looks {
    let state = |i: u16| usize::from(i) < sheet.states.len();
    let mut looks = Looks::default();
    for e in sheet.arrows.iter().filter(|e| e.from != e.to && state(e.from) && state(e.to)) {
        looks.search(sheet, e.to, e.from);
    }
    looks
}

/// Instructions of each part of a step, as the library is compiled.
const PARTS: [u64; 3] = [3, 2, 4];
/// Instructions that a search is taken to have at the target of an arrow that leaves the wanted state, and around its steps.
const AT_TARGET: u64 = 2;
const AROUND: u64 = 15;
/// The search is made for 9, and again where the curves are laid.
const TIMES: u64 = 2;

impl Looks {
    fn instructions(&self) -> u64 {
        let steps: u64 = PARTS.iter().zip(self.parts).map(|(n, times)| n * times).sum();
        steps + AT_TARGET * self.targets + AROUND * self.searches
    }
}

/// The table of parts. Where no other loop is as long by chance, callgrind has to have seen just the instructions of the
/// steps, as often as the searches take them.
pub fn print() {
    println!("| lines an arrow, at most | route, thousands | search, thousands | part |");
    println!("|---|---|---|---|");
    for name in SHEETS {
        let counts = counted(name);
        let looks = looks(&made(name).sheet);
        let seen = counts.values().filter(|n| looks.parts.contains(n)).count() as u64;
        let steps = TIMES * PARTS.iter().sum::<u64>();
        assert!(seen == steps || name == HUB, "{seen} instructions for {steps}");
        let whole: u64 = counts.values().sum();
        let search = TIMES * looks.instructions();
        let thousands = |n: u64| figure(n as f64 / 1000.0);
        println!("| {name} | {} | {} | {:.2} % |", thousands(whole), thousands(search), 100.0 * search as f64 / whole as f64);
    }
}
