//! Differential runs: more cases of the vectors' form, which the proved program `vectors` compares.
//! The program is `crates/vectors/out/vectors` below the working directory, or the command in the environment
//! variable `MURSHOGI_VECTORS`, its words parted by blanks.

use std::collections::BTreeMap;
use std::io::Write;
use std::process::{Command, Stdio};

use crate::calls::{Turns, bowed, turns};
use crate::generate::{SORTS, sort_of_starts};
use crate::random::Random;
use crate::route::geometry;
use crate::sheet::{MAIN_SCREEN, read};
use crate::vectors::graphs::{drawn, size};
use crate::vectors::{Calls, Stream, plenty};

/// Drawings in one run of the program.
const RUN: usize = 500;

/// The lines of the program's report on a stream: the name of each kind of case, how many cases
/// there were and how many differ.
fn compared(stream: Vec<u8>) -> BTreeMap<String, (usize, usize)> {
    let path = std::env::var("MURSHOGI_VECTORS").unwrap_or("crates/vectors/out/vectors".to_string());
    let words: Vec<&str> = path.split_whitespace().collect();
    let mut program = Command::new(words[0])
        .args(&words[1..])
        .stdin(Stdio::piped())
        .stdout(Stdio::piped())
        .spawn()
        .unwrap_or_else(|e| panic!("{path}: {e}; MURSHOGI_VECTORS is the command"));
    let mut input = program.stdin.take().unwrap();
    let writer = std::thread::spawn(move || input.write_all(&stream));
    let output = program.wait_with_output().unwrap();
    // A program that ends before the stream does says so in its output.
    let _ = writer.join().unwrap();
    let text = String::from_utf8(output.stdout).unwrap();
    assert!(text.ends_with("the stream is complete\n"), "{path} says:\n{text}");
    let number = |s: &str| s.trim().split(' ').next().unwrap().parse().unwrap();
    text.lines()
        .filter_map(|l| l.split_once(": "))
        .map(|(name, rest)| {
            let (cases, differ) = rest.split_once(", ").unwrap();
            (name.trim().to_string(), (number(cases), number(differ)))
        })
        .collect()
}

/// What was made, and what the program said of it.
#[derive(Default)]
struct Runs {
    made: BTreeMap<&'static str, usize>,
    found: BTreeMap<String, (usize, usize)>,
    /// How many graphs had each sort of starts.
    starts: [usize; SORTS.len()],
    out: Stream,
}

impl Runs {
    fn made(&mut self, name: &'static str) {
        *self.made.entry(name).or_default() += 1;
    }

    fn compare(&mut self) {
        for (name, (cases, differ)) in compared(std::mem::take(&mut self.out).end()) {
            let sum = self.found.entry(name).or_default();
            *sum = (sum.0 + cases, sum.1 + differ);
        }
    }

    /// Prints the counts; ends the program where a case differs or was not compared.
    fn end(&self) {
        let starts: Vec<String> = SORTS.iter().zip(self.starts).map(|(sort, n)| format!("{sort} {n}")).collect();
        println!("graphs by starts: {}", starts.join(", "));
        let mut bad = false;
        for (name, made) in &self.made {
            let (cases, differ) = self.found.get(*name).copied().unwrap_or_default();
            println!("{name}: {cases} compared of {made}, {differ} differ");
            bad |= cases != *made || differ > 0;
        }
        if bad {
            std::process::exit(1);
        }
    }
}

/// Routings and clutter counts.
pub fn routings(count: usize, seed: u64) {
    let rng = &mut Random::new(seed);
    let mut runs = Runs::default();
    let (mut all, mut arrows, mut left_out, mut refused) = (Turns::default(), 0, 0, 0);
    for i in 0..count {
        let size = size(rng);
        let d = drawn(rng, size);
        let graph = read(&d.sheet, MAIN_SCREEN).unwrap().graph();
        runs.starts[sort_of_starts(&graph)] += 1;
        match bowed(|| geometry(&graph, &d.xs, &d.ys)) {
            Ok(list) => {
                let t = turns(&graph, &d.xs, &d.ys);
                assert_eq!(t.taken.iter().sum::<usize>(), list.len());
                all.add(t);
                arrows += graph.edges.len();
                left_out += graph.edges.len() - list.len();
            }
            Err(_) => refused += 1,
        }
        let mut c = Calls::new(&mut runs.out, 0);
        c.route(&d, plenty);
        c.clutter(&d);
        runs.made("route");
        runs.made("clutter");
        if (i + 1) % RUN == 0 || i + 1 == count {
            runs.compare();
        }
    }
    let Turns { taken: [loops, arcs, straight], later } = all;
    println!(
        "{count} routings, {refused} of them refused by 9; of the others {arrows} arrows: {loops} loops, {arcs} arcs, \
         {straight} straight, {left_out} left out; {later} turns took a place other than the first"
    );
    runs.end();
}

/// Layouts of all three kinds.
pub fn layouts(count: usize, seed: u64) {
    let rng = &mut Random::new(seed);
    let mut runs = Runs::default();
    let (mut states, mut arrows) = (0, 0);
    for i in 0..count {
        let size = size(rng);
        let d = drawn(rng, size);
        let graph = read(&d.sheet, MAIN_SCREEN).unwrap().graph();
        runs.starts[sort_of_starts(&graph)] += 1;
        states += graph.nodes.len();
        arrows += graph.edges.len();
        let mut c = Calls::new(&mut runs.out, 0);
        for by in 0..3 {
            c.layout(&d, by, plenty);
        }
        for _ in 0..3 {
            runs.made("layout");
        }
        if (i + 1) % RUN == 0 || i + 1 == count {
            runs.compare();
        }
    }
    println!("{count} graphs of {states} states and {arrows} arrows, each laid out by the three kinds");
    runs.end();
}
