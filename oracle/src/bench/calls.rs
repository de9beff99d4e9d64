//! The calls, timed: the port's beside the Rust's over three sorts of float functions.

use std::hint::black_box;
use std::io::Write;
use std::time::Duration;

use crate::calls as hardware;
use crate::generate::{Size, from_first, shuffled};
use crate::port::{
    murshogi_check, murshogi_clutter, murshogi_label_size, murshogi_layout, murshogi_list, murshogi_route,
    murshogi_write_num, murshogi_write_sheet,
};
use crate::random::Random;
use crate::rivals::library::calls as library;
use crate::rivals::whole::calls as whole;
use crate::sheet::{MAIN_SCREEN, Sheet};

unsafe extern "C" {
    fn clock_gettime(clock: i32, time: *mut [i64; 2]) -> i32;
}

#[derive(Clone, Copy)]
pub enum Call {
    Check,
    LabelSize,
    Layout,
    Route,
    Clutter,
    WriteNum,
    List,
    WriteSheet,
}

/// In the header's order.
pub const CALLS: [(Call, &str); 8] = [
    (Call::Check, "check"),
    (Call::LabelSize, "label_size"),
    (Call::Layout, "layout"),
    (Call::Route, "route"),
    (Call::Clutter, "clutter"),
    (Call::WriteNum, "write_num"),
    (Call::List, "list"),
    (Call::WriteSheet, "write_sheet"),
];

impl Call {
    /// How many are timed between two looks at the clock.
    fn together(self) -> u32 {
        match self {
            Call::LabelSize | Call::WriteNum => 1000,
            _ => 1,
        }
    }
}

/// Who answers: the port, or the Rust over the stand-ins with roots by whole numbers, over the
/// stand-ins with the hardware's root, over the library's functions with the hardware's root.
#[derive(Clone, Copy)]
pub enum Side {
    Port,
    Whole,
    Hardware,
    Library,
}

pub const SIDES: [Side; 4] = [Side::Port, Side::Whole, Side::Hardware, Side::Library];

/// A sheet, the centres of its layout, a label of as many lines as its arrows may have, and room for answers.
pub struct Case {
    pub name: &'static str,
    sheet: Vec<u8>,
    label: Vec<u8>,
    lines: Vec<usize>,
    x: Vec<f64>,
    y: Vec<f64>,
    records: Vec<f64>,
    text: Vec<u8>,
}

/// A sheet with the lines that an arrow has at most, and its bytes with the records in random order.
pub struct Made {
    pub lines: usize,
    pub sheet: Sheet,
    pub bytes: Vec<u8>,
}

impl Made {
    /// A random sheet whose first state is a start.
    pub fn new(rng: &mut Random, states: usize, arrows: usize, lines: usize) -> Made {
        let sheet = from_first(rng, Size { states, arrows, lines, characters: 12 });
        let bytes = shuffled(rng, &sheet);
        Made { lines, sheet, bytes }
    }
}

/// The three sheets: typical, middle, largest.
pub fn sheets() -> [Made; 3] {
    let rng = &mut Random::new(19);
    [(10, 20, 2), (30, 80, 3), (64, 256, 8)].map(|(states, arrows, lines)| Made::new(rng, states, arrows, lines))
}

/// What the tables call them.
const NAMES: [&str; 3] = ["10 states, 20 arrows", "30 states, 80 arrows", "64 states, 256 arrows, 8 lines"];

/// The three sheets with all that the calls are given.
pub fn cases() -> Vec<Case> {
    NAMES.into_iter().zip(sheets()).map(|(name, made)| Case::new(name, made)).collect()
}

/// Writes one of these sheets: typical, middle or largest.
pub fn sheet_of(name: &str) {
    let at = ["typical", "middle", "largest"].iter().position(|n| *n == name).unwrap();
    std::io::stdout().write_all(&sheets()[at].bytes).unwrap();
}

macro_rules! theirs {
    ($calls:ident, $case:ident, $call:ident) => {
        match $call {
            Call::Check => $calls::check(&$case.sheet, $calls::MAIN_SCREEN).err(),
            Call::LabelSize => $calls::label_size(&$case.label, &$case.lines, $calls::MAIN_SCREEN).err(),
            Call::Clutter => $calls::clutter(&$case.sheet, $calls::MAIN_SCREEN, &$case.x, &$case.y).err(),
            Call::WriteNum => $calls::write_num($case.x[1], 65_536).err(),
            Call::Route => {
                $calls::route(&$case.sheet, $calls::MAIN_SCREEN, &$case.x, &$case.y, (5120, 65_536)).err()
            }
            Call::Layout => $calls::layout(&$case.sheet, $calls::MAIN_SCREEN, 0, (64, 64)).err(),
            Call::List => $calls::list(&$case.sheet, $calls::MAIN_SCREEN, 0, 65_536).err(),
            Call::WriteSheet => $calls::write_sheet(&$case.sheet, $calls::MAIN_SCREEN, 65_536).err(),
        }
        .unwrap_or(0)
    };
}

impl Case {
    /// With the centres of the sheet's layout by Auto.
    pub fn new(name: &'static str, made: Made) -> Case {
        let (sheet, lines) = (made.bytes, made.lines);
        let l = hardware::layout(&sheet, MAIN_SCREEN, 0, (64, 64)).unwrap();
        let (records, text) = (vec![0.0; 5120], vec![0; 65_536]);
        let (label, lines) = (b"m/z 195 > 15".repeat(lines), vec![12; lines]);
        Case { name, sheet, label, lines, x: l.x, y: l.y, records, text }
    }

    #[inline(never)]
    pub fn port(&mut self, call: Call) -> u8 {
        super::stack::mark();
        let (s, n) = (self.sheet.as_ptr(), self.sheet.len());
        let (text, room) = (self.text.as_mut_ptr(), self.text.len());
        let (x, y) = (&self.x, &self.y);
        let limits = MAIN_SCREEN.list();
        let limits = limits.as_ptr();
        let (mut nx, mut ny, mut size, mut lengths) = ([0.0; 64], [0.0; 64], [0.0; 2], [0; 2]);
        // the answer is used here, so that no call takes the place of this function's own frame
        black_box(unsafe {
            match call {
                Call::Check => murshogi_check(s, n, limits),
                Call::LabelSize => murshogi_label_size(
                    self.label.as_ptr(), self.label.len(), self.lines.as_ptr(), self.lines.len(), limits,
                    size.as_mut_ptr(),
                ),
                Call::Clutter => murshogi_clutter(
                    s, n, limits, x.as_ptr(), x.len(), y.as_ptr(), y.len(), lengths.as_mut_ptr(),
                ),
                Call::WriteNum => murshogi_write_num(x[1], text, room, lengths.as_mut_ptr()),
                Call::Route => murshogi_route(
                    s, n, limits, x.as_ptr(), x.len(), y.as_ptr(), y.len(), self.records.as_mut_ptr(),
                    self.records.len(), text, room, lengths.as_mut_ptr(),
                ),
                Call::Layout => murshogi_layout(
                    s, n, limits, 0, nx.as_mut_ptr(), 64, ny.as_mut_ptr(), 64, size.as_mut_ptr(),
                    lengths.as_mut_ptr(),
                ),
                Call::List => murshogi_list(s, n, limits, 0, text, room, lengths.as_mut_ptr()),
                Call::WriteSheet => murshogi_write_sheet(s, n, limits, text, room, lengths.as_mut_ptr()),
            }
        })
    }

    /// The answer: 0, or a refusal's number.
    pub fn run(&mut self, side: Side, call: Call) -> u8 {
        match side {
            Side::Port => self.port(call),
            Side::Whole => theirs!(whole, self, call),
            Side::Hardware => theirs!(hardware, self, call),
            Side::Library => theirs!(library, self, call),
        }
    }

    /// Microseconds a call, over ten milliseconds at the least.
    fn timed(&mut self, side: Side, call: Call) -> f64 {
        let start = spent();
        let mut calls = 0;
        while calls == 0 || (spent() - start).as_millis() < 10 {
            for _ in 0..call.together() {
                assert!(black_box(self.run(side, call)) == 0);
            }
            calls += call.together();
        }
        (spent() - start).as_nanos() as f64 / 1000.0 / f64::from(calls)
    }
}

/// The processor's time that this thread has had: what others take of a shared machine is not in it.
pub fn spent() -> Duration {
    const THREAD: i32 = 3;
    let mut t = [0; 2];
    assert!(unsafe { clock_gettime(THREAD, &mut t) } == 0);
    Duration::new(t[0] as u64, t[1] as u32)
}

pub const ROUNDS: usize = 15;

/// The median of several rounds, in each of which the four take their turns.
fn medians(case: &mut Case, call: Call) -> [f64; 4] {
    let mut times = [[0.0; ROUNDS]; 4];
    for round in 0..ROUNDS {
        for (list, side) in times.iter_mut().zip(SIDES) {
            list[round] = case.timed(side, call);
        }
    }
    times.map(|mut list| {
        list.sort_by(f64::total_cmp);
        list[ROUNDS / 2]
    })
}

/// A number with three digits, thousands apart.
pub fn figure(v: f64) -> String {
    if v < 1.0 {
        return format!("{v:.3}");
    }
    if v < 100.0 {
        return format!("{v:.1}");
    }
    let digits = format!("{v:.0}");
    let mut out = String::new();
    for (i, c) in digits.chars().enumerate() {
        if i > 0 && (digits.len() - i).is_multiple_of(3) {
            out.push(',');
        }
        out.push(c);
    }
    out
}

/// A table: a row for each sheet and call, what the port takes, and what the Rust takes with its ratio to that.
pub fn table(unit: &str, mut row: impl FnMut(usize, usize) -> [f64; 4]) {
    println!("| sheet | call | port, {unit} | Rust, stand-ins | the same, hardware's root | Rust, library's functions |");
    println!("|---|---|---|---|---|---|");
    for (i, case) in cases().iter().enumerate() {
        for (j, (_, call)) in CALLS.iter().enumerate() {
            let [port, theirs @ ..] = row(i, j);
            let name = if j == 0 { case.name } else { "" };
            let cells = theirs.map(|t| format!("{} ({:.2})", figure(t), t / port)).join(" | ");
            println!("| {name} | {call} | {} | {cells} |", figure(port));
        }
    }
}

/// The table of times.
pub fn print() {
    let mut cases = cases();
    table("µs", |i, j| medians(&mut cases[i], CALLS[j].0));
}
