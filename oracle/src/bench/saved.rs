//! Writing a sheet beside checking it, on sheets of 4,095 records: times and instructions of the port's calls.

use std::hint::black_box;

use super::calls::{ROUNDS, figure, spent};
use super::counts::{counted, murshogi_counted};
use crate::calls;
use crate::generate::{in_order, shuffled};
use crate::port::{murshogi_check, murshogi_write_sheet};
use crate::random::Random;
use crate::sheet::{Arrow, MAIN_SCREEN, Sheet};

/// A sheet, and its name: bytes a line and bytes a piece. Records in the editor's order, or in any.
struct Full {
    name: &'static str,
    order: &'static str,
    sheet: Vec<u8>,
    out: Vec<u8>,
}

/// 64 states, 256 arrows, and as many lines with so many bytes in such pieces as are left of 4,095 records; the last has
/// fewer.
fn made(bytes: usize, piece: usize) -> Sheet {
    let arrow = |i: usize| Arrow { from: (i % 64) as u16, to: (7 * i % 64) as u16, lines: vec![] };
    let mut sheet = Sheet { states: vec![0; 64], arrows: (0..256).map(arrow).collect() };
    sheet.states[0] = 1;
    let text = b"m/z 195 > 15".repeat(8);
    let mut left = 4095 - sheet.records();
    for i in 0.. {
        let mut line: Vec<Vec<u8>> = text[..bytes].chunks(piece).map(<[u8]>::to_vec).collect();
        line.truncate(left - 1);
        left -= 1 + line.len();
        sheet.arrows[i % 256].lines.push(line);
        if left == 0 {
            break;
        }
    }
    sheet
}

fn sheets() -> Vec<Full> {
    let rng = &mut Random::new(19);
    let mut list = Vec::new();
    for (name, bytes, piece) in [
        ("96 bytes, 12 a piece", 96, 12), ("96 bytes, 5 a piece", 96, 5), ("96 bytes, 1 a piece", 96, 1),
        ("12 bytes, 12 a piece", 12, 12), ("1 byte", 1, 1),
    ] {
        let sheet = made(bytes, piece);
        for (order, sheet) in [("as saved", in_order(&sheet)), ("shuffled", shuffled(rng, &sheet))] {
            assert!(sheet.len() == 65_536 && calls::check(&sheet, MAIN_SCREEN).is_ok());
            list.push(Full { name, order, sheet, out: vec![0; 65_536] });
        }
    }
    list
}

impl Full {
    /// The two calls by their numbers: checking, writing.
    #[inline(never)]
    fn port(&mut self, call: usize) -> u8 {
        let (s, n, mut length) = (self.sheet.as_ptr(), self.sheet.len(), 0);
        let limits = MAIN_SCREEN.list();
        let limits = limits.as_ptr();
        unsafe {
            match call {
                0 => murshogi_check(s, n, limits),
                _ => murshogi_write_sheet(s, n, limits, self.out.as_mut_ptr(), self.out.len(), &mut length),
            }
        }
    }

    /// Microseconds a call, over ten milliseconds at the least.
    fn timed(&mut self, call: usize) -> f64 {
        let start = spent();
        let mut calls = 0;
        while calls == 0 || (spent() - start).as_millis() < 10 {
            assert!(black_box(self.port(call)) == 0);
            calls += 1;
        }
        (spent() - start).as_nanos() as f64 / 1000.0 / f64::from(calls)
    }

    /// The medians of several rounds, in each of which the two take their turns.
    fn medians(&mut self) -> [f64; 2] {
        let mut times = [[0.0; ROUNDS]; 2];
        for round in 0..ROUNDS {
            for (call, list) in times.iter_mut().enumerate() {
                list[round] = self.timed(call);
            }
        }
        times.map(|mut list| {
            list.sort_by(f64::total_cmp);
            list[ROUNDS / 2]
        })
    }
}

/// Every sheet and call, each once before it is counted, so that its memory is there.
pub fn each() {
    for mut sheet in sheets() {
        for call in 0..2 {
            sheet.port(call);
            murshogi_counted(&mut || sheet.port(call));
        }
    }
}

/// The table of times and instructions.
pub fn print() {
    let counts = counted("saved-each");
    let list = sheets();
    assert!(counts.len() == 2 * list.len(), "{} counts", counts.len());
    println!(
        "| lines of | order | records written | check, µs | write_sheet, µs | ratio | check, thousands | \
         write_sheet, thousands | ratio |"
    );
    println!("|---|---|---|---|---|---|---|---|---|");
    for (mut sheet, counts) in list.into_iter().zip(counts.chunks(2)) {
        let times = sheet.medians();
        let records = calls::write_sheet(&sheet.sheet, MAIN_SCREEN, 65_536).unwrap().len() / 16 - 1;
        let cells = |list: [f64; 2]| {
            format!("{} | {} | {:.2}", figure(list[0]), figure(list[1]), list[1] / list[0])
        };
        let thousands = [counts[0] / 1000.0, counts[1] / 1000.0];
        println!(
            "| {} | {} | {} | {} | {} |",
            sheet.name, sheet.order, figure(records as f64), cells(times), cells(thousands)
        );
    }
}
