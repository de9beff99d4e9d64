//! The stream that the program `vectors` compares.
//!
//! A case is its kind (one byte), the payload's length (three bytes, the least first) and the
//! payload: the arguments and then the oracle's answer. A float is its eight bytes, the least
//! first. The stream ends with a case of kind 0, whose payload is the number of cases before it.

mod accents;
mod bows;
mod calls;
mod edges;
mod float;
pub mod graphs;
mod limits;
mod numbers;
mod sheets;
mod written;

use std::collections::BTreeMap;

use crate::random::Random;

pub use calls::{Calls, Drawn, plenty};
#[cfg(port = "murshogi")]
pub use calls::unsound;
#[cfg(port = "murshogi")]
pub use sheets::{damage, largest};

/// A text and the lengths of its lines.
pub fn label_lines(rng: &mut Random) -> (Vec<u8>, Vec<usize>) {
    let i = rng.below(28);
    sheets::lines(rng, i)
}

/// A number to be written.
pub fn number(rng: &mut Random) -> f64 {
    match rng.below(6) {
        0 => float::mixed(rng),
        1 => (rng.below(1_000_000) as f64 + 0.5) / 100.0,
        2 => rng.between(-1.1e13, 1.1e13),
        3 => rng.between(-100.0, 100.0),
        _ => float::ordinary(rng),
    }
}

pub mod kind {
    pub const END: u8 = 0;
    pub const ROOT: u8 = 1;
    pub const HYPOT: u8 = 2;
    pub const MIDPOINT: u8 = 3;
    pub const REM_EUCLID: u8 = 4;
    pub const SIN: u8 = 5;
    pub const COS: u8 = 6;
    pub const ATAN2: u8 = 7;
    pub const MIN: u8 = 8;
    pub const MAX: u8 = 9;
    pub const ROUND: u8 = 10;
    pub const ABS: u8 = 11;
    pub const CLAMP: u8 = 12;
    pub const SIGNUM: u8 = 13;
    pub const COPYSIGN: u8 = 14;
    pub const TOTAL_CMP: u8 = 15;
    pub const REM_TAU: u8 = 16;
    pub const ROUTE: u8 = 60;
    pub const LAYOUT: u8 = 61;
    pub const CLUTTER: u8 = 62;
    pub const LIST: u8 = 63;
    pub const CHECK: u8 = 64;
    pub const LABEL_SIZE: u8 = 65;
    pub const NUMBER: u8 = 66;
    pub const WRITE_SHEET: u8 = 67;
    /// Limits, three numbers of eight bytes; a kind from 60 to 65 or 67, and its payload.
    pub const UNDER_LIMITS: u8 = 68;
    /// A kind and its payload with another answer.
    pub const SPOILED: u8 = 255;
}

/// A case's payload as it is put together.
#[derive(Default)]
pub struct Payload(pub Vec<u8>);

impl Payload {
    pub fn new() -> Self {
        Self::default()
    }

    pub fn byte(mut self, b: u8) -> Self {
        self.0.push(b);
        self
    }

    pub fn bytes(mut self, b: &[u8]) -> Self {
        self.0.extend_from_slice(b);
        self
    }

    pub fn word(mut self, n: usize) -> Self {
        self.0.extend_from_slice(&u16::try_from(n).unwrap().to_le_bytes());
        self
    }

    pub fn long(mut self, n: usize) -> Self {
        self.0.extend_from_slice(&u32::try_from(n).unwrap().to_le_bytes());
        self
    }

    /// A NaN goes out as one pattern: the port knows one NaN, without a sign.
    pub fn float(mut self, v: f64) -> Self {
        let bits = if v.is_nan() { 0x7ff8 << 48 } else { v.to_bits() };
        self.0.extend_from_slice(&bits.to_le_bytes());
        self
    }

    pub fn floats(self, vs: &[f64]) -> Self {
        vs.iter().fold(self, |p, &v| p.float(v))
    }
}

#[derive(Default)]
pub struct Stream {
    bytes: Vec<u8>,
    cases: u64,
    kinds: BTreeMap<u8, usize>,
}

impl Stream {
    /// A case whose answer is wrong: the program must find that it differs.
    pub fn spoiled(&mut self, kind: u8, payload: Payload) {
        self.case(kind::SPOILED, Payload::new().byte(kind).bytes(&payload.0));
    }

    pub fn case(&mut self, kind: u8, payload: Payload) {
        let length = payload.0.len() as u32;
        assert!(length < 1 << 24);
        self.bytes.push(kind);
        self.bytes.extend_from_slice(&length.to_le_bytes()[..3]);
        self.bytes.extend_from_slice(&payload.0);
        self.cases += 1;
        *self.kinds.entry(kind).or_default() += 1;
    }

    pub fn end(mut self) -> Vec<u8> {
        let cases = self.cases;
        self.case(kind::END, Payload::new().bytes(&cases.to_le_bytes()));
        self.bytes
    }
}

/// Writes the whole stream to `file`.
pub fn write(file: &str) {
    let mut out = Stream::default();
    float::cases(&mut out);
    let mut c = Calls::new(&mut out, 12);
    sheets::cases(&mut c);
    numbers::cases(&mut c);
    bows::cases(&mut c);
    edges::cases(&mut c);
    graphs::cases(&mut c);
    calls::cases(&mut c);
    accents::cases(&mut c);
    written::cases(&mut c);
    limits::cases(&mut c);
    c.end();
    for (kind, count) in &out.kinds {
        println!("kind {kind}: {count}");
    }
    println!("total {}", out.cases);
    let bytes = out.end();
    println!("{} bytes", bytes.len());
    std::fs::write(file, bytes).unwrap();
}
