//! Makes a sheet from a description: `sheet < NAME.txt > NAME.sheet`.
//!
//!     state [start] [final]    a state, numbered from 0 in order
//!     arrow FROM TO            an arrow between two numbers
//!     line TEXT                a label line of the arrow above it
//!     cut N..                  the pieces of the lines below have these lengths, again and again, instead of 12
//!     step N                   at the end, record 1 + K moves to the place 1 + K * N, counted round
//!     byte AT VALUE            at the end, the sheet's byte AT becomes VALUE
//!     # ..                     a comment

use std::io::{Read, Write};

/// A record: its kind, byte 1, and the bytes from 4 on; the next index is set by the chain.
struct Record {
    kind: u8,
    flag: u8,
    rest: [u8; 12],
    next: u16,
}

#[derive(Default)]
struct Sheet {
    records: Vec<Record>,
    first: [u16; 2],
    last: [usize; 2],
    last_line: usize,
    cut: Vec<usize>,
    step: usize,
    damage: Vec<(usize, u8)>,
}

impl Sheet {
    /// Adds a record, and its number from 1.
    fn add(&mut self, kind: u8, flag: u8, rest: &[u8]) -> u16 {
        let mut all = [0; 12];
        all[..rest.len()].copy_from_slice(rest);
        self.records.push(Record {
            kind,
            flag,
            rest: all,
            next: 0,
        });
        self.records.len() as u16
    }

    /// Puts a state (0) or an arrow (1) at the end of its chain.
    fn chain(&mut self, which: usize, n: u16) {
        match self.last[which] {
            0 => self.first[which] = n,
            before => self.records[before - 1].next = n,
        }
        self.last[which] = n as usize;
    }

    /// Adds a line to the last arrow: a line record, and its text in pieces.
    fn line(&mut self, text: &str) {
        let n = self.add(3, 0, &[]);
        match self.last_line {
            0 => self.records[self.last[1] - 1].rest[4..6].copy_from_slice(&n.to_le_bytes()),
            before => self.records[before - 1].next = n,
        }
        self.last_line = n as usize;
        let mut before = 0;
        let mut rest = text.as_bytes();
        for &most in self.cut.clone().iter().cycle() {
            if rest.is_empty() {
                break;
            }
            let piece;
            (piece, rest) = rest.split_at(most.min(rest.len()));
            let k = self.add(4, piece.len() as u8, piece);
            match before {
                0 => self.records[n as usize - 1].rest[..2].copy_from_slice(&k.to_le_bytes()),
                before => self.records[before - 1].next = k,
            }
            before = k as usize;
        }
    }

    fn bytes(&self) -> Vec<u8> {
        let mut out = Vec::new();
        for n in [1, self.records.len() as u16, self.first[0], self.first[1]] {
            out.extend(n.to_le_bytes());
        }
        out.extend([0; 8]);
        for r in &self.records {
            out.extend([r.kind, r.flag]);
            out.extend(r.next.to_le_bytes());
            out.extend(r.rest);
        }
        out = moved(&out, self.step);
        for &(at, value) in &self.damage {
            out[at] = value;
        }
        out
    }
}

/// The sheet with each record moved to its new place; every index follows.
fn moved(sheet: &[u8], step: usize) -> Vec<u8> {
    let count = sheet.len() / 16 - 1;
    let place = |n: usize| if n == 0 { 0 } else { 1 + (n - 1) * step % count };
    let mut out = vec![0; sheet.len()];
    for (n, record) in sheet.chunks(16).enumerate() {
        let to = 16 * place(n);
        assert!(out[to..to + 16] == [0; 16], "step {step}: two records go to one place");
        out[to..to + 16].copy_from_slice(record);
        let indices: &[usize] = match record[0] {
            _ if n == 0 => &[4, 6],
            2 => &[2, 8],
            3 => &[2, 4],
            _ => &[2],
        };
        for &at in indices {
            let index = u16::from_le_bytes([record[at], record[at + 1]]) as usize;
            out[to + at..to + at + 2].copy_from_slice(&(place(index) as u16).to_le_bytes());
        }
    }
    out
}

fn main() {
    let mut text = String::new();
    std::io::stdin().read_to_string(&mut text).unwrap();
    let mut sheet = Sheet {
        cut: vec![12],
        step: 1,
        ..Sheet::default()
    };
    for line in text
        .lines()
        .filter(|l| !l.is_empty() && !l.starts_with('#'))
    {
        let (word, rest) = line.split_once(' ').unwrap_or((line, ""));
        let numbers = || {
            rest.split(' ')
                .map(|w| w.parse::<u16>().unwrap())
                .collect::<Vec<_>>()
        };
        match word {
            "state" => {
                let flag = rest.contains("start") as u8 + 2 * rest.contains("final") as u8;
                let n = sheet.add(1, flag, &[]);
                sheet.chain(0, n);
            }
            "arrow" => {
                let ends: Vec<u8> = numbers().iter().flat_map(|n| n.to_le_bytes()).collect();
                let n = sheet.add(2, 0, &ends);
                sheet.chain(1, n);
                sheet.last_line = 0;
            }
            "line" => sheet.line(rest),
            "cut" => sheet.cut = numbers().iter().map(|&n| n as usize).collect(),
            "step" => sheet.step = numbers()[0] as usize,
            "byte" => sheet
                .damage
                .push((numbers()[0] as usize, numbers()[1] as u8)),
            _ => panic!("{line}"),
        }
    }
    std::io::stdout().write_all(&sheet.bytes()).unwrap();
}
