//! Method sheets, read and written from document 01's words alone.

use std::mem;

use super::graph::{Edge, Graph, Node};

pub const STATES: usize = 64;
pub const ARROWS: usize = 256;
pub const LINES: usize = 8;
pub const LINE_BYTES: usize = 96;
pub const SHEET_BYTES: usize = 65_536;

/// Document 02, T-05: the most states and arrows that a sheet may have, and lines that an arrow may have.
#[derive(Clone, Copy, Debug, PartialEq)]
pub struct Limits {
    pub states: usize,
    pub arrows: usize,
    pub lines: usize,
}

pub const MAIN_SCREEN: Limits = Limits { states: STATES, arrows: ARROWS, lines: LINES };
pub const SERVICE_PANEL: Limits = Limits { states: 24, arrows: 64, lines: 4 };

impl Limits {
    /// As they are given to a call.
    pub fn list(self) -> [usize; 3] {
        [self.states, self.arrows, self.lines]
    }

    pub fn of([states, arrows, lines]: [usize; 3]) -> Self {
        Self { states, arrows, lines }
    }
}

/// What a sheet says. A line is its text's pieces.
#[derive(Clone, Debug, Default, PartialEq)]
pub struct Sheet {
    pub states: Vec<u8>,
    pub arrows: Vec<Arrow>,
}

#[derive(Clone, Debug, Default, PartialEq)]
pub struct Arrow {
    pub from: u16,
    pub to: u16,
    pub lines: Vec<Line>,
}

pub type Line = Vec<Vec<u8>>;

fn word(bytes: &[u8], at: usize) -> usize {
    usize::from(bytes[at]) + 256 * usize::from(bytes[at + 1])
}

/// The sheet's meaning under limits, none of which is above the main screen's, or the number of the first refusal in
/// document 01's order.
pub fn read(bytes: &[u8], limits: Limits) -> Result<Sheet, u8> {
    let sheet = walked(bytes)?;
    let lines = || sheet.arrows.iter().flat_map(|a| &a.lines);
    let own = sheet.counts();
    if own.states > limits.states
        || own.arrows > limits.arrows
        || own.lines > limits.lines
        || lines().any(|l| l.concat().len() > LINE_BYTES)
    {
        return Err(5);
    }
    if lines().any(|l| std::str::from_utf8(&l.concat()).is_err()) {
        return Err(6);
    }
    Ok(sheet)
}

/// What the records say, however many there are of each kind, or 1, 2, 4 or 3.
pub fn walked(bytes: &[u8]) -> Result<Sheet, u8> {
    if bytes.len() < 16 || bytes.len() > SHEET_BYTES || bytes.len() != 16 * (1 + word(bytes, 2)) {
        return Err(1);
    }
    if word(bytes, 0) != 1 {
        return Err(2);
    }
    let records: Vec<&[u8]> = bytes[16..].chunks(16).collect();
    if bytes[8..16].iter().any(|&b| b != 0) || !records.iter().all(|r| well_made(r)) {
        return Err(4);
    }
    let mut walk = Walk {
        met: vec![false; records.len()],
        records,
    };
    let sheet = walk.sheet(word(bytes, 4), word(bytes, 6)).ok_or(3)?;
    if walk.met.iter().any(|m| !m) {
        return Err(3);
    }
    Ok(sheet)
}

/// The kind is known, byte 1 is one that the kind allows, and every byte not named is zero.
fn well_made(r: &[u8]) -> bool {
    let used = match (r[0], r[1]) {
        (1, 0..=3) => 4,
        (2, 0) => 10,
        (3, 0) => 6,
        (4, n @ 1..=12) => 4 + usize::from(n),
        _ => return false,
    };
    r[used..].iter().all(|&b| b == 0)
}

struct Walk<'a> {
    records: Vec<&'a [u8]>,
    met: Vec<bool>,
}

impl<'a> Walk<'a> {
    /// The records of a chain, or none where an index is above the count, a record has another
    /// kind, or one was met before.
    fn chain(&mut self, kind: u8, first: usize) -> Option<Vec<&'a [u8]>> {
        let mut list = Vec::new();
        let mut at = first;
        while at != 0 {
            let record = *self.records.get(at - 1)?;
            if record[0] != kind || self.met[at - 1] {
                return None;
            }
            self.met[at - 1] = true;
            list.push(record);
            at = word(record, 2);
        }
        Some(list)
    }

    fn sheet(&mut self, state: usize, arrow: usize) -> Option<Sheet> {
        let states = self.chain(1, state)?.iter().map(|r| r[1]).collect();
        let mut arrows = Vec::new();
        for a in self.chain(2, arrow)? {
            let mut lines = Vec::new();
            for l in self.chain(3, word(a, 8))? {
                let texts = self.chain(4, word(l, 4))?;
                lines.push(texts.iter().map(|t| t[4..4 + usize::from(t[1])].to_vec()).collect());
            }
            arrows.push(Arrow {
                from: word(a, 4) as u16,
                to: word(a, 6) as u16,
                lines,
            });
        }
        Some(Sheet { states, arrows })
    }
}

impl Sheet {
    pub fn graph(&self) -> Graph {
        let nodes = self.states.iter().map(|s| Node {
            is_start: s & 1 == 1,
            is_final: s & 2 == 2,
        });
        let edges = self.arrows.iter().map(|a| Edge {
            from: usize::from(a.from),
            to: usize::from(a.to),
            labels: a.lines.iter().map(|l| String::from_utf8(l.concat()).unwrap()).collect(),
        });
        Graph {
            nodes: nodes.collect(),
            edges: edges.collect(),
        }
    }

    /// The states, the arrows and the lines of the arrow that has most: the least limits that they are within.
    pub fn counts(&self) -> Limits {
        let lines = self.arrows.iter().map(|a| a.lines.len()).max().unwrap_or(0);
        Limits { states: self.states.len(), arrows: self.arrows.len(), lines }
    }

    /// How many records the sheet takes.
    pub fn records(&self) -> usize {
        let lines = self.arrows.iter().flat_map(|a| &a.lines);
        self.states.len() + self.arrows.len() + lines.map(|l| 1 + l.len()).sum::<usize>()
    }

    /// The sheet's bytes. `place` holds each record's number, from 1, in the order in which the
    /// records are met.
    pub fn bytes(&self, place: &[usize]) -> Vec<u8> {
        let count = self.records();
        assert!(place.len() == count);
        let mut out = vec![0; 16 * (1 + count)];
        let mut next = place.iter().copied();
        let mut take = |n: usize| -> Vec<usize> { next.by_ref().take(n).collect() };
        let states = take(self.states.len());
        let arrows = take(self.arrows.len());
        put(&mut out, 0, 1);
        put(&mut out, 2, count);
        put(&mut out, 4, first(&states));
        put(&mut out, 6, first(&arrows));
        chain(&mut out, 1, &states);
        chain(&mut out, 2, &arrows);
        for (s, &at) in self.states.iter().zip(&states) {
            out[16 * at + 1] = *s;
        }
        for (a, &at) in self.arrows.iter().zip(&arrows) {
            let lines = take(a.lines.len());
            put(&mut out, 16 * at + 4, usize::from(a.from));
            put(&mut out, 16 * at + 6, usize::from(a.to));
            put(&mut out, 16 * at + 8, first(&lines));
            chain(&mut out, 3, &lines);
            for (l, &at) in a.lines.iter().zip(&lines) {
                let texts = take(l.len());
                put(&mut out, 16 * at + 4, first(&texts));
                chain(&mut out, 4, &texts);
                for (t, &at) in l.iter().zip(&texts) {
                    out[16 * at + 1] = t.len() as u8;
                    out[16 * at + 4..16 * at + 4 + t.len()].copy_from_slice(t);
                }
            }
        }
        out
    }

    /// The sheet as the editor saves it (document 02, T-04): all states, then all arrows, each followed by its lines and
    /// each line by its text in pieces of 12 bytes. The indices are set from the last record back to the first.
    pub fn saved(&self) -> Vec<u8> {
        let mut records: Vec<[u8; 16]> = self.states.iter().map(|&flags| record(1, flags, &[])).collect();
        for a in &self.arrows {
            records.push(record(2, 0, &[a.from.to_le_bytes(), a.to.to_le_bytes()].concat()));
            for line in &a.lines {
                records.push(record(3, 0, &[]));
                records.extend(line.concat().chunks(12).map(|piece| record(4, piece.len() as u8, piece)));
            }
        }
        // For each kind the record behind this one that a chain goes on with or begins with, or 0.
        let mut ahead = [0; 5];
        for (i, r) in records.iter_mut().enumerate().rev() {
            let kind = usize::from(r[0]);
            put(r, 2, ahead[kind]);
            ahead[kind] = i + 1;
            match kind {
                2 => put(r, 8, mem::take(&mut ahead[3])),
                3 => put(r, 4, mem::take(&mut ahead[4])),
                _ => {}
            }
        }
        let mut out = vec![0; 16];
        for (at, n) in [(0, 1), (2, records.len()), (4, ahead[1]), (6, ahead[2])] {
            put(&mut out, at, n);
        }
        out.extend(records.concat());
        out
    }
}

/// A record of a kind with its byte 1 and what stands from byte 4 on.
fn record(kind: u8, flag: u8, rest: &[u8]) -> [u8; 16] {
    let mut r = [0; 16];
    (r[0], r[1]) = (kind, flag);
    r[4..4 + rest.len()].copy_from_slice(rest);
    r
}

/// Stores a number in two bytes.
pub fn put(out: &mut [u8], at: usize, n: usize) {
    out[at..at + 2].copy_from_slice(&(n as u16).to_le_bytes());
}

fn first(list: &[usize]) -> usize {
    list.first().copied().unwrap_or(0)
}

fn chain(out: &mut [u8], kind: u8, list: &[usize]) {
    for (i, &at) in list.iter().enumerate() {
        out[16 * at] = kind;
        put(out, 16 * at + 2, list.get(i + 1).copied().unwrap_or(0));
    }
}

/// The size of a label block of so many lines at the most, or 5 or 6.
pub fn label_block(text: &[u8], lengths: &[usize], most: usize) -> Result<(f64, f64), u8> {
    let sum: u128 = lengths.iter().map(|&n| n as u128).sum();
    if lengths.len() > most || lengths.iter().any(|&n| n > LINE_BYTES) || sum != text.len() as u128 {
        return Err(5);
    }
    let mut lines = Vec::new();
    let mut at = 0;
    for &n in lengths {
        let line = std::str::from_utf8(&text[at..at + n]).map_err(|_| 6)?;
        lines.push(line.to_string());
        at += n;
    }
    Ok(super::route::label_size(&lines))
}

#[cfg(test)]
mod tests {
    use super::*;

    #[test]
    fn worked() {
        let read = |bytes: &[u8]| read(bytes, MAIN_SCREEN);
        let empty = Sheet::default().bytes(&[]);
        assert_eq!(read(&empty), Ok(Sheet::default()));
        assert_eq!(read(&[&empty[..], &[0]].concat()), Err(1));
        let one = Sheet { states: vec![1], arrows: vec![] };
        let mut bytes = one.bytes(&[1]);
        assert_eq!(read(&bytes), Ok(one));
        put(&mut bytes, 18, 1);
        assert_eq!(read(&bytes), Err(3));
    }

    /// The other writer, told the editor's places, gives the same bytes.
    #[test]
    fn saved_by_places() {
        use crate::generate::{few_pieces, in_order, stored};
        let rng = &mut crate::random::Random::new(31);
        for _ in 0..5_000 {
            let sheet = stored(rng);
            assert_eq!(sheet.saved(), in_order(&few_pieces(&sheet)));
        }
    }

    fn line(text: &str) -> Result<(f64, f64), u8> {
        label_block(text.as_bytes(), &[text.len()], LINES)
    }

    /// Document 02's T-02: U+0300 to U+036F have width 0, the characters beside them 12. A line of accents alone is a
    /// line.
    #[test]
    fn accents() {
        for (text, width) in [
            ("\u{2ff}", 12.0), ("\u{300}", 0.0), ("\u{33f}", 0.0), ("\u{340}", 0.0), ("\u{36f}", 0.0), ("\u{370}", 12.0),
            ("a", 0.6 * 12.0), ("a\u{301}", 0.6 * 12.0), ("\u{301}a", 0.6 * 12.0), ("\u{301}↦\u{36f}\u{300}", 12.0),
        ] {
            assert_eq!(line(text), Ok((width, 15.0)), "{text:?}");
        }
        let all = (0..0x11_0000).filter_map(char::from_u32).filter(|c| line(&c.to_string()) == Ok((0.0, 15.0)));
        assert!(all.eq('\u{300}'..='\u{36f}'));
        assert_eq!(label_block("\u{301}".repeat(8).as_bytes(), &[2; 8], LINES), Ok((0.0, 120.0)));
        assert_eq!(line(&"\u{301}".repeat(48)), Ok((0.0, 15.0)));
        assert_eq!(line(&format!("{}a", "\u{301}".repeat(48))), Err(5));
        assert_eq!(label_block("\u{301}".as_bytes(), &[1, 1], LINES), Err(6));
    }

    /// A line has the width that it has without its accents.
    #[test]
    fn accents_put_anywhere() {
        use crate::generate::{is_accent, text, with_accents};
        let rng = &mut crate::random::Random::new(29);
        for _ in 0..20_000 {
            let n = rng.below(40);
            let some = text(rng, n);
            let some = with_accents(rng, some);
            let none: String = some.chars().filter(|c| !is_accent(*c)).collect();
            assert!(none.len() < some.len() && some.len() <= LINE_BYTES);
            assert_eq!(line(&some), line(&none), "{some:?}");
        }
    }
}
