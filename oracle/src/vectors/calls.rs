//! Cases of the eight calls. The answer and the layout's kind, a byte each; the length of the sheet,
//! or of a label's text, four bytes; the sheet; what the call is given besides; and what it writes.
//! A number of things is two bytes, the room for a sheet four. Under limits all that stands behind them and the call's
//! kind.

use std::collections::BTreeMap;

use super::sheets::{self, ILL, damage};
use super::{Payload, Stream, kind, label_lines, number};
use crate::calls;
use crate::generate::{
    SORTS, Size, centres, drawing, full_pieces, has_accent, sheet, shuffled, sort_of_accents, sort_of_starts, starts,
};
use crate::random::Random;
use crate::sheet::{Arrow, Limits, MAIN_SCREEN, Sheet, read};

/// No case is longer than the program's room for one.
const LONGEST: usize = 140_000;

/// The most that is lent for a sheet: the program has that much room, and sixteen bytes before it and behind it.
pub const MOST_ROOM: usize = 65_568;

/// A call and what it gives.
#[derive(Default)]
struct Call {
    kind: u8,
    answer: u8,
    by: u8,
    sheet: Vec<u8>,
    given: Payload,
    /// Every byte of it counts where the call is not refused.
    written: Vec<u8>,
    /// Something that a refused call might have written.
    other: Vec<u8>,
    /// Given too, behind what is written.
    behind: Vec<u8>,
}

impl Call {
    fn case(&self, answer: u8, written: &[u8]) -> Payload {
        let p = Payload::new().byte(answer).byte(self.by).long(self.sheet.len());
        p.bytes(&self.sheet).bytes(&self.given.0).bytes(written).bytes(&self.behind)
    }

    /// The case with another answer, or with something else that is written.
    fn spoiled(&self, rng: &mut Random) -> Payload {
        let mut written = if self.answer == 0 { self.written.clone() } else { self.other.clone() };
        if written.is_empty() || rng.once_in(3) {
            return self.case((self.answer + 1 + rng.below(11) as u8) % 12, &self.written);
        }
        if self.answer == 0 {
            let k = rng.below(written.len());
            written[k] ^= 1;
        }
        self.case(self.answer, &written)
    }
}

/// A sheet written into so much room.
fn saving(sheet: &[u8], limits: Limits, room: usize) -> Call {
    let answer = calls::write_sheet(sheet, limits, room);
    Call {
        kind: kind::WRITE_SHEET,
        answer: answer.as_ref().err().copied().unwrap_or(0),
        sheet: sheet.to_vec(),
        given: Payload::new().long(room),
        written: answer.unwrap_or_default(),
        other: vec![1, 0, 0, 0, 0, 0, 0, 0, 0, 0, 0, 0, 0, 0, 0, 0],
        ..Call::default()
    }
}

/// A sheet and centres.
pub struct Drawn {
    pub sheet: Vec<u8>,
    pub xs: Vec<f64>,
    pub ys: Vec<f64>,
}

/// The calls, put into a stream.
pub struct Calls<'a> {
    out: &'a mut Stream,
    /// Of so many cases with one answer, the first is followed by a spoiled one; 0: none is.
    spoil: usize,
    rng: Random,
    answers: BTreeMap<(u8, u8), usize>,
    /// The limits that the cases are put under; none: those of the main screen, which no case has to name.
    limits: Option<Limits>,
    /// The cases under limits, by kind and answer.
    limited: BTreeMap<(u8, u8), usize>,
    /// The sorts of starts of the listings that are not refused.
    starts: [usize; SORTS.len()],
    /// Of each kind the cases that are not refused: with accents, without, and with one that stands in two pieces.
    accents: BTreeMap<u8, [usize; 3]>,
}

/// The room for an answer of n: plenty, just enough, one too few, or anything less.
pub fn room(rng: &mut Random, n: usize) -> usize {
    match rng.below(14) {
        0 | 1 => n,
        2 => n.saturating_sub(1),
        3 => rng.below(n + 1),
        _ => plenty(rng, n),
    }
}

pub fn plenty(rng: &mut Random, n: usize) -> usize {
    n + 1 + rng.below(50)
}

/// A case, put under limits where there are some.
fn under(limits: Option<Limits>, kind: u8, case: Payload) -> (u8, Payload) {
    let Some(limits) = limits else {
        return (kind, case);
    };
    let p = limits.list().iter().fold(Payload::new(), |p, &most| p.bytes(&(most as u64).to_le_bytes()));
    (kind::UNDER_LIMITS, p.byte(kind).bytes(&case.0))
}

/// The numbers of xs and of ys; the xs, the ys.
fn at_centres(d: &Drawn) -> Payload {
    Payload::new().word(d.xs.len()).word(d.ys.len()).floats(&d.xs).floats(&d.ys)
}

impl<'a> Calls<'a> {
    pub fn new(out: &'a mut Stream, spoil: usize) -> Self {
        Self {
            out,
            spoil,
            rng: Random::new(909),
            answers: BTreeMap::new(),
            limits: None,
            limited: BTreeMap::new(),
            starts: [0; SORTS.len()],
            accents: BTreeMap::new(),
        }
    }

    /// Adds the case where it is short enough, and where it is small now and then one that is spoiled.
    fn add(&mut self, call: &Call) {
        let (kind, p) = under(self.limits, call.kind, call.case(call.answer, &call.written));
        if p.0.len() > LONGEST - 1 {
            return;
        }
        if call.answer == 0 && call.kind != kind::NUMBER && self.limits.is_none() {
            self.note(call);
        }
        // Under limits, half as many are spoiled, and shorter ones.
        let (counts, each, short) = match self.limits {
            None => (&mut self.answers, self.spoil, 6_000),
            Some(_) => (&mut self.limited, 2 * self.spoil, 1_000),
        };
        let count = counts.entry((call.kind, call.answer)).or_default();
        *count += 1;
        let spoil = each > 0 && *count % each == 1 && p.0.len() < short;
        self.out.case(kind, p);
        if spoil {
            let (kind, p) = under(self.limits, call.kind, call.spoiled(&mut self.rng));
            self.out.spoiled(kind, p);
        }
    }

    /// Puts the cases that `f` makes under limits.
    pub fn under(&mut self, limits: Limits, f: impl FnOnce(&mut Self)) {
        self.limits = Some(limits);
        f(self);
        self.limits = None;
    }

    /// The limits of the calls.
    fn most(&self) -> Limits {
        self.limits.unwrap_or(MAIN_SCREEN)
    }

    /// A spoiled check: the sheet is not answered so under these limits.
    pub fn spoiled_check(&mut self, sheet: &[u8], limits: Limits, answer: u8) {
        assert_ne!(calls::check(sheet, limits).err().unwrap_or(0), answer, "it is as it was");
        let call = Call { kind: kind::CHECK, sheet: sheet.to_vec(), ..Call::default() };
        let (kind, p) = under(Some(limits), call.kind, call.case(answer, &[]));
        self.out.spoiled(kind, p);
    }

    /// Counts the accents, and of a listing the starts, of a case that is not refused.
    fn note(&mut self, call: &Call) {
        let (some, parted) = if call.kind == kind::LABEL_SIZE {
            (has_accent(&call.sheet), false)
        } else {
            let sheet = read(&call.sheet, MAIN_SCREEN).unwrap();
            if call.kind == kind::LIST {
                self.starts[sort_of_starts(&sheet.graph())] += 1;
            }
            sort_of_accents(&sheet)
        };
        let counts = self.accents.entry(call.kind).or_default();
        counts[usize::from(!some)] += 1;
        counts[2] += usize::from(parted);
    }

    /// The cases so far, spoiled ones and those under limits left out.
    pub fn cases(&self) -> usize {
        self.answers.values().sum()
    }

    /// How many cases under limits of a kind have an answer.
    pub fn limited(&self, kind: u8, answer: u8) -> usize {
        self.limited.get(&(kind, answer)).copied().unwrap_or(0)
    }

    /// The counts; every refusal is there, and 1 to 6 by each call that takes a sheet, and accents in every kind.
    pub fn end(&self) {
        for refusal in 1..=11 {
            assert!(self.answers.keys().any(|k| k.1 == refusal), "no refusal {refusal}");
        }
        for refusal in [0, 1, 2, 3, 4, 5, 6, 7, 11] {
            assert!(self.answers.contains_key(&(kind::LIST, refusal)), "no listing {refusal}");
        }
        for answer in 0..=7 {
            assert!(self.answers.contains_key(&(kind::WRITE_SHEET, answer)), "no written sheet {answer}");
        }
        assert!(self.starts.iter().all(|&n| n > 0), "starts: {:?}", self.starts);
        println!("listings, by starts: {:?}", SORTS.iter().zip(self.starts).collect::<Vec<_>>());
        for kind in (kind::ROUTE..=kind::LABEL_SIZE).chain([kind::WRITE_SHEET]) {
            let [some, none, parted] = self.accents[&kind];
            println!("kind {kind}, not refused: {some} with accents, {none} without; in two pieces {parted}");
            assert!(some > 0 && none > 0 && (parted > 0 || kind == kind::LABEL_SIZE), "accents of kind {kind}");
        }
        println!("calls, by kind and answer: {:?}", self.answers);
        for kind in (kind::ROUTE..=kind::LABEL_SIZE).chain([kind::WRITE_SHEET]) {
            let answers: &[u8] = match kind {
                kind::ROUTE => &[0, 1, 2, 3, 4, 5, 6, 7, 8, 9],
                kind::LAYOUT | kind::LIST => &[0, 1, 2, 3, 4, 5, 6, 7, 11],
                kind::CLUTTER => &[0, 1, 2, 3, 4, 5, 6, 8, 9],
                kind::CHECK => &[0, 1, 2, 3, 4, 5, 6],
                kind::LABEL_SIZE => &[0, 5, 6],
                _ => &[0, 1, 2, 3, 4, 5, 6, 7],
            };
            for &answer in answers {
                assert!(self.limited(kind, answer) > 0, "no case of kind {kind} under limits is answered {answer}");
            }
        }
        println!("under limits, by kind and answer: {:?}", self.limited);
    }

    /// Given: the centres; the rooms that are lent for records and text. Written: the number of numbers
    /// of the records, these numbers, the text.
    pub fn route(&mut self, d: &Drawn, lent: fn(&mut Random, usize) -> usize) {
        let most = self.most();
        let (n, m) = calls::route(&d.sheet, most, &d.xs, &d.ys, (usize::MAX, usize::MAX))
            .map_or((20, 20), |r| (r.records.len(), r.text.len()));
        let (n, m) = (lent(&mut self.rng, n), lent(&mut self.rng, m));
        let (answer, records, text) = match calls::route(&d.sheet, most, &d.xs, &d.ys, (n, m)) {
            Ok(r) => (0, r.records, r.text),
            Err(e) => (e, vec![], vec![]),
        };
        let other = if self.rng.once_in(2) {
            Payload::new().word(1).float(0.0)
        } else {
            Payload::new().word(0).bytes(b"\n")
        };
        let call = Call {
            kind: kind::ROUTE,
            answer,
            sheet: d.sheet.clone(),
            given: at_centres(d).word(n).word(m),
            written: Payload::new().word(records.len()).floats(&records).bytes(&text).0,
            other: other.0,
            ..Call::default()
        };
        self.add(&call);
    }

    /// Given: the rooms that are lent for x and for y. Written: the number of states, width, height, the
    /// xs, the ys.
    pub fn layout(&mut self, d: &Drawn, by: u8, lent: fn(&mut Random, usize) -> usize) {
        let most = self.most();
        let n = calls::layout(&d.sheet, most, by, (usize::MAX, usize::MAX)).map_or(3, |l| l.x.len());
        let (n, m) = (lent(&mut self.rng, n), lent(&mut self.rng, n));
        let (answer, size, xs, ys) = match calls::layout(&d.sheet, most, by, (n, m)) {
            Ok(l) => (0, [l.width, l.height], l.x, l.y),
            Err(e) => (e, [0.0; 2], vec![], vec![]),
        };
        let call = Call {
            kind: kind::LAYOUT,
            answer,
            by,
            sheet: d.sheet.clone(),
            given: Payload::new().word(n).word(m),
            written: Payload::new().word(xs.len()).floats(&size).floats(&xs).floats(&ys).0,
            other: Payload::new().word(1).floats(&size).floats(&[38.0, 38.0]).0,
            ..Call::default()
        };
        self.add(&call);
    }

    /// Given: the centres. Written: the count, four bytes.
    pub fn clutter(&mut self, d: &Drawn) {
        let answer = calls::clutter(&d.sheet, self.most(), &d.xs, &d.ys);
        let call = Call {
            kind: kind::CLUTTER,
            answer: answer.err().unwrap_or(0),
            sheet: d.sheet.clone(),
            given: at_centres(d),
            written: Payload::new().long(answer.unwrap_or(0)).0,
            ..Call::default()
        };
        self.add(&call);
    }

    /// Given: the room that is lent. Written: the text.
    pub fn list(&mut self, d: &Drawn, by: u8, lent: fn(&mut Random, usize) -> usize) {
        let n = calls::list(&d.sheet, self.most(), by, usize::MAX).map_or(20, |t| t.len());
        let n = lent(&mut self.rng, n);
        let answer = calls::list(&d.sheet, self.most(), by, n);
        let call = Call {
            kind: kind::LIST,
            answer: answer.as_ref().err().copied().unwrap_or(0),
            by,
            sheet: d.sheet.clone(),
            given: Payload::new().word(n),
            written: answer.unwrap_or_default(),
            other: b"size 32 32\n".to_vec(),
            ..Call::default()
        };
        self.add(&call);
    }

    /// Behind the sheet stand bytes that are no part of it. The answer.
    pub fn check(&mut self, sheet: &[u8]) -> u8 {
        let call = Call {
            kind: kind::CHECK,
            answer: calls::check(sheet, self.most()).err().unwrap_or(0),
            sheet: sheet.to_vec(),
            behind: vec![170; 1 + self.rng.below(40)],
            ..Call::default()
        };
        self.add(&call);
        call.answer
    }

    /// The text stands in the sheet's place. Given: the number of lines and, behind what is written, their
    /// lengths, eight bytes each, and bytes that are no length. Written: width and height.
    pub fn label(&mut self, text: &[u8], lengths: &[usize]) {
        let answer = calls::label_size(text, lengths, self.most());
        let (w, h) = answer.unwrap_or((0.0, 0.0));
        let behind = lengths.iter().flat_map(|n| (*n as u64).to_le_bytes()).chain([170; 16]);
        let call = Call {
            kind: kind::LABEL_SIZE,
            answer: answer.err().unwrap_or(0),
            sheet: text.to_vec(),
            given: Payload::new().word(lengths.len()),
            written: Payload::new().floats(&[w, h]).0,
            behind: behind.collect(),
            ..Call::default()
        };
        self.add(&call);
    }

    /// No sheet. Given: the number and the room that is lent. Written: the text.
    pub fn written(&mut self, v: f64, room: usize) {
        let answer = calls::write_num(v, room);
        let call = Call {
            kind: kind::NUMBER,
            answer: answer.as_ref().err().copied().unwrap_or(0),
            given: Payload::new().float(v).word(room),
            written: answer.unwrap_or_default(),
            other: b"0".to_vec(),
            ..Call::default()
        };
        self.add(&call);
    }

    /// Given: the room that is lent, four bytes, at most [`MOST_ROOM`]. Written: the sheet as it is saved. The answer.
    pub fn write_sheet(&mut self, sheet: &[u8], room: usize) -> Result<Vec<u8>, u8> {
        assert!(room <= MOST_ROOM);
        let call = saving(sheet, self.most(), room);
        let answer = call.answer;
        self.add(&call);
        if answer == 0 { Ok(call.written) } else { Err(answer) }
    }

    /// The same case, spoiled: with this answer and this that is written.
    pub fn spoiled_sheet(&mut self, sheet: &[u8], room: usize, answer: u8, written: &[u8]) {
        let call = saving(sheet, MAIN_SCREEN, room);
        assert!((answer, written) != (call.answer, &call.written), "it is as it was");
        self.out.spoiled(kind::WRITE_SHEET, call.case(answer, written));
    }

    /// How many cases of a kind have an answer.
    pub fn with_answer(&self, kind: u8, answer: u8) -> usize {
        self.answers.get(&(kind, answer)).copied().unwrap_or(0)
    }

    pub fn call(&mut self, kind: u8, d: &Drawn) {
        match kind {
            kind::ROUTE => self.route(d, room),
            kind::LAYOUT => {
                let by = layout_kind(&mut self.rng);
                self.layout(d, by, room);
            }
            kind::CLUTTER => self.clutter(d),
            kind::LIST => {
                let by = layout_kind(&mut self.rng);
                self.list(d, by, room);
            }
            kind::CHECK => {
                self.check(&d.sheet);
            }
            kind::LABEL_SIZE => {
                let (text, lengths) = label_lines(&mut self.rng);
                self.label(&text, &lengths);
            }
            kind::WRITE_SHEET => {
                let n = calls::write_sheet(&d.sheet, self.most(), usize::MAX).map_or(d.sheet.len(), |t| t.len());
                let n = room(&mut self.rng, n);
                let _ = self.write_sheet(&d.sheet, n);
            }
            _ => {
                let v = number(&mut self.rng);
                let n = calls::write_num(v, usize::MAX).map_or(3, |t| t.len());
                let n = room(&mut self.rng, n).min(64);
                self.written(v, n);
            }
        }
    }
}

pub fn small(rng: &mut Random) -> Sheet {
    let size = Size {
        states: rng.below(7),
        arrows: rng.below(9),
        lines: 2,
        characters: 10,
    };
    sheet(rng, size)
}

/// One state, arrow, line or byte of a line more than there may be, or a line that is not well-formed.
pub fn unsound(rng: &mut Random) -> Sheet {
    let mut list = sheet(rng, Size { states: 3, arrows: 4, lines: 2, characters: 8 });
    let first = &mut list.arrows[0];
    match rng.below(6) {
        0 => list.states.resize(65, 0),
        1 => list.arrows = vec![Arrow { from: 0, to: 1, lines: vec![] }; 257],
        2 => first.lines.resize(9, full_pieces(b"a")),
        3 => first.lines = vec![full_pieces(&[b'a'; 97])],
        _ => first.lines = vec![full_pieces(rng.pick(&ILL))],
    }
    list
}

/// The sheet's bytes: one in six is damaged, cut short, too long or unsound.
fn drawn(rng: &mut Random, drawing: &Sheet) -> Drawn {
    let (xs, ys) = centres(rng, drawing);
    let mut sheet = shuffled(rng, drawing);
    match rng.below(36) {
        0 => sheet.truncate(rng.below(sheet.len())),
        1 => sheet.extend(&sheet[..1 + rng.below(16)].to_vec()),
        2 | 3 => {
            let list = unsound(rng);
            sheet = shuffled(rng, &list);
        }
        4 | 5 => damage(rng, &mut sheet),
        _ => {}
    }
    Drawn { sheet, xs, ys }
}

/// A two-way pair with a third state beside one end: no near bow is free.
fn crowded(rng: &mut Random) -> Drawn {
    let arrow = |from, to| Arrow { from, to, lines: vec![] };
    let mut list = Sheet { states: vec![0; 3], arrows: vec![arrow(0, 1), arrow(1, 0)] };
    starts(rng, &mut list.states);
    let near = rng.pick(&[1e-5, 1e-7, 1e-9, 1e-12]);
    Drawn {
        sheet: shuffled(rng, &list),
        xs: vec![0.0, 140.0, near],
        ys: vec![0.0, 0.0, rng.pick(&[31.0, -31.0])],
    }
}

/// A centre beside the limit.
fn far(rng: &mut Random) -> Drawn {
    let mut drawing = Sheet { states: vec![0, 2], arrows: vec![] };
    starts(rng, &mut drawing.states);
    let v = rng.pick(&[1_048_576.0, 1_048_576.000_000_000_2, -1_048_576.0, -1e7]);
    let (xs, ys) = if rng.once_in(2) { (vec![0.0, v], vec![]) } else { (vec![], vec![v]) };
    Drawn { sheet: shuffled(rng, &drawing), xs, ys }
}

/// As many states and arrows as there may be, on a grid.
fn largest(rng: &mut Random) -> Drawn {
    let size = Size { states: 64, arrows: 256, lines: 1, characters: 4 };
    let drawing = sheet(rng, size);
    let along = |i: usize| 140.0 * i as f64;
    let xs = (0..64).map(|i| along(i % 8)).collect();
    let ys = (0..64).map(|i| along(i / 8)).collect();
    Drawn { sheet: shuffled(rng, &drawing), xs, ys }
}

/// An accepted sheet of 65,536 bytes and one byte more: its length alone is refused.
fn too_long(rng: &mut Random) -> Drawn {
    let full = sheets::largest(rng);
    let mut sheet = shuffled(rng, &full);
    assert!(sheet.len() == 65_536 && calls::check(&sheet, MAIN_SCREEN).is_ok());
    sheet.push(0);
    assert_eq!(calls::check(&sheet, MAIN_SCREEN), Err(1));
    Drawn { sheet, xs: vec![], ys: vec![] }
}

/// A drawing for a call at a given turn: some crowded, some far, now and then one of any size.
pub fn turn(rng: &mut Random, i: usize) -> Drawn {
    match i % 30 {
        3 => crowded(rng),
        14 => far(rng),
        25 => {
            let drawing = drawing(rng);
            drawn(rng, &drawing)
        }
        _ => {
            let drawing = small(rng);
            drawn(rng, &drawing)
        }
    }
}

/// Listings until 260 are not refused, one of a sheet that is too long, 490 calls of all kinds, mixed, and
/// what is missing of the refusals 1 to 6 by each call that takes a sheet.
pub fn cases(c: &mut Calls) {
    let rng = &mut Random::new(707);
    while c.with_answer(kind::LIST, 0) < 260 {
        let drawing = if rng.once_in(40) { drawing(rng) } else { small(rng) };
        let d = drawn(rng, &drawing);
        let by = layout_kind(rng);
        c.list(&d, by, room);
    }
    let by = rng.below(3) as u8;
    let d = too_long(rng);
    c.list(&d, by, room);
    for kind in kind::ROUTE..=kind::LIST {
        let d = largest(rng);
        c.call(kind, &d);
    }
    for i in 0..490 {
        let d = turn(rng, i);
        // Crowded and far centres are for those calls that are given centres.
        let kind = match i % 30 {
            3 | 14 => rng.pick(&[kind::ROUTE, kind::CLUTTER]),
            _ => kind::ROUTE + rng.below(7) as u8,
        };
        c.call(kind, &d);
    }
    for kind in kind::ROUTE..=kind::CHECK {
        for refusal in 1..=6 {
            while !c.answers.contains_key(&(kind, refusal)) {
                let drawing = small(rng);
                let d = drawn(rng, &drawing);
                if calls::check(&d.sheet, MAIN_SCREEN) == Err(refusal) {
                    c.call(kind, &d);
                }
            }
        }
    }
}

fn layout_kind(rng: &mut Random) -> u8 {
    if rng.once_in(12) { rng.pick(&[3, 4, 255]) } else { rng.below(3) as u8 }
}
