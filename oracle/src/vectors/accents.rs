//! Accents, the characters U+0300 to U+036F, which have no width: label blocks, and sheets beside the same
//! sheets without accents.

use std::fmt::Debug;

use super::{Calls, Drawn, plenty};
use crate::calls;
use crate::generate::{
    Size, accented, from_first, full_pieces, line, ordered, shuffled, sort_of_accents, starts, without_accents,
};
use crate::random::Random;
use crate::sheet::{Arrow, Line, MAIN_SCREEN, Sheet};

/// The width of an ASCII character.
const NARROW: f64 = 0.6 * 12.0;

/// 144 characters twice, 12 blocks, 4 calls for each of 8 labels three times and of 10 sheets twice, 6 sheets twice.
const CASES: usize = 2 * 144 + 12 + 4 * (3 * 8 + 2 * 10) + 2 * 6;

pub fn cases(c: &mut Calls) {
    let rng = &mut Random::new(404);
    let before = c.cases();
    each(c);
    blocks(c);
    for lines in labels() {
        named(c, rng, &lines);
    }
    for i in 0..10 {
        pair(c, rng, i);
    }
    limits(c, rng);
    assert_eq!(c.cases() - before, CASES, "a case is left out");
}

/// A label block and what it must give: its size, or 5 or 6.
fn sized(c: &mut Calls, lines: &[&[u8]], answer: Result<(f64, f64), u8>) {
    let text = lines.concat();
    let lengths: Vec<usize> = lines.iter().map(|l| l.len()).collect();
    assert_eq!(calls::label_size(&text, &lengths, MAIN_SCREEN), answer, "{lines:x?}");
    c.label(&text, &lengths);
}

/// Each accent, and the sixteen characters before them and behind: alone in a line, and after an `a`.
fn each(c: &mut Calls) {
    for n in 0x2f0..0x380 {
        let character = char::from_u32(n).unwrap();
        let width = if (0x300..0x370).contains(&n) { 0.0 } else { 12.0 };
        sized(c, &[character.to_string().as_bytes()], Ok((width, 15.0)));
        sized(c, &[format!("a{character}").as_bytes()], Ok((NARROW + width, 15.0)));
    }
}

/// The first n accents.
fn first(n: u32) -> String {
    (0x300..0x300 + n).map(|n| char::from_u32(n).unwrap()).collect()
}

/// Lines of accents alone, lines as long as may be and a byte longer, and accents that are cut in two.
fn blocks(c: &mut Calls) {
    let full = first(48);
    let acute = "\u{301}".as_bytes();
    sized(c, &[acute; 8], Ok((0.0, 120.0)));
    sized(c, &[acute; 9], Err(5));
    sized(c, &[b"", acute], Ok((0.0, 30.0)));
    sized(c, &[full.as_bytes()], Ok((0.0, 15.0)));
    sized(c, &[full.as_bytes(); 8], Ok((0.0, 120.0)));
    sized(c, &[first(49).as_bytes()], Err(5));
    sized(c, &[format!("{full}a").as_bytes()], Err(5));
    sized(c, &[format!("a{full}").as_bytes()], Err(5));
    sized(c, &[format!("a{}b", first(47)).as_bytes()], Ok((NARROW + NARROW, 15.0)));
    sized(c, &[b"ab", format!("a{}", first(47)).as_bytes()], Ok((NARROW + NARROW, 30.0)));
    sized(c, &[b"a\xcc", b"\x81"], Err(6));
    sized(c, &[b"\xcd", b"\xafa"], Err(6));
}

/// Labels: accents alone, before and behind other characters, in a row, beside the borders, as many as may be.
fn labels() -> Vec<Vec<String>> {
    let text = |s: &str| s.to_string();
    vec![
        vec![text("\u{301}")],
        vec![text("\u{36f}"); 8],
        vec![first(48)],
        vec![text("a\u{301}")],
        vec![text("\u{300}a")],
        vec![text("ab\u{300}\u{36f}\u{33f}c\u{340}\u{340}d")],
        vec![text("\u{2ff}\u{300}\u{36f}\u{370}\u{2ff}\u{370}")],
        vec![text("¹⁹⁵"), format!("m{}z", first(40)), text("")],
    ]
}

/// A line's bytes in pieces, of which one ends within each accent.
fn parted(text: &str) -> Line {
    let mut line = vec![vec![]];
    for b in text.bytes() {
        line.last_mut().unwrap().push(b);
        if b == 0xcc || b == 0xcd {
            line.push(vec![]);
        }
    }
    line.iter().flat_map(|piece| full_pieces(piece)).collect()
}

/// An arrow with these lines and a loop with the first of them.
fn labelled(lines: Vec<Line>) -> Sheet {
    let arrow = |from, to, lines: &[Line]| Arrow { from, to, lines: lines.to_vec() };
    Sheet { states: vec![1, 2], arrows: vec![arrow(0, 1, &lines), arrow(1, 1, &lines[..1])] }
}

/// A label without its accents, and with them in few pieces, and parted within each accent.
fn named(c: &mut Calls, rng: &mut Random, lines: &[String]) {
    let few = labelled(lines.iter().map(|l| full_pieces(l.as_bytes())).collect());
    let parted = labelled(lines.iter().map(|l| parted(l)).collect());
    assert_eq!((sort_of_accents(&few).0, sort_of_accents(&parted)), (true, (true, true)));
    let plain = without_accents(rng, &few);
    alike(c, rng, &[plain, few, parted]);
}

/// A sheet with accents, and the same without them.
fn pair(c: &mut Calls, rng: &mut Random, i: usize) {
    let size = Size { states: 2 + i % 4, arrows: 2 + rng.below(4), lines: 2, characters: 8 };
    let mut list = from_first(rng, size);
    starts(rng, &mut list.states);
    list.arrows.push(Arrow { from: 0, to: 1, lines: vec![line(rng, 8)] });
    accented(rng, &mut list);
    let plain = without_accents(rng, &list);
    alike(c, rng, &[plain, list]);
}

/// What the oracle answers to all calls that draw; it refuses none of them.
fn answers(d: &Drawn) -> impl PartialEq + Debug + use<> {
    let room = usize::MAX;
    let (sheet, limits) = (&d.sheet, MAIN_SCREEN);
    let routing = calls::route(sheet, limits, &d.xs, &d.ys, (room, room)).map(|r| (r.records, r.text)).unwrap();
    let layouts = [0, 1, 2].map(|by| calls::layout(sheet, limits, by, (room, room)).unwrap());
    let listings = [0, 1, 2].map(|by| calls::list(sheet, limits, by, room).unwrap());
    (routing, layouts, calls::clutter(sheet, limits, &d.xs, &d.ys).unwrap(), listings)
}

/// The cases of sheets that differ in accents alone, the first of which has none: the oracle answers them alike.
fn alike(c: &mut Calls, rng: &mut Random, list: &[Sheet]) {
    let n = list[0].states.len();
    let mut spread = || -> Vec<f64> { (0..n).map(|_| rng.between(0.0, 300.0).round()).collect() };
    let (xs, ys) = (spread(), spread());
    let by = rng.below(3) as u8;
    let all: Vec<Drawn> =
        list.iter().map(|s| Drawn { sheet: shuffled(rng, s), xs: xs.clone(), ys: ys.clone() }).collect();
    for (i, d) in all.iter().enumerate() {
        assert_eq!(sort_of_accents(&list[i]).0, i > 0);
        assert!(calls::check(&d.sheet, MAIN_SCREEN).is_ok());
        assert_eq!(answers(d), answers(&all[0]));
        c.route(d, plenty);
        c.layout(d, by, plenty);
        c.clutter(d);
        c.list(d, (by + 1) % 3, plenty);
    }
}

/// Lines of as many accents as may be, of a byte more and of an accent more; half an accent, and one in two lines.
fn limits(c: &mut Calls, rng: &mut Random) {
    let full = first(48);
    for (lines, answer) in [
        (vec![full_pieces(full.as_bytes()); 8], 0),
        (vec![full_pieces(format!("{full}a").as_bytes())], 5),
        (vec![parted(&first(49))], 5),
        (vec![vec![b"a\xcc".to_vec()]], 6),
        (vec![vec![b"\xcd".to_vec(), b"a".to_vec()]], 6),
        (vec![vec![b"a\xcc".to_vec()], vec![b"\x81".to_vec()]], 6),
    ] {
        let sheet = labelled(lines);
        assert_eq!(c.check(&ordered(&sheet)), answer);
        assert_eq!(c.check(&shuffled(rng, &sheet)), answer);
    }
}
