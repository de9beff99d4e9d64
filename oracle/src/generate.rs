//! Sheets and centres made at random, the same at every run.

use crate::graph::Graph;
use crate::layout::{LayoutKind, layout};
use crate::random::Random;
use crate::sheet::{
    ARROWS, Arrow, LINE_BYTES, LINES, Limits, Line, MAIN_SCREEN, SERVICE_PANEL, SHEET_BYTES, STATES, Sheet,
};

/// The most records that a sheet holds.
const RECORDS: usize = SHEET_BYTES / 16 - 1;

/// Characters of every length, at the borders of each length too.
const CHARACTERS: [char; 24] = [
    'a', 'b', '0', '1', ' ', ',', 'R', '~', '\u{0}', '\u{7f}', '\u{80}', 'é', '\u{7ff}', '\u{800}',
    '↦', '␣', '\u{d7ff}', '\u{e000}', '\u{ffff}', '\u{10000}', '𝔸', '\u{fffff}', '\u{10ffff}', 'μ',
];

/// A text of n characters, most of them ASCII.
pub fn text(rng: &mut Random, n: usize) -> String {
    (0..n)
        .map(|_| {
            if rng.once_in(4) {
                rng.pick(&CHARACTERS)
            } else {
                char::from(b' ' + rng.below(95) as u8)
            }
        })
        .collect()
}

/// Bytes cut into pieces of 1 to 12, anywhere.
pub fn pieces(rng: &mut Random, bytes: &[u8]) -> Line {
    let mut line = Vec::new();
    let mut rest = bytes;
    while !rest.is_empty() {
        let n = (1 + rng.below(12)).min(rest.len());
        line.push(rest[..n].to_vec());
        rest = &rest[n..];
    }
    line
}

/// Bytes cut into as few pieces as can be.
pub fn full_pieces(bytes: &[u8]) -> Line {
    bytes.chunks(12).map(<[u8]>::to_vec).collect()
}

/// A line of at most 96 bytes.
pub fn line(rng: &mut Random, characters: usize) -> Line {
    let mut t = text(rng, characters);
    shorten(&mut t, LINE_BYTES);
    pieces(rng, t.as_bytes())
}

/// How large a sheet is made.
#[derive(Clone, Copy)]
pub struct Size {
    pub states: usize,
    pub arrows: usize,
    /// Lines an arrow, at the most.
    pub lines: usize,
    /// Characters a line, at the most.
    pub characters: usize,
}

/// A sheet of that size, with starts of every sort; about every second has accents.
pub fn sheet(rng: &mut Random, size: Size) -> Sheet {
    let mut list = from_first(rng, size);
    starts(rng, &mut list.states);
    if gets_accents(rng) {
        accented(rng, &mut list);
    }
    list
}

/// Whether a sheet or a label gets accents: in five of nine, since some have no line to take them.
pub fn gets_accents(rng: &mut Random) -> bool {
    rng.below(9) < 5
}

/// The characters that have no width.
pub fn is_accent(c: char) -> bool {
    ('\u{300}'..='\u{36f}').contains(&c)
}

/// The first and the last accent, and the characters beside them.
const BORDERS: [char; 4] = ['\u{2ff}', '\u{300}', '\u{36f}', '\u{370}'];

/// Any accent; one in four is the first or the last.
fn accent(rng: &mut Random) -> char {
    let n = if rng.once_in(4) { rng.pick(&[0, 111]) } else { rng.below(112) };
    char::from_u32(0x300 + n as u32).unwrap()
}

/// So many accents, in one of three cases the same one again and again.
pub fn accents(rng: &mut Random, n: usize) -> String {
    if rng.once_in(3) {
        accent(rng).to_string().repeat(n)
    } else {
        (0..n).map(|_| accent(rng)).collect()
    }
}

/// Puts more characters into a text, in one place: at its start, or behind any of its characters.
fn insert(rng: &mut Random, text: &mut String, more: &str) {
    let place = rng.below(text.chars().count() + 1);
    let at = text.char_indices().nth(place).map_or(text.len(), |(at, _)| at);
    text.insert_str(at, more);
}

/// Takes characters from the end of a text until it has no more than so many bytes.
fn shorten(text: &mut String, most: usize) {
    while text.len() > most {
        text.pop();
    }
}

/// A line's text with accents, within 96 bytes. One accent is left at the least.
pub fn with_accents(rng: &mut Random, mut text: String) -> String {
    shorten(&mut text, LINE_BYTES - 8);
    let few = 1 + rng.below(3);
    let way = if text.is_empty() { 0 } else { rng.below(20) };
    match way {
        // Accents alone: a few, or 46 to 48.
        0..=3 => text = accents(rng, few),
        4 => text = accents(rng, LINE_BYTES / 2 - few + 1),
        5..=8 => text.insert_str(0, &accents(rng, few)),
        9..=12 => {
            let more = accents(rng, few);
            insert(rng, &mut text, &more);
        }
        13..=15 => text = text.chars().map(|c| format!("{c}{}", accents(rng, 1))).collect(),
        16 | 17 => BORDERS.iter().for_each(|c| insert(rng, &mut text, &c.to_string())),
        18 => insert(rng, &mut text, &String::from_iter(BORDERS)),
        // Up to the limit.
        _ => {
            while text.len() + 2 <= LINE_BYTES {
                let more = accents(rng, 1);
                insert(rng, &mut text, &more);
            }
        }
    }
    shorten(&mut text, LINE_BYTES);
    text
}

/// A text with accents in pieces cut anywhere; in every second line one piece ends within an accent.
pub fn accented_line(rng: &mut Random, text: String) -> Line {
    let text = with_accents(rng, text);
    let within: Vec<usize> = text.char_indices().filter(|p| is_accent(p.1)).map(|p| p.0 + 1).collect();
    let at = if rng.once_in(2) { rng.pick(&within) } else { 0 };
    let (before, after) = text.as_bytes().split_at(at);
    let mut line = pieces(rng, before);
    line.extend(pieces(rng, after));
    line
}

/// Puts accents into a third of a sheet's lines, into one at the least, as long as there is room for their records.
pub fn accented(rng: &mut Random, list: &mut Sheet) {
    let mut room = RECORDS.saturating_sub(list.records());
    let lines: Vec<&mut Line> = list.arrows.iter_mut().flat_map(|a| &mut a.lines).collect();
    let sure = rng.below(lines.len().max(1));
    for (i, line) in lines.into_iter().enumerate() {
        if i != sure && !rng.once_in(3) {
            continue;
        }
        let text = String::from_utf8(line.concat()).unwrap();
        let new = accented_line(rng, text);
        if new.len() <= room + line.len() {
            room = room + line.len() - new.len();
            *line = new;
        }
    }
}

/// The sheet without the accents of its lines.
pub fn without_accents(rng: &mut Random, list: &Sheet) -> Sheet {
    let mut list = list.clone();
    for line in list.arrows.iter_mut().flat_map(|a| &mut a.lines) {
        let text = String::from_utf8(line.concat()).unwrap();
        let rest: String = text.chars().filter(|c| !is_accent(*c)).collect();
        *line = pieces(rng, rest.as_bytes());
    }
    list
}

/// Whether a text, which is well-formed, has an accent.
pub fn has_accent(text: &[u8]) -> bool {
    std::str::from_utf8(text).unwrap().chars().any(is_accent)
}

/// Whether a line of a sheet has an accent, and whether the two bytes of one stand in two pieces.
pub fn sort_of_accents(list: &Sheet) -> (bool, bool) {
    let lines = || list.arrows.iter().flat_map(|a| &a.lines);
    let parted = |pair: &[Vec<u8>]| {
        let ends: Vec<u8> = pair[0].last().into_iter().chain(pair[1].first()).copied().collect();
        std::str::from_utf8(&ends).is_ok_and(|t| t.chars().any(is_accent))
    };
    (lines().any(|l| has_accent(&l.concat())), lines().any(|l| l.windows(2).any(parted)))
}

/// Makes some of the states starts, and no other: none of them, the first, any one, or several.
pub fn starts(rng: &mut Random, states: &mut [u8]) {
    let one = rng.below(states.len().max(1));
    let way = rng.below(6);
    for (i, s) in states.iter_mut().enumerate() {
        let start = match way {
            0 => false,
            1 => i == 0,
            2 | 3 => i == one,
            4 => i == one || rng.once_in(4),
            _ => i > 0 && (i == one || rng.once_in(4)),
        };
        *s = (*s & !1) | u8::from(start);
    }
}

/// The sorts of starts that a graph may have.
pub const SORTS: [&str; 6] = ["no states", "no start", "state 0", "a later one", "0 and others", "later ones"];

/// The place in `SORTS` of a graph's starts.
pub fn sort_of_starts(graph: &Graph) -> usize {
    let starts: Vec<usize> = (0..graph.nodes.len()).filter(|&i| graph.nodes[i].is_start).collect();
    match starts.as_slice() {
        _ if graph.nodes.is_empty() => 0,
        [] => 1,
        [0] => 2,
        [_] => 3,
        [0, ..] => 4,
        _ => 5,
    }
}

/// A sheet of that size whose first state is a start. Some arrows are loops, some have an end that is no state.
pub fn from_first(rng: &mut Random, size: Size) -> Sheet {
    let states: Vec<u8> = (0..size.states)
        .map(|i| u8::from(i == 0 || rng.once_in(12)) | (u8::from(rng.once_in(4)) << 1))
        .collect();
    let arrows = (0..size.arrows)
        .map(|_| {
            let end = |rng: &mut Random| {
                if rng.once_in(25) || size.states == 0 {
                    rng.pick(&[size.states, 255, 256, 65_535]) as u16
                } else {
                    rng.below(size.states) as u16
                }
            };
            let from = end(rng);
            let to = if rng.once_in(8) { from } else { end(rng) };
            let lines = (0..rng.below(size.lines + 1))
                .map(|_| {
                    let n = rng.below(size.characters + 1);
                    line(rng, n)
                })
                .collect();
            Arrow { from, to, lines }
        })
        .collect();
    Sheet { states, arrows }
}

/// The records' places, shuffled.
pub fn places(rng: &mut Random, n: usize) -> Vec<usize> {
    let mut list: Vec<usize> = (1..=n).collect();
    rng.shuffle(&mut list);
    list
}

/// The sheet's bytes with its records in any order.
pub fn shuffled(rng: &mut Random, sheet: &Sheet) -> Vec<u8> {
    let order = places(rng, sheet.records());
    sheet.bytes(&order)
}

/// The sheet's bytes with its records in the order in which they are met.
pub fn ordered(sheet: &Sheet) -> Vec<u8> {
    let order: Vec<usize> = (1..=sheet.records()).collect();
    sheet.bytes(&order)
}

/// The sheet's bytes with its records in the editor's order: each arrow is followed by its lines, each line by its
/// pieces.
pub fn in_order(sheet: &Sheet) -> Vec<u8> {
    let mut last = sheet.states.len();
    let mut next = || {
        last += 1;
        last
    };
    let (mut arrows, mut below) = (Vec::new(), Vec::new());
    for a in &sheet.arrows {
        arrows.push(next());
        let mut texts = Vec::new();
        for l in &a.lines {
            below.push(next());
            texts.extend(l.iter().map(|_| next()));
        }
        below.extend(texts);
    }
    let order: Vec<usize> = (1..=sheet.states.len()).chain(arrows).chain(below).collect();
    sheet.bytes(&order)
}

/// The sheet's bytes: in the editor's order, as its records are met, the other way round, or in any order.
pub fn laid(rng: &mut Random, sheet: &Sheet) -> Vec<u8> {
    match rng.below(8) {
        0 => in_order(sheet),
        1 => ordered(sheet),
        2 => {
            let order: Vec<usize> = (1..=sheet.records()).rev().collect();
            sheet.bytes(&order)
        }
        _ => shuffled(rng, sheet),
    }
}

/// The sheet with each line in as few pieces as can be.
pub fn few_pieces(sheet: &Sheet) -> Sheet {
    let mut list = sheet.clone();
    for line in list.arrows.iter_mut().flat_map(|a| &mut a.lines) {
        *line = full_pieces(&line.concat());
    }
    list
}

/// The sheet with its lines in other pieces, as long as there is room for their records.
pub fn recut(rng: &mut Random, sheet: &Sheet) -> Sheet {
    let mut list = few_pieces(sheet);
    let mut room = RECORDS - list.records();
    for line in list.arrows.iter_mut().flat_map(|a| &mut a.lines) {
        let new = pieces(rng, &line.concat());
        if new.len() <= room + line.len() {
            room = room + line.len() - new.len();
            *line = new;
        }
    }
    list
}

/// A sheet to be saved. Most are small; of the others each stands at one limit or at several. Some lines are empty, and
/// one in four has its lines in as few pieces as can be.
pub fn stored(rng: &mut Random) -> Sheet {
    let tiny = Size { states: rng.below(3), arrows: rng.below(3), lines: 1, characters: 3 };
    let small = Size { states: rng.below(9), arrows: rng.below(10), lines: 3, characters: 20 };
    let mut list = match rng.below(20) {
        0 => sheet(rng, tiny),
        1 => drawing(rng),
        _ => sheet(rng, small),
    };
    for line in list.arrows.iter_mut().flat_map(|a| &mut a.lines) {
        if rng.once_in(8) {
            line.clear();
        }
    }
    if rng.once_in(4) {
        for limit in 0..5 {
            if rng.once_in(4) {
                up_to(rng, &mut list, limit);
            }
        }
    }
    if rng.once_in(4) { few_pieces(&list) } else { list }
}

/// The limits of a sheet, in the order in which [`at_limits`] counts them.
pub const LIMITS: [&str; 5] = ["64 states", "256 arrows", "8 lines", "96 bytes", "4,095 records"];

/// Whether a sheet stands at each limit.
pub fn at_limits(sheet: &Sheet) -> [bool; 5] {
    let lines = || sheet.arrows.iter().flat_map(|a| &a.lines);
    [
        sheet.states.len() == STATES,
        sheet.arrows.len() == ARROWS,
        sheet.arrows.iter().any(|a| a.lines.len() == LINES),
        lines().any(|l| l.concat().len() == LINE_BYTES),
        sheet.records() == RECORDS,
    ]
}

/// Numbers that are above each of the main screen's limits by much.
pub const LARGE: [usize; 5] = [1_000, 65_536, 1 << 32, 1 << 63, usize::MAX];

/// Limits for a sheet with these counts: the main screen's, the panel's, the counts themselves, one below one of them,
/// all above the main screen's, or each for itself any of these or another number.
pub fn limits(rng: &mut Random, own: Limits) -> Limits {
    let mut list = own.list();
    match rng.below(12) {
        0..=2 => return MAIN_SCREEN,
        3 => return SERVICE_PANEL,
        4 | 5 => {}
        6 => {
            let i = rng.below(3);
            list = if rng.once_in(2) { MAIN_SCREEN.list() } else { list };
            list[i] = own.list()[i].saturating_sub(1);
        }
        7 => {
            for (most, main) in list.iter_mut().zip(MAIN_SCREEN.list()) {
                *most = if rng.once_in(3) { main + 1 } else { rng.pick(&LARGE) };
            }
        }
        _ => {
            for (most, main) in list.iter_mut().zip(MAIN_SCREEN.list()) {
                *most = limit(rng, *most, main);
            }
        }
    }
    Limits::of(list)
}

/// A limit for a count, beside the main screen's.
fn limit(rng: &mut Random, own: usize, main: usize) -> usize {
    match rng.below(16) {
        0..=3 => main,
        4 => own,
        5 => own.saturating_sub(1),
        6..=8 => own + 1,
        9 => main - 1,
        10 => main + 1,
        11 => rng.below(2),
        12 => rng.pick(&LARGE),
        13 => rng.next() as usize,
        _ => rng.below(main + 1),
    }
}

/// Makes a sheet longer until it stands at a limit; it stays as it is where that would take too many records.
fn up_to(rng: &mut Random, list: &mut Sheet, limit: usize) {
    let before = list.clone();
    let full = |rng: &mut Random| {
        let wide = ['é', '↦', '𝔸', '\u{301}'];
        let mut t = text(rng, 20);
        while t.len() < LINE_BYTES {
            let c = rng.pick(&wide);
            t.push(if t.len() + c.len_utf8() <= LINE_BYTES { c } else { 'z' });
        }
        pieces(rng, t.as_bytes())
    };
    match limit {
        0 => list.states.resize_with(STATES, || rng.below(4) as u8),
        1 => list.arrows.resize_with(ARROWS, || any_arrow(rng)),
        2 => {
            let mut a = any_arrow(rng);
            a.lines.resize_with(LINES, || {
                let n = rng.below(9);
                line(rng, n)
            });
            one_of(rng, list, a);
        }
        3 => {
            let mut a = any_arrow(rng);
            let line = full(rng);
            a.lines.push(line);
            one_of(rng, list, a);
        }
        _ => fill(rng, list),
    }
    if list.records() > RECORDS {
        *list = before;
    }
}

/// An arrow without lines, now and then between any numbers.
fn any_arrow(rng: &mut Random) -> Arrow {
    let mut end = || if rng.once_in(12) { rng.below(65_536) } else { rng.below(8) };
    Arrow { from: end() as u16, to: end() as u16, lines: vec![] }
}

/// Adds an arrow, or puts it in the place of one where there are as many as may be.
fn one_of(rng: &mut Random, list: &mut Sheet, arrow: Arrow) {
    if list.arrows.len() < ARROWS {
        list.arrows.insert(rng.below(list.arrows.len() + 1), arrow);
    } else {
        let at = rng.below(ARROWS);
        list.arrows[at] = arrow;
    }
}

/// Adds lines, and arrows where those have as many as may be, until there are 4,095 records. The pieces are of one byte,
/// of any length or full.
fn fill(rng: &mut Random, list: &mut Sheet) {
    let way = rng.below(3);
    let mut i = 0;
    while list.records() < RECORDS {
        let left = RECORDS - list.records();
        if i == list.arrows.len() {
            list.arrows.push(any_arrow(rng));
            continue;
        }
        if list.arrows[i].lines.len() == LINES {
            i += 1;
            continue;
        }
        let n = 1 + rng.below(if way == 2 { LINE_BYTES } else { 48 });
        let bytes: Vec<u8> = (0..n).map(|_| b' ' + rng.below(95) as u8).collect();
        let mut line = match way {
            0 => bytes.iter().map(|&b| vec![b]).collect(),
            1 => pieces(rng, &bytes),
            _ => full_pieces(&bytes),
        };
        line.truncate(left - 1);
        list.arrows[i].lines.push(line);
    }
}

/// Centres for a sheet: on a grid, spread, as laid out, close together, far apart, in a row, missing
/// or not finite, beyond the limit, or such that a two-way pair finds no near bow.
pub fn centres(rng: &mut Random, sheet: &Sheet) -> (Vec<f64>, Vec<f64>) {
    let n = sheet.states.len();
    let way = rng.below(14);
    if way < 3 {
        let kind = rng.pick(&[LayoutKind::Auto, LayoutKind::Layered, LayoutKind::Circular]);
        let l = layout(&sheet.graph(), kind);
        return (l.x, l.y);
    }
    let mut coordinate = |i: usize| match way {
        3 | 4 => rng.below(7) as f64 * 70.0,
        5 => rng.between(0.0, 800.0),
        6 => rng.between(0.0, 60.0),
        7 => rng.pick(&[0.0, -0.0, 100.0]),
        8 => rng.pick(&[1_048_576.0, -1_048_576.0, 0.0, 5e5, -3.25]),
        9 => i as f64 * 47.0,
        10 => rng.pick(&[f64::NAN, f64::INFINITY, f64::NEG_INFINITY, 0.0, -0.0, 40.0, 1e-310]),
        11 => rng.between(-1.0, 1.0) * rng.pick(&[1e-161, 1e-163, 1e-9, 1e-8, 1e-300]),
        12 => rng.between(-300.0, 300.0).round(),
        _ => rng.between(-1_048_576.0, 1_048_576.0),
    };
    let mut x: Vec<f64> = (0..n).map(&mut coordinate).collect();
    let mut y: Vec<f64> = (0..n).map(&mut coordinate).collect();
    if way == 9 {
        y = vec![0.0; n];
    }
    if rng.once_in(12) && n > 0 {
        x.truncate(rng.below(n));
    }
    if rng.once_in(12) {
        y.extend([1e30, 5.0]);
    }
    if rng.once_in(25) && !x.is_empty() {
        let k = rng.below(x.len());
        x[k] = rng.pick(&[1_048_576.000_000_000_2, -1e7, 1e300]);
    }
    if rng.once_in(12) && n >= 3 && x.len() >= 3 {
        // A third state beside an end of the pair 0, 1: the least bow past it is large.
        let near = rng.pick(&[1e-9, 1e-7, 1e-5, 1e-12]);
        (x[0], x[1], x[2]) = (0.0, 140.0, near);
        (y[0], y[1], y[2]) = (0.0, 0.0, rng.pick(&[31.0, -31.0, 32.0, 20.0]));
    }
    (x, y)
}

/// A sheet for routing: many two-way pairs, parallel arrows and loops among few states.
pub fn drawing(rng: &mut Random) -> Sheet {
    let size = match rng.below(12) {
        0 => Size { states: rng.below(65), arrows: rng.below(257), lines: 2, characters: 12 },
        1 | 2 => Size { states: 1 + rng.below(30), arrows: rng.below(60), lines: 8, characters: 30 },
        _ => Size { states: 1 + rng.below(8), arrows: rng.below(16), lines: 3, characters: 16 },
    };
    sheet(rng, size)
}
