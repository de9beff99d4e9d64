//! Cases of `write_sheet`: sheets whose records stand in any order and whose lines are cut anywhere.

use super::calls::{MOST_ROOM, room};
use super::sheets::{self, ILL, damage};
use super::{Calls, kind, plenty};
use crate::generate::{
    LIMITS, Size, at_limits, few_pieces, full_pieces, in_order, laid, ordered, pieces, recut, sheet, shuffled,
    stored,
};
use crate::random::Random;
use crate::sheet::{Arrow, LINE_BYTES, Line, MAIN_SCREEN, Sheet, put, read};

pub fn cases(c: &mut Calls) {
    let rng = &mut Random::new(505);
    for list in named(rng) {
        alike(c, rng, &list);
    }
    for (list, answer) in limits(rng) {
        assert_eq!(c.write_sheet(&shuffled(rng, &list), 65_536).err().unwrap_or(0), answer);
    }
    for i in 0..142 {
        let list = if i < 130 { small(rng) } else { middle(rng) };
        let bytes = laid(rng, &list);
        let n = room(rng, list.saved().len());
        let _ = c.write_sheet(&bytes, n);
    }
    refused(c, rng);
    largest(c, rng);
    spoiled(c, rng);
}

fn small(rng: &mut Random) -> Sheet {
    let size = Size { states: rng.below(6), arrows: rng.below(7), lines: 2, characters: 18 };
    let mut list = sheet(rng, size);
    for line in list.arrows.iter_mut().flat_map(|a| &mut a.lines) {
        if rng.once_in(8) {
            line.clear();
        }
    }
    if rng.once_in(4) { few_pieces(&list) } else { list }
}

/// A sheet of 50 to 400 records.
fn middle(rng: &mut Random) -> Sheet {
    loop {
        let list = stored(rng);
        if (50..400).contains(&list.records()) {
            return list;
        }
    }
}

/// A state and an arrow with these lines.
fn lined(lines: Vec<Line>) -> Sheet {
    Sheet { states: vec![1], arrows: vec![Arrow { from: 0, to: 0, lines }] }
}

/// Lines spread over arrows, of which each takes as many as it may have.
fn spread(lines: Vec<Line>) -> Sheet {
    let arrows = lines.chunks(8).map(|part| Arrow { from: 0, to: 1, lines: part.to_vec() });
    Sheet { states: vec![1, 2], arrows: arrows.collect() }
}

/// A text of n bytes, each unlike its neighbours.
fn letters(n: usize) -> Vec<u8> {
    (0..n).map(|i| b'!' + (i * 7 % 94) as u8).collect()
}

/// A piece for each byte.
fn bytes_apart(text: &[u8]) -> Line {
    text.iter().map(|&b| vec![b]).collect()
}

/// Sheets that show what becomes of a record: nothing at all, states alone, all flags, arrows alone, arrows that are left
/// out, no lines, empty lines before, between and behind others, pieces around 12 bytes, every length, characters that a
/// piece of 12 cuts in two.
fn named(rng: &mut Random) -> Vec<Sheet> {
    let arrow = |from, to, lines: &[&[u8]]| Arrow { from, to, lines: lines.iter().map(|l| full_pieces(l)).collect() };
    let sheet = |states: &[u8], arrows: Vec<Arrow>| Sheet { states: states.to_vec(), arrows };
    let mut list = vec![
        sheet(&[], vec![]),
        sheet(&[0], vec![]),
        sheet(&[3, 1, 0, 2, 0, 3, 2, 1], vec![]),
        sheet(&[1, 0], vec![arrow(0, 1, &[b"a"])]),
        sheet(&[], vec![arrow(0, 0, &[])]),
        sheet(&[], vec![arrow(9, 65_535, &[b"of no state", b""]), arrow(256, 1, &[b"x"])]),
        sheet(&[2, 1], vec![arrow(0, 1, &[]), arrow(1, 0, &[]), arrow(1, 1, &[])]),
        sheet(&[2, 1], vec![arrow(0, 2, &[b"left out"]), arrow(1, 0, &[b"kept"]), arrow(255, 256, &[b"left out too"])]),
        sheet(&[1, 2], vec![arrow(0, 1, &[b""]), arrow(1, 0, &[]), arrow(0, 0, &[b"", b"", b""])]),
        sheet(&[1, 2], vec![arrow(0, 1, &[b"", b"a", b"", b"b", b""]), arrow(1, 0, &[b"c", b"", b"", b"d"])]),
    ];
    let text = letters(96);
    list.push(lined(vec![vec![text[..7].to_vec(), text[7..15].to_vec()]]));
    for n in [1, 11, 12, 13, 23, 24, 25, 36] {
        list.push(lined(vec![bytes_apart(&text[..n])]));
    }
    let mut second = bytes_apart(&text[..5]);
    second.push(text[5..17].to_vec());
    list.push(lined(vec![second.clone(), full_pieces(&text[..30]), second]));
    // Each two pieces, and pieces cut at each place within a character.
    list.push(spread((0..144).map(|i| vec![text[..1 + i / 12].to_vec(), text[40..41 + i % 12].to_vec()]).collect()));
    let mut within = Vec::new();
    for character in ["é", "\u{301}", "↦", "𝔸"] {
        for before in 8..12 {
            let line = [&text[..before], character.as_bytes(), b"yz", character.as_bytes()].concat();
            within.extend([full_pieces(&line), bytes_apart(&line), pieces(rng, &line)]);
        }
    }
    list.push(spread(within));
    // Every length of a line.
    list.push(spread((0..=LINE_BYTES).map(|n| pieces(rng, &text[..n])).collect()));
    list
}

/// Sheets of one meaning: in the editor's order with few pieces, which stays as it is, shuffled, with other pieces, as
/// their records are met. All are written alike, into exact and longer outputs; a byte less and none at all are refused
/// by 7.
fn alike(c: &mut Calls, rng: &mut Random, list: &Sheet) {
    let wanted = in_order(&few_pieces(list));
    let n = wanted.len();
    let other = recut(rng, list);
    let large = n > 4_000;
    let sheets = [wanted.clone(), shuffled(rng, list), in_order(list), shuffled(rng, &other), ordered(&other)];
    for (i, bytes) in sheets.iter().enumerate().take(if large { 3 } else { 5 }) {
        let lent = if i == 0 { n } else { plenty(rng, n) - usize::from(i == 1) };
        assert_eq!(c.write_sheet(bytes, lent).as_ref(), Ok(&wanted));
    }
    if !large {
        assert_eq!(c.write_sheet(&sheets[1], n - 1), Err(7));
        assert_eq!(c.write_sheet(&sheets[3], if rng.once_in(2) { 0 } else { rng.below(n) }), Err(7));
    }
}

/// Each limit, and one over.
fn limits(rng: &mut Random) -> Vec<(Sheet, u8)> {
    let states = |n: usize| Sheet { states: (0..n).map(|i| (i % 4) as u8).collect(), arrows: vec![] };
    let mut arrows = |n: usize| {
        let mut end = || rng.below(66) as u16;
        Sheet { states: vec![2; 64], arrows: (0..n).map(|_| Arrow { from: end(), to: end(), lines: vec![] }).collect() }
    };
    let wide = "↦".repeat(32);
    let list = vec![
        (states(64), 0), (states(65), 5), (arrows(256), 0), (arrows(257), 5),
        (lined(vec![vec![]; 8]), 0), (lined(vec![vec![]; 9]), 5),
        (lined((1..9).map(|n| bytes_apart(&letters(2 * n))).collect()), 0),
        (lined(vec![full_pieces(&letters(96))]), 0), (lined(vec![bytes_apart(&letters(96))]), 0),
        (lined(vec![full_pieces(&letters(97))]), 5), (lined(vec![bytes_apart(&letters(97))]), 5),
        (lined(vec![pieces(rng, wide.as_bytes()), full_pieces(wide.as_bytes())]), 0),
    ];
    for (i, name) in LIMITS.iter().enumerate().take(4) {
        assert!(list.iter().any(|(s, answer)| *answer == 0 && at_limits(s)[i]), "no sheet at {name}");
    }
    list
}

/// Eight sheets for each of 1 to 6, with outputs long enough and not: the sheet is refused before its output is.
fn refused(c: &mut Calls, rng: &mut Random) {
    for refusal in 1..=6 {
        let enough = 8 + c.with_answer(kind::WRITE_SHEET, refusal);
        while c.with_answer(kind::WRITE_SHEET, refusal) < enough {
            let mut list = small(rng);
            if rng.once_in(3) {
                let ill = rng.pick(&ILL);
                list.arrows.push(Arrow { from: 0, to: 1, lines: vec![pieces(rng, ill)] });
            }
            if rng.once_in(4) {
                list.arrows.push(Arrow { from: 0, to: 1, lines: vec![vec![]; 9] });
            }
            let mut bytes = shuffled(rng, &list);
            match rng.below(4) {
                0 => bytes.truncate(rng.below(bytes.len())),
                1 | 2 => damage(rng, &mut bytes),
                _ => {}
            }
            if read(&bytes, MAIN_SCREEN).err() == Some(refusal) {
                let n = bytes.len();
                let lent = rng.pick(&[0, n / 2, n, n + 20]);
                assert_eq!(c.write_sheet(&bytes, lent), Err(refusal));
            }
        }
    }
}

/// Sheets of 4,095 records: with full pieces, which fill 65,536 bytes again, and with a piece for each byte; that of full
/// pieces with a byte less to write to, and with a byte more to read.
fn largest(c: &mut Calls, rng: &mut Random) {
    let full = few_lines(full_pieces);
    let mut bytes = shuffled(rng, &full);
    assert_eq!(c.write_sheet(&bytes, 65_536), Ok(in_order(&full)));
    assert_eq!(c.write_sheet(&bytes, 65_535), Err(7));
    bytes.push(0);
    assert_eq!(c.write_sheet(&bytes, 65_536), Err(1));
    let apart = few_lines(bytes_apart);
    let short = c.write_sheet(&shuffled(rng, &apart), MOST_ROOM).unwrap();
    assert!(short.len() < 12_000);
    let any = sheets::largest(rng);
    let bytes = laid(rng, &any);
    assert_eq!(c.write_sheet(&bytes, 65_560), Ok(any.saved()));
    for list in [full, apart, any] {
        assert_eq!(list.records(), 4_095);
    }
}

/// 64 states, 256 arrows and lines of 96 bytes, each with other bytes, until there are 4,095 records.
fn few_lines(cut: impl Fn(&[u8]) -> Line) -> Sheet {
    let arrow = |i: usize| Arrow { from: (i % 64) as u16, to: (5 * i % 67) as u16, lines: vec![] };
    let mut list = Sheet { states: (0..64).map(|i| (i % 3) as u8).collect(), arrows: (0..256).map(arrow).collect() };
    let mut i = 0;
    while list.records() < 4_095 {
        let mut line = cut(&letters(96 + i)[i..]);
        line.truncate(4_094 - list.records());
        list.arrows[11 * i % 256].lines.push(line);
        i += 1;
    }
    list
}

/// Spoiled cases of a sheet that shows every field: each byte of what is written changed; too few bytes, too many;
/// records in another order, other pieces, another line; other answers; refused calls that wrote something.
fn spoiled(c: &mut Calls, rng: &mut Random) {
    let text = letters(13);
    let list = Sheet {
        states: vec![1, 2],
        arrows: vec![
            Arrow { from: 0, to: 1, lines: vec![bytes_apart(&text), vec![]] },
            Arrow { from: 1, to: 9, lines: vec![] },
        ],
    };
    let bytes = shuffled(rng, &list);
    let wanted = c.write_sheet(&bytes, 200).unwrap();
    for at in 0..wanted.len() {
        let mut other = wanted.clone();
        other[at] ^= 1 << rng.below(8);
        c.spoiled_sheet(&bytes, 200, 0, &other);
    }
    let mut longer = wanted.clone();
    longer.push(0);
    for other in [&[], &wanted[..16], &wanted[..wanted.len() - 16], &wanted[..wanted.len() - 1], &longer, &bytes] {
        c.spoiled_sheet(&bytes, 400, 0, other);
    }
    // As records are met; with the pieces as they were; cut in elevens; with a piece of no bytes; without a line.
    let few = few_pieces(&list);
    let changed = |change: fn(&mut Vec<Line>)| {
        let mut other = few.clone();
        change(&mut other.arrows[0].lines);
        in_order(&other)
    };
    let elevens = changed(|lines| lines[0] = lines[0].concat().chunks(11).map(<[u8]>::to_vec).collect());
    let piece = changed(|lines| lines[1].push(vec![]));
    let dropped = changed(|lines| lines.truncate(1));
    for other in [ordered(&few), in_order(&list), elevens, piece, dropped] {
        c.spoiled_sheet(&bytes, 400, 0, &other);
    }
    for answer in 1..=7 {
        c.spoiled_sheet(&bytes, 400, answer, &wanted);
        c.spoiled_sheet(&bytes, 400, answer, &[]);
    }
    c.spoiled_sheet(&bytes, wanted.len() - 1, 7, &wanted[..16]);
    c.spoiled_sheet(&bytes, wanted.len() - 1, 0, &wanted);
    c.spoiled_sheet(&bytes, 0, 7, &[1]);
    let mut version = bytes.clone();
    put(&mut version, 0, 2);
    c.spoiled_sheet(&version, 400, 2, &wanted);
    c.spoiled_sheet(&version, 0, 7, &[]);
}
