//! Cases of `check` and of the label block.

use super::Calls;
use crate::generate::{
    Size, accented_line, full_pieces, gets_accents, ordered, pieces, sheet, shuffled, starts, text, with_accents,
};
use crate::random::Random;
use crate::sheet::{self, Arrow, Line, MAIN_SCREEN, Sheet, put};

/// Byte strings that are not well-formed UTF-8, or become so by what follows.
pub const ILL: [&[u8]; 39] = [
    b"\x80", b"\xbf", b"\xc0\x80", b"\xc1\xbf", b"\xc2", b"\xc2\x7f", b"\xc2\xc0", b"\xdf\x00",
    b"\xe0\x80\x80", b"\xe0\x9f\xbf", b"\xe1\x80", b"\xe1", b"\xe2\x82\x28", b"\xe2\x28\xa1",
    b"\xed\xa0\x80", b"\xed\xbf\xbf", b"\xef\xbf", b"\xf0\x80\x80\x80", b"\xf0\x8f\xbf\xbf",
    b"\xf0\x90\x80", b"\xf1\x80", b"\xf3", b"\xf4\x90\x80\x80", b"\xf5\x80\x80\x80", b"\xf8\x88\x80\x80\x80",
    b"\xfc\x84\x80\x80\x80\x80", b"\xfe", b"\xff", b"\xf4\x8f\xbf\xc0", b"\xe2\x82\xac\x80",
    // The bytes of accents: half of one, one and a half, two first halves, a second half too many.
    b"\xcc", b"\xcd", b"a\xcc", b"\xcc\x7f", b"\xcd\xc0", b"\xcd\xaf\xcd", b"\xcc\xcc\x80", b"\xcc\x80\x80",
    b"\xcc\xcd\xaf",
];

/// The longest well-formed strings at each border of Table 3-7.
const WELL: [&[u8]; 14] = [
    b"\x00", b"\x7f", b"\xc2\x80", b"\xdf\xbf", b"\xe0\xa0\x80", b"\xe0\xbf\xbf", b"\xe1\x80\x80",
    b"\xed\x80\x80", b"\xed\x9f\xbf", b"\xee\x80\x80", b"\xef\xbf\xbf", b"\xf0\x90\x80\x80",
    b"\xf3\xbf\xbf\xbf", b"\xf4\x8f\xbf\xbf",
];

fn expect(c: &mut Calls, bytes: &[u8], answer: u8) {
    assert_eq!(c.check(bytes), answer);
}

pub fn cases(c: &mut Calls) {
    let rng = &mut Random::new(303);
    valid(c, rng);
    limits(c, rng);
    lengths(c, rng);
    utf8(c, rng);
    for _ in 0..750 {
        damaged(c, rng);
    }
    large(c, rng);
    label_blocks(c, rng);
}

fn small(rng: &mut Random) -> Sheet {
    let size = Size {
        states: rng.below(7),
        arrows: rng.below(6),
        lines: 2,
        characters: 14,
    };
    sheet(rng, size)
}

fn valid(c: &mut Calls, rng: &mut Random) {
    expect(c, &ordered(&Sheet::default()), 0);
    for _ in 0..150 {
        let sheet = small(rng);
        let bytes = shuffled(rng, &sheet);
        expect(c, &bytes, 0);
    }
    for _ in 0..12 {
        let size = Size {
            states: rng.below(65),
            arrows: rng.below(60),
            lines: 2,
            characters: 20,
        };
        let sheet = sheet(rng, size);
        expect(c, &shuffled(rng, &sheet), 0);
    }
}

fn states(n: usize) -> Sheet {
    Sheet {
        states: vec![0; n],
        arrows: vec![],
    }
}

fn arrows(n: usize) -> Sheet {
    let arrow = Arrow {
        from: 0,
        to: 0,
        lines: vec![],
    };
    Sheet {
        states: vec![1],
        arrows: vec![arrow; n],
    }
}

/// A state and an arrow with these lines.
fn lined(lines: Vec<Line>) -> Sheet {
    Sheet {
        states: vec![1],
        arrows: vec![Arrow { from: 0, to: 0, lines }],
    }
}

/// Each limit, and one over; and one over beside another fault.
fn limits(c: &mut Calls, rng: &mut Random) {
    for (sheet, answer) in [
        (states(64), 0), (states(65), 5), (states(66), 5), (states(200), 5),
        (arrows(256), 0), (arrows(257), 5),
        (lined(vec![vec![]; 8]), 0), (lined(vec![vec![]; 9]), 5), (lined(vec![vec![]; 30]), 5),
        (lined(vec![full_pieces(&[b'x'; 96])]), 0), (lined(vec![full_pieces(&[b'x'; 97])]), 5),
        (lined(vec![full_pieces(&[b'x'; 108])]), 5),
        (lined(vec![vec![vec![b'x']; 96]]), 0), (lined(vec![vec![vec![b'x']; 97]]), 5),
        (lined(vec![full_pieces("↦".repeat(32).as_bytes()); 8]), 0),
        (lined(vec![full_pieces("↦".repeat(33).as_bytes())]), 5),
        (lined(vec![full_pieces(&[0xff; 97])]), 5), (lined(vec![full_pieces(&[0xff; 96])]), 6),
    ] {
        let bytes = shuffled(rng, &sheet);
        expect(c, &bytes, answer);
    }
    for _ in 0..60 {
        let mut sheet = small(rng);
        match rng.below(4) {
            0 => sheet.states.extend(vec![2; 65]),
            1 => sheet.arrows.push(Arrow { lines: vec![vec![]; 9], ..Arrow::default() }),
            2 => {
                let n = 97 + rng.below(40);
                let long = pieces(rng, &vec![b'y'; n]);
                sheet.arrows.push(Arrow { lines: vec![long], ..Arrow::default() });
            }
            _ => {
                let ill = rng.pick(&ILL);
                let ill = pieces(rng, ill);
                sheet.arrows.push(Arrow { lines: vec![ill; 10], ..Arrow::default() });
            }
        }
        let bytes = shuffled(rng, &sheet);
        expect(c, &bytes, 5);
    }
}

/// Lengths that do not fit the count, and lengths out of range.
fn lengths(c: &mut Calls, rng: &mut Random) {
    for n in 0..16 {
        expect(c, &vec![1; n], 1);
    }
    for n in [17, 31, 32, 33, 48] {
        let mut bytes = vec![0; n];
        bytes[0] = 1;
        let answer = if n == 32 { 1 } else { sheet::read(&bytes, MAIN_SCREEN).err().unwrap_or(0) };
        expect(c, &bytes, answer);
    }
    for _ in 0..60 {
        let sheet = small(rng);
        let mut bytes = shuffled(rng, &sheet);
        let count = bytes.len() / 16 - 1;
        match rng.below(6) {
            0 => bytes.truncate(bytes.len() - 1 - rng.below(16)),
            1 => bytes.extend(vec![0; 1 + rng.below(20)]),
            2 => put(&mut bytes, 2, count + 1),
            3 => put(&mut bytes, 2, count.wrapping_sub(1)),
            4 => put(&mut bytes, 2, rng.below(65_536)),
            _ => {
                // Too long and of another version: the length comes first.
                bytes.push(0);
                bytes[0] = 2;
            }
        }
        c.check(&bytes);
    }
}

/// Lines well-formed and not, in one piece and in several.
fn utf8(c: &mut Calls, rng: &mut Random) {
    for well in WELL {
        let one: Line = well.iter().map(|&b| vec![b]).collect();
        expect(c, &ordered(&lined(vec![vec![well.to_vec()]])), 0);
        expect(c, &shuffled(rng, &lined(vec![one])), 0);
    }
    for ill in ILL {
        let one: Line = ill.iter().map(|&b| vec![b]).collect();
        expect(c, &ordered(&lined(vec![vec![ill.to_vec()]])), 6);
        expect(c, &shuffled(rng, &lined(vec![one])), 6);
    }
    for i in 0..150 {
        let mut bytes = text(rng, 12).into_bytes();
        if i % 3 != 0 {
            let at = rng.below(bytes.len() + 1);
            let bad = if i % 3 == 1 { rng.pick(&ILL) } else { rng.pick(&WELL) };
            bytes.splice(at..at, bad.iter().copied());
        }
        bytes.truncate(96);
        let mut lines = vec![pieces(rng, &bytes)];
        if rng.once_in(3) {
            // A character that starts at the end of one line and goes on in the next.
            let cut = rng.below(bytes.len() + 1);
            lines = vec![pieces(rng, &bytes[..cut]), pieces(rng, &bytes[cut..])];
        }
        let mut sheet = small(rng);
        sheet.arrows.push(Arrow { from: 0, to: 1, lines });
        c.check(&shuffled(rng, &sheet));
    }
}

/// One fault, or several, in a sheet that was sound.
fn damaged(c: &mut Calls, rng: &mut Random) {
    let mut sheet = small(rng);
    if rng.once_in(6) {
        let ill = rng.pick(&ILL);
        let ill = pieces(rng, ill);
        sheet.arrows.push(Arrow { lines: vec![ill], ..Arrow::default() });
    }
    if rng.once_in(10) {
        sheet.arrows.push(Arrow { lines: vec![vec![]; 9], ..Arrow::default() });
    }
    let mut bytes = shuffled(rng, &sheet);
    damage(rng, &mut bytes);
    while rng.once_in(4) {
        damage(rng, &mut bytes);
    }
    c.check(&bytes);
}

/// The number of a record of a kind, or 0.
fn of_kind(rng: &mut Random, bytes: &[u8], kind: u8) -> usize {
    let list: Vec<usize> = (1..bytes.len() / 16).filter(|&i| bytes[16 * i] == kind).collect();
    if list.is_empty() { 0 } else { rng.pick(&list) }
}

pub fn damage(rng: &mut Random, bytes: &mut [u8]) {
    let count = bytes.len() / 16 - 1;
    if count == 0 {
        let at = rng.below(16);
        bytes[at] ^= 1 << rng.below(8);
        return;
    }
    let i = 1 + rng.below(count);
    let at = 16 * i;
    match rng.below(16) {
        0 => bytes[0] = rng.pick(&[0, 2, 255]),
        1 => bytes[1] = 1 + rng.below(255) as u8,
        2 => bytes[8 + rng.below(8)] = 1 + rng.below(255) as u8,
        3 => bytes[at] = rng.pick(&[0, 5, 6, 16, 255]),
        4 => bytes[at] = 1 + rng.below(4) as u8,
        5 => bytes[at + 1] = rng.pick(&[0, 1, 3, 4, 12, 13, 128, 255]),
        6 => bytes[at + 15] = 1 + rng.below(255) as u8,
        7 => bytes[at + 4 + rng.below(12)] ^= 1 << rng.below(8),
        // A record that names itself, another one, none, or one that is not there.
        8 => put(bytes, at + 2, i),
        9 => put(bytes, at + 2, 1 + rng.below(count)),
        10 => put(bytes, at + 2, 0),
        11 => put(bytes, at + 2, rng.pick(&[count + 1, count + 2, 32_768, 65_535])),
        12 => put(bytes, 4 + 2 * rng.below(2), rng.below(count + 2)),
        13 => {
            // A line or a text shared, lost, or of another kind.
            let kind = 2 + rng.below(2) as u8;
            let owner = of_kind(rng, bytes, kind);
            let target = match rng.below(4) {
                0 => 0,
                1 => owner,
                _ => of_kind(rng, bytes, kind + 1),
            };
            if owner != 0 {
                put(bytes, 16 * owner + if kind == 2 { 8 } else { 4 }, target);
            }
        }
        14 => {
            // A chain that runs back into itself, or into another of its kind.
            let other = of_kind(rng, bytes, bytes[at]);
            put(bytes, at + 2, other);
        }
        _ => {
            let at = rng.below(bytes.len());
            bytes[at] = rng.next() as u8;
        }
    }
}

/// As many records as a sheet holds: 4,095, and one more.
fn large(c: &mut Calls, rng: &mut Random) {
    let full = largest(rng);
    assert_eq!(full.records(), 4095);
    let sound = shuffled(rng, &full);
    expect(c, &sound, 0);
    let mut ring = ordered(&states(4095));
    put(&mut ring, 16 * 4095 + 2, 1);
    expect(c, &ring, 3);
    let mut over = sound.clone();
    over.extend([0; 16]);
    put(&mut over, 2, 4096);
    expect(c, &over, 1);
    let mut ill = full.clone();
    ill.arrows[255].lines[0][0][0] = 0xff;
    expect(c, &shuffled(rng, &ill), 6);
}

/// 64 states, 256 arrows and as many lines and pieces as are left of 4,095 records.
pub fn largest(rng: &mut Random) -> Sheet {
    let mut left = 4095 - 64 - 256;
    let mut arrows: Vec<Arrow> = (0..256)
        .map(|_| Arrow {
            from: rng.below(64) as u16,
            to: rng.below(64) as u16,
            lines: vec![],
        })
        .collect();
    let accents = gets_accents(rng);
    let mut i = 0;
    while left > 0 {
        let a = &mut arrows[i % 256];
        i += 1;
        let n = 1 + rng.below(20);
        let short = text(rng, n);
        let mut line = if accents && rng.once_in(2) { accented_line(rng, short) } else { pieces(rng, short.as_bytes()) };
        if line.len() + 1 > left {
            line = vec![b"x".to_vec(); left - 1];
        }
        if a.lines.len() < 8 {
            left -= line.len() + 1;
            a.lines.push(line);
        }
    }
    let mut states = vec![0; 64];
    starts(rng, &mut states);
    Sheet { states, arrows }
}

/// Blocks of lines: a text and the lengths of its lines.
fn label_blocks(c: &mut Calls, rng: &mut Random) {
    c.label(b"", &[]);
    c.label(b"x", &[]);
    c.label(b"", &[0; 8]);
    c.label(b"", &[0; 9]);
    c.label(b"", &[1]);
    c.label(b"ab", &[usize::MAX, 3]);
    c.label(b"a", &[usize::MAX, 2]);
    for n in [95, 96, 97, 98] {
        c.label(&vec![b'x'; n], &[n]);
        c.label(&vec![b'x'; 8 * n], &[n; 8]);
        c.label(&vec![b'x'; 9 * n], &[n; 9]);
        c.label(&vec![0xff; n], &[n]);
    }
    for well in WELL {
        c.label(well, &[well.len()]);
    }
    for ill in ILL {
        c.label(ill, &[ill.len()]);
    }
    for i in 0..500 {
        let (bytes, lengths) = lines(rng, i);
        c.label(&bytes, &lengths);
    }
}

/// A text and the lengths of its lines, some of them damaged; about every second has accents.
pub fn lines(rng: &mut Random, i: usize) -> (Vec<u8>, Vec<usize>) {
    let mut bytes = Vec::new();
    let mut lengths: Vec<usize> = Vec::new();
    let accents = gets_accents(rng);
    for k in 0..rng.below(9) {
        let n = rng.below(24);
        let mut line = text(rng, n);
        if accents && (k == 0 || rng.once_in(2)) {
            line = with_accents(rng, line);
        }
        let mut line = line.into_bytes();
        if i % 4 == 0 && rng.once_in(5) {
            line.extend(rng.pick(&ILL));
        }
        line.truncate(96);
        lengths.push(line.len());
        bytes.extend(line);
    }
    if i % 7 == 0 && !lengths.is_empty() {
        let k = rng.below(lengths.len());
        match rng.below(4) {
            0 => lengths[k] += 1,
            1 => lengths[k] = lengths[k].wrapping_sub(1),
            2 => lengths.push(1),
            _ => {
                // The same sum, other lines: a character may be cut in two.
                let moved = rng.below(lengths[k] + 1);
                lengths[k] -= moved;
                let j = rng.below(lengths.len());
                lengths[j] += moved;
            }
        }
    }
    (bytes, lengths)
}
