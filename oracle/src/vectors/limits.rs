//! Calls under limits: sheets and label blocks at each limit, below and over it.

use super::calls::{Drawn, small, turn};
use super::sheets::{ILL, damage};
use super::{Calls, kind, label_lines, plenty};
use crate::calls;
use crate::generate::{LARGE, full_pieces, limits, ordered, shuffled};
use crate::random::Random;
use crate::sheet::{Arrow, Limits, Line, MAIN_SCREEN, SERVICE_PANEL, Sheet, put, walked};

/// The calls that take a sheet.
const SHEETS: [u8; 6] = [kind::ROUTE, kind::LAYOUT, kind::CLUTTER, kind::LIST, kind::CHECK, kind::WRITE_SHEET];

pub fn cases(c: &mut Calls) {
    let rng = &mut Random::new(1_105);
    borders(c, rng);
    panel(c, rng);
    orders(c, rng);
    lines(c, rng);
    above(c, rng);
    none(c, rng);
    alike(c, rng);
    refused(c, rng);
    shortage(c, rng);
    any(c, rng);
    blocks(c, rng);
    spoiled(c, rng);
}

/// A sheet with so many states, arrows, and lines of one arrow, which is any of them; of the others some have a line.
fn counted(rng: &mut Random, [states, arrows, lines]: [usize; 3]) -> Sheet {
    let most = rng.below(arrows.max(1));
    let arrow = |i: usize| {
        let n = if i == most { lines } else { lines.min(usize::from(rng.once_in(4))) };
        let end = |rng: &mut Random| if rng.once_in(20) { states } else { rng.below(states.max(1)) } as u16;
        Arrow { from: end(rng), to: end(rng), lines: (0..n).map(|_| short_line(rng)).collect() }
    };
    let list = Sheet { states: (0..states).map(|i| (5 * i % 4) as u8).collect(), arrows: (0..arrows).map(arrow).collect() };
    let wanted = Limits { states, arrows, lines: if arrows == 0 { 0 } else { lines } };
    assert_eq!(list.counts(), wanted);
    list
}

/// A line of a character or none.
fn short_line(rng: &mut Random) -> Line {
    full_pieces(rng.pick(&["", "a", "b", "\u{301}", "↦"]).as_bytes())
}

/// The sheet's bytes, and centres on a grid.
fn on_grid(rng: &mut Random, list: &Sheet) -> Drawn {
    let n = list.states.len();
    let along = |i: usize| 140.0 * i as f64;
    let xs = (0..n).map(|i| along(i % 8)).collect();
    let ys = (0..n).map(|i| along(i / 8)).collect();
    Drawn { sheet: shuffled(rng, list), xs, ys }
}

/// A call of a kind under limits, with outputs long enough; its answer is that of `check`.
fn answered(c: &mut Calls, kind: u8, d: &Drawn, limits: Limits, answer: u8) {
    assert_eq!(calls::check(&d.sheet, limits).err().unwrap_or(0), answer, "{limits:?}");
    let before = c.limited(kind, answer);
    let by = (d.sheet.len() / 16 % 3) as u8;
    c.under(limits, |c| match kind {
        kind::ROUTE => c.route(d, plenty),
        kind::LAYOUT => c.layout(d, by, plenty),
        kind::CLUTTER => c.clutter(d),
        kind::LIST => c.list(d, by, plenty),
        kind::CHECK => {
            c.check(&d.sheet);
        }
        _ => {
            let _ = c.write_sheet(&d.sheet, d.sheet.len());
        }
    });
    assert_eq!(c.limited(kind, answer), before + 1, "kind {kind} under {limits:?}");
}

/// Whether counts are within limits.
fn within(own: [usize; 3], limits: Limits) -> bool {
    own.iter().zip(calls::capped(limits).list()).all(|(n, most)| *n <= most)
}

/// A sheet with these counts by calls of these kinds.
fn with_counts(c: &mut Calls, rng: &mut Random, own: [usize; 3], limits: Limits, kinds: &[u8]) {
    let list = counted(rng, own);
    let d = on_grid(rng, &list);
    for &kind in kinds {
        answered(c, kind, &d, limits, if within(own, limits) { 0 } else { 5 });
    }
}

/// For each of the three, limits from 0 to the largest number: sheets at the limit, below it and over it, by `check` and
/// in turn by another call. The other two limits are larger or smaller than this one, and the sheet's counts within them.
fn borders(c: &mut Calls, rng: &mut Random) {
    let small = [0, 1, 2, 3, 5, 10];
    let states = [23, 25, 63, 65, 257];
    let arrows = [23, 24, 65, 255, 257];
    let lines = [4, 7, 8, 9, 64];
    let mut turn = 0;
    for (at, more) in [&states[..], &arrows[..], &lines[..]].into_iter().enumerate() {
        let main = MAIN_SCREEN.list()[at];
        for most in small.into_iter().chain(more.iter().copied()).chain(LARGE[2..].iter().copied()) {
            let mut limits = [2, 2, 2].map(|n| rng.pick(&[n, n + 1, 60, usize::MAX]));
            limits[at] = most;
            let border = most.min(main);
            let large = border > 60;
            for n in if large { border } else { border.saturating_sub(1) }..=border + 1 {
                // A line needs an arrow to stand at.
                let mut own = if at == 2 { [1, 1, 0] } else { [rng.below(3), rng.below(3), 0] };
                own[at] = n;
                let kinds = [kind::CHECK, SHEETS[turn % 6]];
                turn += 1;
                // Of the large sheets only those that are refused are given to another call.
                let kinds = if large && n == border { &kinds[..1] } else { &kinds[..] };
                with_counts(c, rng, own, Limits::of(limits), kinds);
            }
        }
    }
}

/// The panel's limits by every call: each of the three at the limit, below it and over it, and all three at once; the
/// same sheets on the main screen.
fn panel(c: &mut Calls, rng: &mut Random) {
    for own in [
        [23, 3, 1], [24, 3, 1], [25, 3, 1], [3, 64, 1], [3, 65, 0], [3, 2, 3], [3, 2, 4], [3, 2, 5],
    ] {
        with_counts(c, rng, own, SERVICE_PANEL, &SHEETS);
    }
    for own in [[3, 63, 0], [24, 64, 4], [25, 64, 4], [24, 65, 4], [24, 64, 5], [64, 24, 4], [4, 24, 64]] {
        with_counts(c, rng, own, SERVICE_PANEL, &[kind::CHECK]);
    }
    for own in [[24, 3, 1], [25, 3, 1], [3, 2, 4], [3, 2, 5], [64, 2, 8]] {
        with_counts(c, rng, own, MAIN_SCREEN, &SHEETS);
    }
}

/// Three limits in each order: sheets at all of them, over one alone, and with the counts of the limits in another order.
fn orders(c: &mut Calls, rng: &mut Random) {
    let orders = |[a, b, d]: [usize; 3]| [[a, b, d], [a, d, b], [b, a, d], [b, d, a], [d, a, b], [d, b, a]];
    let mut turn = 0;
    for limits in orders([1, 3, 5]) {
        let mut sheets = orders([1, 3, 5]).to_vec();
        for at in 0..3 {
            let mut over = limits;
            over[at] += 1;
            sheets.push(over);
        }
        for own in sheets {
            turn += 1;
            with_counts(c, rng, own, Limits::of(limits), &[kind::CHECK, SHEETS[turn % 6]]);
        }
    }
}

/// Lines at a limit and over it: of every arrow, of the first, of the last and of one in the middle, of one that is left
/// out, of one that is left out and the last; within the limit for each and over it together.
fn lines(c: &mut Calls, rng: &mut Random) {
    let arrow = |from, to, n: usize| Arrow { from, to, lines: (0..n).map(|i| full_pieces(&[b'a' + i as u8])).collect() };
    let mut turn = 0;
    for given in [1, 2, 4, 5, 9] {
        let limits = Limits::of([2, 6, given]);
        let most = calls::capped(limits).lines;
        for n in [most, most + 1] {
            let answer = if n > most { 5 } else { 0 };
            for arrows in [
                vec![arrow(0, 1, n), arrow(1, 0, n)],
                vec![arrow(0, 1, n), arrow(1, 0, most), arrow(1, 1, 0)],
                vec![arrow(0, 1, 0), arrow(1, 0, 0), arrow(1, 1, n)],
                vec![arrow(0, 1, 0), arrow(1, 1, n), arrow(1, 0, 1)],
                vec![arrow(0, 2, n), arrow(1, 0, 1)],
                vec![arrow(0, 1, 1), arrow(65_535, 1, n)],
                vec![arrow(9, 9, n)],
            ] {
                let d = on_grid(rng, &Sheet { states: vec![1, 2], arrows });
                turn += 1;
                answered(c, SHEETS[turn % 6], &d, limits, answer);
            }
        }
    }
}

/// Limits above the main screen's, all three or one alone: 65 states, 257 arrows and 9 lines are refused by every call,
/// and so is a line of 97 bytes; 64, 256, 8 and 96 are not.
fn above(c: &mut Calls, rng: &mut Random) {
    let max = usize::MAX;
    for limits in [[65, 257, 9], [max, max, max]] {
        for own in [[65, 0, 0], [1, 1, 9]] {
            with_counts(c, rng, own, Limits::of(limits), &SHEETS);
        }
        for n in [96, 97] {
            let line = full_pieces(&vec![b'x'; n]);
            let d = on_grid(rng, &Sheet { states: vec![0], arrows: vec![Arrow { from: 0, to: 0, lines: vec![line] }] });
            for kind in SHEETS {
                answered(c, kind, &d, Limits::of(limits), if n > 96 { 5 } else { 0 });
            }
        }
    }
    with_counts(c, rng, [64, 1, 8], Limits::of([max, max, max]), &SHEETS);
    with_counts(c, rng, [1, 257, 0], Limits::of([max, max, max]), &SHEETS);
    with_counts(c, rng, [0, 257, 0], Limits::of([0, 300, 0]), &[kind::ROUTE]);
    with_counts(c, rng, [1, 256, 0], Limits::of([1, max, 0]), &[kind::CHECK, kind::LAYOUT, kind::CLUTTER]);
    for (limits, own) in [
        ([max, 2, 1], [64, 2, 1]), ([max, 2, 1], [64, 3, 1]), ([max, 2, 1], [64, 2, 2]), ([max, 2, 1], [65, 2, 1]),
        ([2, max, 1], [2, 65, 1]), ([2, max, 1], [3, 1, 1]), ([2, max, 1], [2, 1, 2]),
        ([2, 1, max], [2, 1, 8]), ([2, 1, max], [2, 1, 9]), ([2, 1, max], [3, 1, 8]), ([2, 1, max], [2, 2, 8]),
        ([65, 1, 1], [65, 0, 0]), ([1, 1, 9], [1, 1, 9]), ([1 << 63, 0, 0], [65, 0, 0]), ([0, 0, 1 << 63], [0, 0, 0]),
    ] {
        let kinds = [kind::CHECK, rng.pick(&[kind::LAYOUT, kind::WRITE_SHEET, kind::CLUTTER])];
        with_counts(c, rng, own, Limits::of(limits), &kinds);
    }
    with_counts(c, rng, [130, 0, 0], Limits::of([130, 1, 1]), &[kind::CHECK, kind::LAYOUT]);
    with_counts(c, rng, [1, 2, 40], Limits::of([max, max, 40]), &[kind::CHECK, kind::ROUTE]);
    with_counts(c, rng, [66, 2, 10], Limits::of([1 << 32; 3]), &[kind::CHECK, kind::LIST]);
}

/// Limits of 0, all three or some: no record of that sort is accepted, and what there is none of is no fault.
fn none(c: &mut Calls, rng: &mut Random) {
    for own in [[0, 0, 0], [1, 0, 0], [0, 1, 0]] {
        with_counts(c, rng, own, Limits::of([0, 0, 0]), &SHEETS);
    }
    for (limits, own) in [
        ([0, 4, 2], [0, 4, 2]), ([0, 4, 2], [1, 4, 2]), ([0, 256, 8], [0, 5, 0]), ([4, 0, 0], [4, 0, 0]),
        ([4, 0, 0], [4, 1, 0]), ([4, 0, 8], [4, 1, 1]), ([2, 2, 0], [2, 2, 0]), ([2, 2, 0], [2, 2, 1]),
        ([64, 256, 0], [3, 3, 1]), ([0, 0, 8], [0, 1, 0]), ([0, 0, 8], [1, 0, 0]), ([1, 0, 0], [1, 0, 0]),
    ] {
        let kinds = [kind::CHECK, rng.pick(&SHEETS), kind::LIST];
        with_counts(c, rng, own, Limits::of(limits), &kinds);
    }
}

/// Sheets under the panel's limits, the main screen's and their own counts: the oracle answers them alike.
fn alike(c: &mut Calls, rng: &mut Random) {
    for _ in 0..4 {
        let list = small(rng);
        let d = on_grid(rng, &list);
        for kind in SHEETS {
            for limits in [SERVICE_PANEL, MAIN_SCREEN, list.counts()] {
                answered(c, kind, &d, limits, 0);
            }
        }
        let all = |limits| {
            let routing = calls::route(&d.sheet, limits, &d.xs, &d.ys, (9_999, 99_999)).map(|r| (r.records, r.text));
            let listings = [0, 1, 2].map(|by| calls::list(&d.sheet, limits, by, 99_999));
            let count = calls::clutter(&d.sheet, limits, &d.xs, &d.ys);
            (routing, listings, count, calls::write_sheet(&d.sheet, limits, 99_999))
        };
        assert_eq!(all(SERVICE_PANEL), all(MAIN_SCREEN));
    }
}

/// Limits below one of a sheet's counts.
fn too_low(rng: &mut Random, own: Limits) -> Limits {
    let mut list = own.list();
    let over: Vec<usize> = (0..3).filter(|&i| list[i] > 0).collect();
    let at = rng.pick(&over);
    list[at] -= 1;
    Limits::of(list)
}

/// Each refusal from 1 to 6 by every call, under limits of its own counts and below them: damage is found before the
/// limits are, and ill-formed lines behind them. Kinds that there are not come first of all.
fn refused(c: &mut Calls, rng: &mut Random) {
    for kind in SHEETS {
        for (refusal, turns) in [(1, 2), (2, 2), (4, 3), (3, 4), (5, 3), (6, 2), (6, 2)] {
            for turn in 0..turns {
                let (bytes, own) = ill_made(rng, refusal);
                let low = turn > 0 || refusal == 5;
                let limits = if low { too_low(rng, own) } else { own };
                let answer = if refusal == 6 && low { 5 } else { refusal };
                answered(c, kind, &Drawn { sheet: bytes, xs: vec![0.0; 4], ys: vec![70.0] }, limits, answer);
            }
        }
    }
    for refusal in [0, 1, 2, 3, 4, 5, 6] {
        let (sheet, own) = ill_made(rng, refusal);
        let d = Drawn { sheet, xs: vec![], ys: vec![] };
        for (by, limits) in [(3, too_low(rng, own)), (255, Limits::of([0; 3])), (4, Limits::of([usize::MAX; 3]))] {
            c.under(limits, |c| c.layout(&d, by, plenty));
            c.under(limits, |c| c.list(&d, by, plenty));
        }
    }
}

/// A sheet that is refused by a number alone, or by none, and its counts before it was damaged.
fn ill_made(rng: &mut Random, refusal: u8) -> (Vec<u8>, Limits) {
    loop {
        let mut list = small(rng);
        if list.states.is_empty() || list.arrows.is_empty() {
            continue;
        }
        if refusal == 6 {
            let ill = rng.pick(&ILL);
            let at = rng.below(list.arrows.len());
            list.arrows[at].lines.push(full_pieces(ill));
        }
        let own = list.counts();
        let mut bytes = shuffled(rng, &list);
        match refusal {
            0 | 5 | 6 => {}
            1 if rng.once_in(2) => bytes.truncate(bytes.len() - 1 - rng.below(16)),
            1 => put(&mut bytes, 2, list.records() + 1),
            2 => bytes[0] = rng.pick(&[0, 2, 255]),
            _ => damage(rng, &mut bytes),
        }
        let wanted = if refusal == 5 { None } else { Some(refusal).filter(|&n| n > 0) };
        if calls::check(&bytes, MAIN_SCREEN).err() == wanted {
            return (bytes, own);
        }
    }
}

/// Outputs too short, centres too far and bows too large, under limits that a sheet is within (7, 8, 9) and that it is
/// not (5).
fn shortage(c: &mut Calls, rng: &mut Random) {
    let short: fn(&mut Random, usize) -> usize = |rng, n| if rng.once_in(3) { 0 } else { n - 1 };
    for turn in 0..4 {
        let list = counted(rng, [2 + turn % 3, 2 + turn % 2, 1 + turn % 2]);
        let d = on_grid(rng, &list);
        let own = list.counts();
        for limits in [own, too_low(rng, own), SERVICE_PANEL] {
            let n = calls::write_sheet(&d.sheet, MAIN_SCREEN, 65_536).unwrap().len();
            c.under(limits, |c| {
                c.route(&d, short);
                c.layout(&d, (turn % 3) as u8, short);
                c.list(&d, (turn % 3) as u8, short);
                let _ = c.write_sheet(&d.sheet, n - 1);
            });
        }
    }
    for i in 0..40 {
        // Turns 3 and 14 have a pair that finds no near bow, and a centre beside 2^20.
        let d = turn(rng, if i % 2 == 0 { 3 } else { 14 });
        let own = walked(&d.sheet).unwrap().counts();
        let limits = if i % 3 == 0 { too_low(rng, own) } else { rng.pick(&[own, SERVICE_PANEL]) };
        c.under(limits, |c| if i % 4 < 2 { c.route(&d, plenty) } else { c.clutter(&d) });
    }
}

/// Sheets at random, some damaged, under limits around their counts.
fn any(c: &mut Calls, rng: &mut Random) {
    for i in 0..115 {
        let d = turn(rng, if i % 30 == 25 { 0 } else { i });
        let own = walked(&d.sheet).map_or(SERVICE_PANEL, |s| s.counts());
        let most = limits(rng, own);
        let kind = rng.pick(&SHEETS);
        c.under(most, |c| c.call(kind, &d));
    }
}

/// Blocks of 0 to 16 lines under limits from 0 to the largest number, of which the lines' alone counts; lines
/// too long, lengths that do not add up and ill-formed lines, within the limit and over it; blocks at random.
fn blocks(c: &mut Calls, rng: &mut Random) {
    let size = |c: &mut Calls, rng: &mut Random, text: &[u8], lengths: &[usize], most: usize, answer: u8| {
        let other = |rng: &mut Random| rng.pick(&[0, 1, 5, 64, usize::MAX]);
        let limits = Limits { states: other(rng), arrows: other(rng), lines: most };
        assert_eq!(calls::label_size(text, lengths, limits).err().unwrap_or(0), answer);
        c.under(limits, |c| c.label(text, lengths));
    };
    for most in [0, 1, 2, 3, 4, 5, 7, 8, 9, 10, 64, 1 << 32, 1 << 63, usize::MAX] {
        let border = most.min(8);
        for n in [border.saturating_sub(1), border, border + 1, rng.below(9), 9 + rng.below(8)] {
            let lengths: Vec<usize> = (0..n).map(|_| rng.below(4)).collect();
            let text: Vec<u8> = (0..lengths.iter().sum()).map(|i: usize| b'!' + (i % 90) as u8).collect();
            size(c, rng, &text, &lengths, most, if n > border { 5 } else { 0 });
        }
    }
    for most in [1, 2, 4, 9, usize::MAX] {
        let over = most.min(8) + 1;
        size(c, rng, &[b'x'; 96], &[96], most, 0);
        size(c, rng, &[b'x'; 97], &[97], most, 5);
        size(c, rng, b"ab", &[1], most, 5);
        size(c, rng, b"ab", &[usize::MAX], most, 5);
        let ill = rng.pick(&ILL);
        size(c, rng, ill, &[0], most, 5);
        size(c, rng, ill, &[ill.len()], most, 6);
        let mut lengths = vec![0; over];
        lengths[over - 1] = ill.len();
        size(c, rng, ill, &lengths, most, 5);
        lengths.remove(0);
        size(c, rng, ill, &lengths, most, 6);
    }
    for _ in 0..30 {
        let (text, lengths) = label_lines(rng);
        let own = Limits { states: rng.below(3), arrows: rng.below(3), lines: lengths.len() };
        c.under(limits(rng, own), |c| c.label(&text, &lengths));
    }
}

/// Checks that are spoiled: a sheet at a limit that is said to be refused, one over it that is said to be accepted, the
/// answers of other limits, another number.
fn spoiled(c: &mut Calls, rng: &mut Random) {
    for (limits, own) in [
        ([24, 64, 4], [24, 1, 1]), ([24, 64, 4], [25, 1, 1]), ([24, 64, 4], [1, 64, 1]), ([24, 64, 4], [1, 65, 1]),
        ([24, 64, 4], [1, 1, 4]), ([24, 64, 4], [1, 1, 5]), ([1, 3, 2], [3, 1, 1]), ([3, 1, 2], [3, 1, 2]),
        ([2, 2, 0], [2, 2, 1]), ([0, 0, 0], [0, 0, 0]), ([0, 0, 0], [1, 0, 0]), ([usize::MAX; 3], [65, 1, 0]),
        ([usize::MAX; 3], [1, 1, 9]), ([65, 257, 9], [64, 1, 8]), ([1 << 32; 3], [65, 1, 1]),
    ] {
        let list = counted(rng, own);
        let bytes = ordered(&list);
        let answer = if within(own, Limits::of(limits)) { 5 } else { 0 };
        c.spoiled_check(&bytes, Limits::of(limits), answer);
        c.spoiled_check(&bytes, Limits::of(limits), rng.pick(&[1, 2, 3, 4, 6, 7]));
    }
}
