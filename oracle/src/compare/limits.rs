//! Each sheet under several limits, and what the port's answers must have in common.

use super::{Asked, Left, Runs, damaged, layout_length, listing_length, room, routing_lengths, saved_length};
use crate::calls::capped;
use crate::generate::{self, LARGE, Size, centres, drawing, laid, shuffled, stored};
use crate::random::Random;
use crate::sheet::{Arrow, Limits, MAIN_SCREEN, SERVICE_PANEL, Sheet, walked};
use crate::vectors::label_lines;

/// How often each was tried: a call is answered alike under two limits under neither of which it meets 5; accepted under
/// the lower it is accepted under the higher; and limits above the main screen's answer as the capped ones.
#[derive(Default)]
struct Laws {
    alike: usize,
    higher: usize,
    capped: usize,
}

/// Limits for a sheet: the main screen's, the panel's, its counts, one below and one above one of them, all above the main
/// screen's, and three at random.
fn several(rng: &mut Random, own: Limits) -> Vec<Limits> {
    let mut list = vec![MAIN_SCREEN, SERVICE_PANEL, own];
    let at = rng.below(3);
    for change in [-1, 1] {
        let mut beside = own.list();
        beside[at] = beside[at].saturating_add_signed(change);
        list.push(Limits::of(beside));
    }
    let above = MAIN_SCREEN.list().map(|n| if rng.once_in(3) { n + 1 } else { rng.pick(&LARGE) });
    list.push(Limits::of(above));
    for _ in 0..3 {
        list.push(generate::limits(rng, own));
    }
    list
}

/// A sheet with counts of the panel's limits or of the main screen's, one, some or all, or with one more or less.
fn at_border(rng: &mut Random) -> Sheet {
    let mut list = generate::sheet(rng, Size { states: 4, arrows: 5, lines: 3, characters: 6 });
    let most = if rng.once_in(4) { MAIN_SCREEN } else { SERVICE_PANEL };
    let mut count = |n: usize| n + usize::from(rng.once_in(3)) - usize::from(rng.once_in(3));
    let [states, arrows, lines] = most.list().map(&mut count);
    if rng.once_in(2) {
        list.states.resize(states, 0);
    }
    if rng.once_in(3) {
        list.arrows.resize_with(arrows, || {
            let mut end = || rng.below(list.states.len() + 1) as u16;
            Arrow { from: end(), to: end(), lines: vec![] }
        });
    }
    if rng.once_in(2) {
        let at = rng.below(list.arrows.len());
        list.arrows[at].lines.resize(lines, vec![b"a".to_vec()]);
    }
    list
}

/// All seven calls that take limits on each sheet under several of them, and on a label block.
pub fn limits(count: usize, seed: u64) {
    let rng = &mut Random::new(seed);
    let mut runs = Runs::new(seed);
    let mut laws = Laws::default();
    for _ in 0..count {
        let list = match rng.below(8) {
            0 => stored(rng),
            1..=3 => at_border(rng),
            _ => drawing(rng),
        };
        let (xs, ys) = centres(rng, &list);
        let mut sheet = if rng.once_in(4) { laid(rng, &list) } else { shuffled(rng, &list) };
        if rng.once_in(6) {
            sheet = damaged(rng, sheet);
        }
        let own = walked(&sheet).map_or(list.counts(), |s| s.counts());
        let under = several(rng, own);
        let kind = if rng.once_in(12) { rng.pick(&[3, 4, 255]) } else { rng.below(3) as u8 };
        let (n, m) = routing_lengths(&sheet, &xs, &ys);
        let (sheet, xs, ys) = (&sheet[..], &xs[..], &ys[..]);
        let each = layout_length(sheet, kind);
        for asked in [
            Asked::Check { sheet },
            Asked::Layout { sheet, kind, rooms: (room(rng, each), room(rng, each)) },
            Asked::Route { sheet, xs, ys, rooms: (room(rng, n), room(rng, m)) },
            Asked::Clutter { sheet, xs, ys },
            Asked::List { sheet, kind, room: room(rng, listing_length(sheet, kind)) },
            Asked::WriteSheet { sheet, room: room(rng, saved_length(sheet)) },
        ] {
            laws.hold(&mut runs, &asked, &under);
        }
        let (text, lengths) = label_lines(rng);
        let own = Limits { states: rng.below(65), arrows: rng.below(257), lines: lengths.len() };
        let under = several(rng, own);
        laws.hold(&mut runs, &Asked::LabelSize { text: &text, lengths: &lengths }, &under);
    }
    println!(
        "the port's answers: {} alike under two limits that do not refuse by 5, {} accepted under the lower and under the \
         higher, {} as under the capped ones",
        laws.alike, laws.higher, laws.capped
    );
    let tried = [laws.alike, laws.higher, laws.capped];
    assert!(count < 100 || tried.iter().all(|&n| n > count), "a law is not tried: {tried:?}");
    runs.end();
}

/// Whether all that a call holds against limits is no higher in the one than in the other.
fn no_higher(asked: &Asked, low: Limits, high: Limits) -> bool {
    let (low, high) = (capped(low), capped(high));
    let lines_alone = matches!(asked, Asked::LabelSize { .. });
    low.lines <= high.lines && (lines_alone || (low.states <= high.states && low.arrows <= high.arrows))
}

impl Laws {
    /// Asks both under each of the limits, and holds the port's answers together.
    fn hold(&mut self, runs: &mut Runs, asked: &Asked, under: &[Limits]) {
        let left: Vec<(Limits, Left)> = under.iter().map(|&l| (l, runs.ask(asked, l).0)).collect();
        for (i, (limits, here)) in left.iter().enumerate() {
            for (other, there) in &left[..i] {
                if here.answer != 5 && there.answer != 5 {
                    self.alike += 1;
                    if !here.identical(there) {
                        runs.differs("two-limits", &format!("not as under {:?}", other.list()), asked, *limits);
                    }
                }
            }
            for (other, there) in &left {
                if limits != other && here.answer == 0 && no_higher(asked, *limits, *other) {
                    self.higher += 1;
                    if there.answer != 0 {
                        runs.differs("higher", &format!("accepted, but not under {:?}", other.list()), asked, *limits);
                    }
                }
            }
            if capped(*limits) != *limits {
                self.capped += 1;
                if !here.identical(&asked.port(capped(*limits))) {
                    runs.differs("capped", "not as under the capped limits", asked, *limits);
                }
            }
        }
    }
}
