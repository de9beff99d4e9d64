//! The port's eight calls against the oracle's, through C and under limits of every sort: answers, every number and byte
//! of each lent slice, and what must stay as it was.

mod asked;
mod limits;

use std::collections::BTreeMap;

use crate::calls::{self, Turns};
use crate::generate::{
    self, LIMITS, SORTS, at_limits, centres, drawing, has_accent, in_order, laid, recut, shuffled, sort_of_accents,
    sort_of_starts, stored,
};
use crate::random::Random;
use crate::sheet::{Limits, Line, MAIN_SCREEN, SERVICE_PANEL, Sheet, read};
use crate::vectors::{damage, largest, unsound};
use asked::{Asked, Left};

pub use limits::limits;

/// The sorts of limits; some are of several.
const UNDER: [&str; 7] = [
    "main screen", "service panel", "one above the main screen's", "a 0", "the sheet's counts", "one below a count",
    "none of these",
];

/// The sorts that the limits of a call are of.
fn sorts_of_limits(asked: &Asked, limits: Limits) -> [bool; UNDER.len()] {
    let list = limits.list();
    let own = match asked {
        // Of a label block the lines alone count.
        Asked::LabelSize { lengths, .. } => Some(Limits { lines: lengths.len(), ..limits }),
        _ => asked.own(),
    };
    let below = |own: Limits| list.iter().zip(own.list()).any(|(most, n)| most.checked_add(1) == Some(n));
    let mut sorts = [
        limits == MAIN_SCREEN,
        limits == SERVICE_PANEL,
        calls::capped(limits) != limits,
        list.contains(&0),
        own == Some(limits),
        own.is_some_and(below),
        false,
    ];
    sorts[6] = !sorts.contains(&true);
    sorts
}

struct Runs {
    /// Draws the limits, so that what is given besides does not depend on them.
    rng: Random,
    /// How many calls had each answer: 0, or the refusal's number.
    counts: BTreeMap<&'static str, [usize; 12]>,
    /// How many were made under each sort of limits, and how many of them met 5.
    under: BTreeMap<&'static str, [usize; UNDER.len()]>,
    over: BTreeMap<&'static str, [usize; UNDER.len()]>,
    /// The sorts of starts of the sheets of answered calls.
    starts: BTreeMap<&'static str, [usize; SORTS.len()]>,
    /// The answered calls whose sheet or label block has an accent in some line, and those whose has none.
    accents: BTreeMap<&'static str, [usize; 2]>,
    differ: usize,
    turns: Turns,
    left_out: usize,
    /// The answered listings: how many, the sums of their totals, and how many have each total above 0.
    listed: usize,
    totals: [usize; 5],
    some: [usize; 5],
}

impl Runs {
    fn new(seed: u64) -> Self {
        Self {
            rng: Random::new(seed.wrapping_add(0x7005)),
            counts: BTreeMap::new(),
            under: BTreeMap::new(),
            over: BTreeMap::new(),
            starts: BTreeMap::new(),
            accents: BTreeMap::new(),
            differ: 0,
            turns: Turns::default(),
            left_out: 0,
            listed: 0,
            totals: [0; 5],
            some: [0; 5],
        }
    }

    /// Limits for what a call is given.
    fn limits(&mut self, asked: &Asked) -> Limits {
        let own = asked.own().unwrap_or(SERVICE_PANEL);
        generate::limits(&mut self.rng, own)
    }

    /// Asks both under limits and counts the answer; where they differ, keeps the sheet and the centres in files. What the
    /// port leaves, and what the oracle would.
    fn ask(&mut self, asked: &Asked, limits: Limits) -> (Left, Left) {
        let (port, oracle) = (asked.port(limits), asked.oracle(limits));
        let (call, answer) = (asked.name(), oracle.answer);
        self.counts.entry(call).or_default()[usize::from(answer)] += 1;
        if call != "write_num" {
            let sorts = sorts_of_limits(asked, limits);
            add(self.under.entry(call).or_default(), sorts);
            add(self.over.entry(call).or_default(), sorts.map(|yes| yes && answer == 5));
        }
        if answer == 0 {
            self.answered(call, asked.sheet());
        }
        if !port.agrees(&oracle) {
            let said = format!("the port says {}, the oracle {answer}", port.answer);
            self.differs(call, &said, asked, limits);
        }
        (port, oracle)
    }

    /// Counts a difference and says what it is.
    fn differs(&mut self, what: &str, said: &str, asked: &Asked, limits: Limits) {
        self.differ += 1;
        let name = format!("differs-{}-{what}", self.differ);
        if self.differ <= 20 {
            let (xs, ys) = asked.centres();
            std::fs::write(format!("{name}.sheet"), asked.sheet()).unwrap();
            std::fs::write(format!("{name}.centres"), format!("{xs:?}\n{ys:?}\n")).unwrap();
        }
        println!("{name}: {said}; limits {:?} {}", limits.list(), asked.given());
    }

    /// Counts an answered call by the starts and the accents of its sheet, or by the accents of its label's text.
    fn answered(&mut self, call: &'static str, sheet: &[u8]) {
        let some = match call {
            "write_num" => return,
            "label_size" => has_accent(sheet),
            _ => {
                let s = read(sheet, MAIN_SCREEN).unwrap();
                self.starts.entry(call).or_default()[sort_of_starts(&s.graph())] += 1;
                sort_of_accents(&s).0
            }
        };
        self.accents.entry(call).or_default()[usize::from(!some)] += 1;
    }

    /// Counts the turns of a routing with so many records.
    fn turned(&mut self, turns: Turns, sheet: &Sheet, records: usize) {
        self.turns.add(turns);
        self.left_out += sheet.arrows.len() - records;
    }

    /// Counts the totals of a listing, its last line.
    fn totalled(&mut self, text: &[u8]) {
        let text = std::str::from_utf8(text).unwrap();
        let numbers = text.lines().last().unwrap().strip_prefix("total ").unwrap();
        self.listed += 1;
        for (i, n) in numbers.split(' ').enumerate() {
            let n: usize = n.parse().unwrap();
            self.totals[i] += n;
            self.some[i] += usize::from(n > 0);
        }
    }

    /// Prints the counts; ends the program where something differs.
    fn end(&self) {
        let heads: Vec<String> = (1..12).map(|n| format!("by {n}")).collect();
        table("calls", ["answered"].into_iter().chain(heads.iter().map(String::as_str)), &self.counts);
        table("calls, by limits", UNDER, &self.under);
        table("refused by 5, by limits", UNDER, &self.over);
        table("answered, by starts", SORTS, &self.starts);
        table("answered, by accents", ["some", "none"], &self.accents);
        for (call, [some, none]) in &self.accents {
            let all = some + none;
            assert!(all < 1_000 || (3 * some > all && 3 * none > all), "accents in {some} of {all} calls of {call}");
        }
        let Turns { taken: [loops, arcs, straight], later } = self.turns;
        let all = loops + arcs + straight;
        if all > 0 {
            println!(
                "routed: {all} arrows ({loops} loops, {arcs} arcs, {straight} straight), {} left out; \
                 {later} turns took a place other than the first",
                self.left_out
            );
        }
        if self.listed > 0 {
            assert!(self.listed < 1_000 || self.some.iter().all(|&n| n > 0), "a total is 0 in every listing");
            let [straight, arcs, loops, left_out, lines] = self.totals;
            println!(
                "listed: {straight} straight arrows, {arcs} arcs, {loops} loops, {left_out} left out, {lines} label lines; \
                 of {} listings some in {:?}",
                self.listed, self.some
            );
        }
        let all: usize = self.counts.values().flatten().sum();
        println!("{all} calls, {} differ", self.differ);
        if self.differ > 0 {
            std::process::exit(1);
        }
    }
}

/// Prints a table of counts, a row for each call; nothing where there is no row.
fn table<'a, const N: usize>(
    title: &str, heads: impl IntoIterator<Item = &'a str>, rows: &BTreeMap<&'static str, [usize; N]>,
) {
    if rows.is_empty() {
        return;
    }
    let line = |name: &str, cells: Vec<String>| println!("| {name} | {} |", cells.join(" | "));
    line(title, heads.into_iter().map(str::to_string).collect());
    println!("|{}", "---|".repeat(N + 1));
    for (call, counts) in rows {
        line(call, counts.iter().map(usize::to_string).collect());
    }
    println!();
}

/// The room for an answer of n: plenty, just enough, one too few, or none.
fn room(rng: &mut Random, n: usize) -> usize {
    match rng.below(20) {
        0 | 4 => n,
        1 => n.saturating_sub(1),
        2 => rng.below(n + 1),
        3 => 0,
        _ => n + 1 + rng.below(50),
    }
}

/// Routings and clutter counts of sound sheets at centres of every sort.
pub fn routings(count: usize, seed: u64) {
    let rng = &mut Random::new(seed);
    let mut runs = Runs::new(seed);
    for _ in 0..count {
        let drawing = drawing(rng);
        let sheet = shuffled(rng, &drawing);
        let (xs, ys) = centres(rng, &drawing);
        routed(&mut runs, rng, &sheet, &xs, &ys);
        cluttered(&mut runs, &sheet, &xs, &ys);
    }
    runs.end();
}

/// A call on each of some sound sheets, by all three kinds.
fn by_kinds(count: usize, seed: u64, call: fn(&mut Runs, &mut Random, &[u8], u8)) {
    let rng = &mut Random::new(seed);
    let mut runs = Runs::new(seed);
    for _ in 0..count {
        let drawing = drawing(rng);
        let sheet = shuffled(rng, &drawing);
        for kind in 0..3 {
            call(&mut runs, rng, &sheet, kind);
        }
    }
    runs.end();
}

pub fn layouts(count: usize, seed: u64) {
    by_kinds(count, seed, placed);
}

pub fn listings(count: usize, seed: u64) {
    by_kinds(count, seed, listed);
}

/// Label blocks alone.
pub fn labels(count: usize, seed: u64) {
    let rng = &mut Random::new(seed);
    let mut runs = Runs::new(seed);
    for _ in 0..count {
        measured(&mut runs, rng);
    }
    runs.end();
}

/// An accepted sheet of 65,536 bytes, or that and one byte more.
fn full(rng: &mut Random) -> Vec<u8> {
    let full = largest(rng);
    let mut sheet = shuffled(rng, &full);
    if rng.once_in(2) {
        sheet.push(0);
    }
    sheet
}

/// All eight calls on each sheet. The rooms for `write_sheet` have a seed of their own, so that the other calls are those
/// that they were without it.
pub fn run(turns: usize, seed: u64) {
    let rng = &mut Random::new(seed);
    let rooms = &mut Random::new(!seed);
    let mut runs = Runs::new(seed);
    for _ in 0..turns {
        let drawing = drawing(rng);
        let mut sheet = shuffled(rng, &drawing);
        let (xs, ys) = centres(rng, &drawing);
        if rng.once_in(5) {
            damage(rng, &mut sheet);
        }
        if rng.once_in(25) {
            let n = rng.below(sheet.len() + 1);
            sheet.truncate(n);
        }
        if rng.once_in(25) {
            let list = unsound(rng);
            sheet = shuffled(rng, &list);
        }
        if rng.once_in(250) {
            sheet = full(rng);
        }
        drawn_limits(&mut runs, &Asked::Check { sheet: &sheet });
        let kind = if rng.once_in(12) { rng.pick(&[3, 4, 255]) } else { rng.below(3) as u8 };
        placed(&mut runs, rng, &sheet, kind);
        routed(&mut runs, rng, &sheet, &xs, &ys);
        cluttered(&mut runs, &sheet, &xs, &ys);
        let kind = if rng.once_in(12) { rng.pick(&[3, 200]) } else { rng.below(3) as u8 };
        listed(&mut runs, rng, &sheet, kind);
        numbered(&mut runs, rng);
        measured(&mut runs, rng);
        let room = room(rooms, saved_length(&sheet));
        drawn_limits(&mut runs, &Asked::WriteSheet { sheet: &sheet, room });
    }
    runs.end();
}

/// The sheets that were written, by what they are; and the round trips.
#[derive(Default)]
struct Saved {
    sheets: usize,
    damaged: usize,
    accepted: usize,
    /// Those whose records are not in the editor's order; those with a piece under 12 bytes that is not its line's last;
    /// with a piece that ends within a character; with such a piece written; with a line without text; with an arrow that
    /// is left out; that stay as they are.
    sorts: [usize; SAVED.len()],
    limits: [usize; LIMITS.len()],
    /// Written, accepted and written again; beside another sheet of the same meaning; drawn beside what they are written
    /// from.
    again: usize,
    alike: usize,
    drawn: usize,
    /// Those under limits other than the main screen's.
    within: usize,
}

const SAVED: [&str; 7] = [
    "out of order", "short pieces", "a character in two pieces", "written so", "empty lines", "left-out arrows",
    "stay as they are",
];

/// Whether a piece of a line, but for the last, has under 12 bytes, and whether one ends within a character.
fn short_and_parted(line: &Line) -> (bool, bool) {
    let before_last = line.split_last().map_or(&[][..], |(_, rest)| rest);
    let short = before_last.iter().any(|p| p.len() < 12);
    // A byte 10xxxxxx goes on with a character.
    (short, line.iter().any(|p| p[0] & 0xc0 == 0x80))
}

impl Saved {
    fn note(&mut self, given: &[u8], list: &Sheet, written: &[u8]) {
        self.accepted += 1;
        let lines = |s: &Sheet| -> Vec<Line> { s.arrows.iter().flat_map(|a| a.lines.clone()).collect() };
        let parts: Vec<(bool, bool)> = lines(list).iter().map(short_and_parted).collect();
        let sorts = [
            in_order(list) != given,
            parts.iter().any(|p| p.0),
            parts.iter().any(|p| p.1),
            read(written, MAIN_SCREEN).is_ok_and(|s| lines(&s).iter().any(|l| short_and_parted(l).1)),
            lines(list).iter().any(Vec::is_empty),
            list.arrows.iter().any(|a| usize::from(a.from.max(a.to)) >= list.states.len()),
            given == written,
        ];
        add(&mut self.sorts, sorts);
        add(&mut self.limits, at_limits(list));
    }

    fn print(&self, calls: &[usize; 12]) {
        let named = |names: &[&str], counts: &[usize]| -> String {
            names.iter().zip(counts).map(|(name, n)| format!("{name} {n}")).collect::<Vec<_>>().join(", ")
        };
        println!("{} sheets, {} of them damaged; {} accepted", self.sheets, self.damaged, self.accepted);
        println!("accepted: {}", named(&SAVED, &self.sorts));
        println!("at a limit: {}", named(&LIMITS, &self.limits));
        println!(
            "round trips: {} written, checked and written again, {} beside another sheet of the same meaning, {} drawn \
             by layout, route, clutter and list; {} under limits other than the main screen's",
            self.again, self.alike, self.drawn, self.within
        );
        let few = self.sheets < 1_000;
        assert!(few || self.sorts.iter().chain(&self.limits).all(|&n| n > 0), "a sort or a limit is not met");
        assert!(few || calls[..8].iter().all(|&n| n > 0), "an answer is not met: {calls:?}");
    }
}

fn add<const N: usize>(sums: &mut [usize; N], more: [bool; N]) {
    for (sum, yes) in sums.iter_mut().zip(more) {
        *sum += usize::from(yes);
    }
}

/// A sheet that is damaged, cut short, too long, over a limit or ill-formed; some are accepted all the same.
fn damaged(rng: &mut Random, mut sheet: Vec<u8>) -> Vec<u8> {
    match rng.below(8) {
        0 => sheet.truncate(rng.below(sheet.len() + 1)),
        1 => sheet.extend(vec![0; 1 + rng.below(17)]),
        2 | 3 => {
            let list = unsound(rng);
            sheet = shuffled(rng, &list);
        }
        4 if rng.once_in(8) => sheet = full(rng),
        _ => {
            damage(rng, &mut sheet);
            while rng.once_in(4) {
                damage(rng, &mut sheet);
            }
        }
    }
    sheet
}

/// Sheets written into outputs of every sort: exact, one byte short, none, longer, too short by any number. What is
/// written is checked and written again; another sheet of the same meaning is written beside it; some are drawn.
pub fn sheets(count: usize, seed: u64) {
    let rng = &mut Random::new(seed);
    let mut runs = Runs::new(seed);
    let mut all = Saved::default();
    for i in 0..count {
        let list = stored(rng);
        let mut sheet = laid(rng, &list);
        all.sheets += 1;
        if rng.once_in(4) {
            sheet = damaged(rng, sheet);
            all.damaged += 1;
        }
        let n = saved_length(&sheet);
        let drawn = runs.limits(&Asked::Check { sheet: &sheet });
        let within = read(&sheet, calls::capped(drawn)).is_ok();
        let mut written = saved(&mut runs, drawn, &sheet, n);
        for room in [n - 1, 0, n + 1 + rng.below(200), rng.below(n)] {
            saved(&mut runs, drawn, &sheet, room);
        }
        if let Ok(list) = read(&sheet, MAIN_SCREEN) {
            // What is over the limits drawn goes round on the main screen.
            let limits = if within { drawn } else { MAIN_SCREEN };
            all.within += usize::from(within && drawn != MAIN_SCREEN);
            if !within {
                written = saved(&mut runs, limits, &sheet, n);
            }
            all.note(&sheet, &list, &written);
            trip(&mut runs, &mut all, rng, limits, &sheet, &list, &written);
            if i % 10 == 0 {
                let (xs, ys) = centres(rng, &list);
                all.drawn += 1;
                alike(&mut runs, limits, [&sheet, &written], &xs, &ys);
            }
        }
    }
    all.print(runs.counts.get("write_sheet").unwrap_or(&[0; 12]));
    runs.end();
}

/// The length that the oracle writes, or the sheet's where it is refused.
fn saved_length(sheet: &[u8]) -> usize {
    calls::write_sheet(sheet, MAIN_SCREEN, usize::MAX).map_or(sheet.len().max(1), |t| t.len())
}

/// What a sheet is written as is accepted under the same limits, is no longer, means the same and is written as it is;
/// another sheet of the same meaning is written alike.
fn trip(
    runs: &mut Runs, all: &mut Saved, rng: &mut Random, limits: Limits, sheet: &[u8], list: &Sheet, written: &[u8],
) {
    let asked = Asked::Check { sheet: written };
    let (port, _) = runs.ask(&asked, limits);
    let meant = read(written, calls::capped(limits));
    let same = port.answer == 0 && written.len() <= sheet.len() && meant.is_ok_and(|s| s.graph() == list.graph());
    if !same {
        runs.differs("meaning", "what is written is refused, longer or means something else", &asked, limits);
        return;
    }
    all.again += 1;
    if saved(runs, limits, written, written.len()) != written {
        runs.differs("again", "what is written is not written again as it is", &asked, limits);
    }
    let other = recut(rng, list);
    let other = laid(rng, &other);
    all.alike += 1;
    if saved(runs, limits, &other, written.len()) != written {
        let asked = Asked::Check { sheet: &other };
        runs.differs("alike", "a sheet of the same meaning is not written alike", &asked, limits);
    }
}

/// Writes a sheet with so much room, and gives as many of its bytes as the oracle writes.
fn saved(runs: &mut Runs, limits: Limits, sheet: &[u8], room: usize) -> Vec<u8> {
    let (port, oracle) = runs.ask(&Asked::WriteSheet { sheet, room }, limits);
    port.bytes(if oracle.answer == 0 { oracle.numbers()[0] } else { 0 })
}

/// What is written is drawn as what it is written from: layouts and listings by each kind, a routing and a clutter count
/// at given centres, in every bit.
fn alike(runs: &mut Runs, limits: Limits, sheets: [&[u8]; 2], xs: &[f64], ys: &[f64]) {
    let asked = |sheet| {
        let layouts = [0, 1, 2].map(|kind| Asked::Layout { sheet, kind, rooms: (64, 64) });
        let listings = [0, 1, 2].map(|kind| Asked::List { sheet, kind, room: 120_000 });
        let routing = Asked::Route { sheet, xs, ys, rooms: (5120, 120_000) };
        [&layouts[..], &listings[..], &[routing, Asked::Clutter { sheet, xs, ys }]].concat()
    };
    for (a, b) in asked(sheets[0]).iter().zip(asked(sheets[1])) {
        if !a.port(limits).identical(&b.port(limits)) {
            runs.differs("drawn", "what is written is not drawn alike", a, limits);
        }
    }
}

/// Asks both under limits that are drawn for what is given.
fn drawn_limits(runs: &mut Runs, asked: &Asked) -> (Left, Left) {
    let limits = runs.limits(asked);
    runs.ask(asked, limits)
}

/// How many centres a layout has, or 3 where it is refused.
fn layout_length(sheet: &[u8], kind: u8) -> usize {
    calls::layout(sheet, MAIN_SCREEN, kind, (usize::MAX, usize::MAX)).map_or(3, |l| l.x.len())
}

/// The numbers and bytes of a routing, or 20 where it is refused.
fn routing_lengths(sheet: &[u8], xs: &[f64], ys: &[f64]) -> (usize, usize) {
    calls::route(sheet, MAIN_SCREEN, xs, ys, (usize::MAX, usize::MAX))
        .map_or((20, 20), |r| (r.records.len(), r.text.len()))
}

/// The bytes of a listing, or 20 where it is refused.
fn listing_length(sheet: &[u8], kind: u8) -> usize {
    calls::list(sheet, MAIN_SCREEN, kind, usize::MAX).map_or(20, |t| t.len())
}

fn placed(runs: &mut Runs, rng: &mut Random, sheet: &[u8], kind: u8) {
    let n = layout_length(sheet, kind);
    let rooms = (room(rng, n), room(rng, n));
    drawn_limits(runs, &Asked::Layout { sheet, kind, rooms });
}

fn routed(runs: &mut Runs, rng: &mut Random, sheet: &[u8], xs: &[f64], ys: &[f64]) {
    let (n, m) = routing_lengths(sheet, xs, ys);
    let rooms = (room(rng, n), room(rng, m));
    let (_, oracle) = drawn_limits(runs, &Asked::Route { sheet, xs, ys, rooms });
    if oracle.answer == 0 {
        let list = read(sheet, MAIN_SCREEN).unwrap();
        runs.turned(calls::turns(&list.graph(), xs, ys), &list, oracle.numbers()[0] / 20);
    }
}

fn cluttered(runs: &mut Runs, sheet: &[u8], xs: &[f64], ys: &[f64]) {
    drawn_limits(runs, &Asked::Clutter { sheet, xs, ys });
}

fn listed(runs: &mut Runs, rng: &mut Random, sheet: &[u8], kind: u8) {
    let room = room(rng, listing_length(sheet, kind));
    let (_, oracle) = drawn_limits(runs, &Asked::List { sheet, kind, room });
    if oracle.answer == 0 {
        runs.totalled(&oracle.bytes(oracle.numbers()[0]));
    }
}

fn numbered(runs: &mut Runs, rng: &mut Random) {
    let v = crate::vectors::number(rng);
    let n = calls::write_num(v, usize::MAX).map_or(3, |t| t.len());
    let room = room(rng, n);
    runs.ask(&Asked::WriteNum { v, room }, MAIN_SCREEN);
}

fn measured(runs: &mut Runs, rng: &mut Random) {
    let (text, lengths) = crate::vectors::label_lines(rng);
    drawn_limits(runs, &Asked::LabelSize { text: &text, lengths: &lengths });
}
