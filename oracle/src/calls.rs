//! The eight calls with all their refusals, from documents 01 and 02, over the Rust.

use std::cell::Cell;

use super::counted;
use super::graph::Graph;
use super::layout::{Layout, LayoutKind, NODE_RADIUS, layout as place};
use super::route::{Anchor, Geometry, clutter as count, geometry, probe};
use super::sheet::{self, Arrow, Limits, Sheet};
use super::svg;

pub use super::sheet::MAIN_SCREEN;

thread_local! {
    static LARGEST_BOW: Cell<f64> = const { Cell::new(0.0) };
    static PLACE: Cell<usize> = const { Cell::new(0) };
    static TURNS: Cell<Turns> = const { Cell::new(Turns { taken: [0; 3], later: 0 }) };
}

/// The turns of some routings: of loops, arcs and straight arrows, and those that took a place or
/// direction other than the first listed.
#[derive(Clone, Copy, Default)]
pub struct Turns {
    pub taken: [usize; 3],
    pub later: usize,
}

impl Turns {
    pub fn add(&mut self, more: Turns) {
        for (sum, n) in self.taken.iter_mut().zip(more.taken) {
            *sum += n;
        }
        self.later += more.later;
    }
}

pub fn note_place(place: usize) {
    PLACE.set(place);
}

pub fn note_turn(sort: usize) {
    let mut t = TURNS.get();
    t.taken[sort] += 1;
    t.later += usize::from(PLACE.get() > 0);
    TURNS.set(t);
}

/// The turns of a routing.
pub fn turns(graph: &Graph, xs: &[f64], ys: &[f64]) -> Turns {
    TURNS.set(Turns::default());
    counted::geometry(graph, xs, ys);
    TURNS.get()
}

/// Notes the first free bow of a two-way pair, and hands it back.
pub fn note_bow(both_ways: bool, up: f64) -> f64 {
    if both_ways && up > LARGEST_BOW.get() {
        LARGEST_BOW.set(up);
    }
    up
}

/// What `f` draws, or 9 where a two-way pair's first free bow exceeds 10^9.
pub fn bowed<T>(f: impl FnOnce() -> T) -> Result<T, u8> {
    LARGEST_BOW.set(0.0);
    let answer = f();
    if LARGEST_BOW.get() > 1e9 { Err(9) } else { Ok(answer) }
}

/// A finite x or y of an existing state's centre beyond 2^20 in size is 8.
fn centred(sheet: &Sheet, xs: &[f64], ys: &[f64]) -> Result<(), u8> {
    let far = |list: &[f64]| {
        list.iter()
            .take(sheet.states.len())
            .any(|v| v.is_finite() && v.abs() > 1_048_576.0)
    };
    if far(xs) || far(ys) { Err(8) } else { Ok(()) }
}

fn layout_kind(kind: u8) -> Result<LayoutKind, u8> {
    match kind {
        0 => Ok(LayoutKind::Auto),
        1 => Ok(LayoutKind::Layered),
        2 => Ok(LayoutKind::Circular),
        _ => Err(11),
    }
}

/// Text put together of words and written numbers; too large a number is kept as a refusal.
#[derive(Default)]
struct Text {
    out: String,
    refused: bool,
}

impl Text {
    fn word(&mut self, s: &str) {
        self.out.push_str(s);
    }

    fn checked(&mut self, v: f64) {
        self.refused |= probe::number(v).is_err();
    }

    fn number(&mut self, v: f64) {
        self.checked(v);
        self.word(&probe::number(v).unwrap_or_default());
    }

    fn numbers(&mut self, list: &[f64]) {
        for &v in list {
            self.word(" ");
            self.number(v);
        }
    }

    fn path(&mut self, g: &Geometry) {
        let points = probe::points(g.curve);
        for p in &points {
            self.checked(p.0);
            self.checked(p.1);
        }
        self.word(&probe::path(&points));
    }

    fn head(&mut self, tip: (f64, f64), angle: f64) {
        for v in svg::head_points(tip, angle) {
            self.checked(v);
        }
        self.word(&svg::head(tip, angle));
    }

    fn done(self) -> Result<Vec<u8>, u8> {
        if self.refused { Err(10) } else { Ok(self.out.into_bytes()) }
    }
}

fn fits(room: usize, wanted: usize) -> Result<(), u8> {
    if room < wanted { Err(7) } else { Ok(()) }
}

/// Document 02, T-05: each limit above the main screen's counts as the main screen's.
pub fn capped(limits: Limits) -> Limits {
    Limits {
        states: limits.states.min(MAIN_SCREEN.states),
        arrows: limits.arrows.min(MAIN_SCREEN.arrows),
        lines: limits.lines.min(MAIN_SCREEN.lines),
    }
}

/// The sheet's meaning under any limits, or the number of the refusal.
fn opened(bytes: &[u8], limits: Limits) -> Result<Sheet, u8> {
    sheet::read(bytes, capped(limits))
}

pub fn check(bytes: &[u8], limits: Limits) -> Result<(), u8> {
    opened(bytes, limits).map(|_| ())
}

/// Document 02, T-04: the sheet as the editor saves it.
pub fn write_sheet(bytes: &[u8], limits: Limits, room: usize) -> Result<Vec<u8>, u8> {
    let saved = opened(bytes, limits)?.saved();
    fits(room, saved.len())?;
    Ok(saved)
}

pub fn layout(bytes: &[u8], limits: Limits, kind: u8, rooms: (usize, usize)) -> Result<Layout, u8> {
    let kind = layout_kind(kind)?;
    let graph = opened(bytes, limits)?.graph();
    let answer = bowed(|| place(&graph, kind))?;
    fits(rooms.0, answer.x.len())?;
    fits(rooms.1, answer.y.len())?;
    Ok(answer)
}

/// The twenty numbers of a record.
pub fn record(g: &Geometry) -> [f64; 20] {
    let points = probe::points(g.curve);
    let mut r = [0.0; 20];
    r[0] = g.edge as f64;
    r[1] = points.len() as f64;
    for (i, p) in points.iter().enumerate() {
        r[2 + 2 * i] = p.0;
        r[3 + 2 * i] = p.1;
    }
    let anchor = match g.anchor {
        Anchor::Start => 0.0,
        Anchor::Middle => 1.0,
        Anchor::End => 2.0,
    };
    let b = g.label_box;
    let rest = [
        g.tip.x, g.tip.y, g.tip_angle, g.label.x, g.label.y, anchor, b.x0, b.y0, b.x1, b.y1,
    ];
    r[10..].copy_from_slice(&rest);
    r
}

/// Records and path text.
pub struct Routing {
    pub records: Vec<f64>,
    pub text: Vec<u8>,
}

fn drawn(graph: &Graph, xs: &[f64], ys: &[f64]) -> Result<(Vec<Geometry>, Routing), u8> {
    let list = bowed(|| geometry(graph, xs, ys))?;
    let mut text = Text::default();
    for g in &list {
        text.path(g);
        text.word("\n");
    }
    let routing = Routing {
        records: list.iter().flat_map(record).collect(),
        text: text.done()?,
    };
    Ok((list, routing))
}

pub fn route(
    bytes: &[u8], limits: Limits, xs: &[f64], ys: &[f64], rooms: (usize, usize),
) -> Result<Routing, u8> {
    let sheet = opened(bytes, limits)?;
    centred(&sheet, xs, ys)?;
    let (_, routing) = drawn(&sheet.graph(), xs, ys)?;
    fits(rooms.0, routing.records.len())?;
    fits(rooms.1, routing.text.len())?;
    Ok(routing)
}

pub fn clutter(bytes: &[u8], limits: Limits, xs: &[f64], ys: &[f64]) -> Result<usize, u8> {
    let sheet = opened(bytes, limits)?;
    centred(&sheet, xs, ys)?;
    bowed(|| count(&sheet.graph(), xs, ys))
}

pub fn label_size(text: &[u8], lengths: &[usize], limits: Limits) -> Result<(f64, f64), u8> {
    sheet::label_block(text, lengths, capped(limits).lines)
}

pub fn write_num(v: f64, room: usize) -> Result<Vec<u8>, u8> {
    let text = probe::number(v)?.into_bytes();
    fits(room, text.len())?;
    Ok(text)
}

/// Document 02, T-01: straight arrows, arcs and loops, by the points of their records; left-out arrows, and the label
/// lines of the others.
pub fn totals(sheet: &Sheet, drawing: &[Geometry]) -> [usize; 5] {
    let with = |n| drawing.iter().filter(|g| probe::points(g.curve).len() == n).count();
    let (kept, left_out): (Vec<&Arrow>, Vec<&Arrow>) = sheet.arrows.iter().partition(|a| {
        [a.from, a.to].iter().all(|&end| usize::from(end) < sheet.states.len())
    });
    [with(2), with(3), with(4), left_out.len(), kept.iter().map(|a| a.lines.len()).sum()]
}

pub fn list(bytes: &[u8], limits: Limits, kind: u8, room: usize) -> Result<Vec<u8>, u8> {
    let kind = layout_kind(kind)?;
    let sheet = opened(bytes, limits)?;
    let graph = sheet.graph();
    let l = bowed(|| place(&graph, kind))?;
    centred(&sheet, &l.x, &l.y)?;
    let (drawing, _) = drawn(&graph, &l.x, &l.y)?;
    let mut t = Text::default();
    t.word("size");
    t.numbers(&[l.width, l.height]);
    t.word("\n");
    for (i, (x, y)) in l.x.iter().zip(&l.y).enumerate() {
        t.word(&format!("state {i}"));
        t.numbers(&[*x, *y]);
        t.word("\n");
    }
    for g in &drawing {
        let i = g.edge;
        t.word(&format!("edge {i} "));
        t.path(g);
        t.word(&format!("\ntip {i}"));
        t.numbers(&[g.tip.x, g.tip.y, g.tip_angle]);
        t.word(&format!("\nhead {i} "));
        t.head((g.tip.x, g.tip.y), g.tip_angle);
        t.word(&format!("\nlabel {i}"));
        t.numbers(&[g.label.x, g.label.y]);
        t.word(&format!(" {}\n", g.anchor.as_str()));
    }
    for (i, node) in graph.nodes.iter().enumerate() {
        if node.is_start {
            t.word(&format!("start {i} "));
            t.head((l.x[i] - NODE_RADIUS, l.y[i]), 0.0);
            t.word("\n");
        }
    }
    t.word("total");
    for n in totals(&sheet, &drawing) {
        t.word(&format!(" {n}"));
    }
    t.word("\n");
    let text = t.done()?;
    fits(room, text.len())?;
    Ok(text)
}

#[cfg(test)]
mod tests {
    use super::*;
    use crate::generate::{self, ordered};
    use crate::random::Random;
    use crate::sheet::SERVICE_PANEL;

    fn states(flags: &[u8]) -> Vec<u8> {
        let sheet = Sheet {
            states: flags.to_vec(),
            arrows: vec![],
        };
        ordered(&sheet)
    }

    #[test]
    fn worked_layouts() {
        for (flags, x, y, w, h) in [
            (vec![], vec![], vec![], 32.0, 32.0),
            (vec![0], vec![38.0], vec![38.0], 76.0, 76.0),
            (vec![1], vec![66.0], vec![38.0], 104.0, 76.0),
        ] {
            let l = layout(&states(&flags), MAIN_SCREEN, 0, (64, 64)).unwrap();
            assert_eq!((l.x, l.y, l.width, l.height), (x, y, w, h));
        }
        assert_eq!(layout(&states(&[1]), MAIN_SCREEN, 3, (64, 64)), Err(11));
        assert_eq!(layout(&states(&[1]), MAIN_SCREEN, 0, (64, 0)), Err(7));
    }

    #[test]
    fn worked_listing() {
        let sheet = Sheet {
            states: vec![1, 0],
            arrows: vec![Arrow {
                from: 0,
                to: 1,
                lines: vec![vec![b"a".to_vec()]],
            }],
        };
        let text = list(&ordered(&sheet), MAIN_SCREEN, 0, 65_536).unwrap();
        let wanted = "size 244 76\nstate 0 66 38\nstate 1 206 38\nedge 0 M 88 38 L 184 38\n\
            tip 0 184 38 0\nhead 0 M 184 38 L 175 41.5 L 175 34.5 Z\nlabel 0 136 19 middle\n\
            start 0 M 44 38 L 35 41.5 L 35 34.5 Z\ntotal 1 0 0 0 1\n";
        assert_eq!(String::from_utf8(text).unwrap(), wanted);
        let empty = list(&states(&[]), MAIN_SCREEN, 0, 65_536).unwrap();
        assert_eq!(String::from_utf8(empty).unwrap(), "size 32 32\ntotal 0 0 0 0 0\n");
    }

    /// A straight arrow, a two-way pair, a loop with a line and a line without text, and an arrow to no state.
    #[test]
    fn worked_totals() {
        let arrow = |from, to, lines: &[&str]| Arrow {
            from,
            to,
            lines: lines.iter().map(|l| generate::full_pieces(l.as_bytes())).collect(),
        };
        let sheet = Sheet {
            states: vec![0; 3],
            arrows: vec![
                arrow(0, 1, &["a"]),
                arrow(1, 2, &["b"]),
                arrow(2, 1, &[]),
                arrow(2, 2, &["c", ""]),
                arrow(0, 3, &["d"]),
            ],
        };
        let text = list(&ordered(&sheet), MAIN_SCREEN, 0, 65_536).unwrap();
        assert!(text.ends_with(b"\ntotal 1 2 1 1 4\n"));
    }

    /// The points of the records tell loops, arcs and straight arrows as the routing's turns do, and the first four
    /// totals add up to the arrows.
    #[test]
    fn totals_are_turns() {
        let rng = &mut Random::new(17);
        for _ in 0..2_000 {
            let sheet = generate::drawing(rng);
            let (xs, ys) = generate::centres(rng, &sheet);
            let graph = sheet.graph();
            let [straight, arcs, loops, left_out, _] = totals(&sheet, &geometry(&graph, &xs, &ys));
            assert_eq!(turns(&graph, &xs, &ys).taken, [loops, arcs, straight]);
            assert_eq!(straight + arcs + loops + left_out, sheet.arrows.len());
        }
    }

    /// Sheets that differ in accents alone are laid out, routed, counted and listed alike. About half of the sheets
    /// have accents, and in some of these a piece ends within one.
    #[test]
    fn accents_change_nothing() {
        let rng = &mut Random::new(23);
        let (mut some, mut parted) = (0, 0);
        for i in 0..2_000 {
            let by = (i % 3) as u8;
            let sheet = generate::drawing(rng);
            let sort = generate::sort_of_accents(&sheet);
            some += usize::from(sort.0);
            parted += usize::from(sort.1);
            let plain = generate::without_accents(rng, &sheet);
            assert!(!generate::sort_of_accents(&plain).0);
            let (sheet, plain) = (ordered(&sheet), ordered(&plain));
            let placed = |s: &[u8]| layout(s, MAIN_SCREEN, by, (64, 64));
            let l = placed(&sheet).unwrap();
            assert_eq!(placed(&plain).as_ref(), Ok(&l));
            let routed =
                |s: &[u8]| route(s, MAIN_SCREEN, &l.x, &l.y, (5120, 65_536)).map(|r| (r.records, r.text));
            assert_eq!(routed(&sheet), routed(&plain));
            let counted = |s: &[u8]| clutter(s, MAIN_SCREEN, &l.x, &l.y);
            assert_eq!(counted(&sheet), counted(&plain));
            let listed = |s: &[u8]| list(s, MAIN_SCREEN, by, 65_536);
            assert_eq!(listed(&sheet), listed(&plain));
        }
        assert!((900..1_100).contains(&some), "accents in {some}");
        assert!(parted > 500, "in two pieces in {parted}");
    }

    fn saved(bytes: &[u8]) -> Vec<u8> {
        write_sheet(bytes, MAIN_SCREEN, bytes.len()).unwrap()
    }

    /// Document 01's worked sheet, byte for byte: a start state, a second state, an arrow 0 to 1 with the line `a`.
    const WORKED: [[u8; 16]; 6] = [
        [1, 0, 5, 0, 1, 0, 3, 0, 0, 0, 0, 0, 0, 0, 0, 0],
        [1, 1, 2, 0, 0, 0, 0, 0, 0, 0, 0, 0, 0, 0, 0, 0],
        [1, 0, 0, 0, 0, 0, 0, 0, 0, 0, 0, 0, 0, 0, 0, 0],
        [2, 0, 0, 0, 0, 0, 1, 0, 4, 0, 0, 0, 0, 0, 0, 0],
        [3, 0, 0, 0, 5, 0, 0, 0, 0, 0, 0, 0, 0, 0, 0, 0],
        [4, 1, 0, 0, b'a', 0, 0, 0, 0, 0, 0, 0, 0, 0, 0, 0],
    ];

    #[test]
    fn worked_sheet_saved() {
        let worked = WORKED.concat();
        assert_eq!(saved(&worked), worked);
        let sheet = sheet::read(&worked, MAIN_SCREEN).unwrap();
        for places in [[5, 4, 3, 2, 1], [2, 5, 1, 3, 4], [4, 1, 5, 2, 3]] {
            let other = sheet.bytes(&places);
            assert_ne!(other, worked);
            assert_eq!(saved(&other), worked);
        }
        assert_eq!(saved(&states(&[])), states(&[]));
        let into = |bytes: &[u8], room| write_sheet(bytes, MAIN_SCREEN, room);
        assert_eq!(into(&worked, 95), Err(7));
        assert_eq!(into(&worked, 0), Err(7));
        assert_eq!(into(&worked, usize::MAX), Ok(worked.clone()));
        assert_eq!(into(&worked[..95], 0), Err(1));
    }

    /// Two arrows, one of them left out. Of the first the lines are one of 7 and 8 bytes, which a piece of 12 cuts within
    /// a character, and one that is empty; all flags occur.
    #[test]
    fn pieces_saved() {
        let line = vec![b"0123456".to_vec(), b"789a\xe2\x86\xa6b".to_vec()];
        let sheet = Sheet {
            states: vec![0, 3, 2, 1],
            arrows: vec![
                Arrow { from: 3, to: 300, lines: vec![line, vec![]] },
                Arrow { from: 2, to: 0, lines: vec![vec![b"x".to_vec(); 12]] },
            ],
        };
        let wanted = [
            [1, 0, 12, 0, 1, 0, 5, 0, 0, 0, 0, 0, 0, 0, 0, 0],
            [1, 0, 2, 0, 0, 0, 0, 0, 0, 0, 0, 0, 0, 0, 0, 0],
            [1, 3, 3, 0, 0, 0, 0, 0, 0, 0, 0, 0, 0, 0, 0, 0],
            [1, 2, 4, 0, 0, 0, 0, 0, 0, 0, 0, 0, 0, 0, 0, 0],
            [1, 1, 0, 0, 0, 0, 0, 0, 0, 0, 0, 0, 0, 0, 0, 0],
            [2, 0, 10, 0, 3, 0, 44, 1, 6, 0, 0, 0, 0, 0, 0, 0],
            [3, 0, 9, 0, 7, 0, 0, 0, 0, 0, 0, 0, 0, 0, 0, 0],
            [4, 12, 8, 0, b'0', b'1', b'2', b'3', b'4', b'5', b'6', b'7', b'8', b'9', b'a', 0xe2],
            [4, 3, 0, 0, 0x86, 0xa6, b'b', 0, 0, 0, 0, 0, 0, 0, 0, 0],
            [3, 0, 0, 0, 0, 0, 0, 0, 0, 0, 0, 0, 0, 0, 0, 0],
            [2, 0, 0, 0, 2, 0, 0, 0, 11, 0, 0, 0, 0, 0, 0, 0],
            [3, 0, 0, 0, 12, 0, 0, 0, 0, 0, 0, 0, 0, 0, 0, 0],
            [4, 12, 0, 0, b'x', b'x', b'x', b'x', b'x', b'x', b'x', b'x', b'x', b'x', b'x', b'x'],
        ];
        let rng = &mut Random::new(37);
        for _ in 0..20 {
            assert_eq!(saved(&generate::shuffled(rng, &sheet)), wanted.concat());
        }
    }

    /// What is saved is accepted, no longer, means the same, is saved as it is and drawn as what it was saved from; and a
    /// sheet that means the same is saved alike.
    #[test]
    fn saved_round_trip() {
        let rng = &mut Random::new(41);
        for i in 0..3_000 {
            let sheet = generate::stored(rng);
            let bytes = generate::laid(rng, &sheet);
            let out = saved(&bytes);
            assert!(out.len() <= bytes.len());
            assert_eq!(sheet::read(&out, MAIN_SCREEN).unwrap().graph(), sheet.graph());
            assert_eq!(saved(&out), out);
            let again = generate::recut(rng, &sheet);
            assert_eq!(saved(&generate::shuffled(rng, &again)), out);
            if i % 10 == 0 {
                let listed = |s: &[u8]| list(s, MAIN_SCREEN, 0, 120_000);
                assert_eq!(listed(&out), listed(&bytes));
            }
        }
    }

    #[test]
    fn worked_bows() {
        for (length, bow) in [(140.0, 42.0), (50.0, 28.0), (300.0, 64.0)] {
            assert_eq!(probe::bend(0, 1, &[(0.0, 0.0), (length, 0.0)], true), bow);
        }
    }

    #[test]
    fn worked_numbers() {
        for (v, text) in [(-0.004, "0"), (12.5, "12.5"), (f64::INFINITY, "0")] {
            assert_eq!(write_num(v, 32).unwrap(), text.as_bytes());
        }
        assert_eq!(write_num(1e13, 32), Err(10));
        assert!(write_num(9_999_999_999_999.998, 32).is_ok());
        assert_eq!(crate::standin::atan2(-0.0, -1.0), -std::f64::consts::PI);
    }

    #[test]
    fn centres() {
        let at = |xs: &[f64], ys: &[f64]| clutter(&states(&[1]), MAIN_SCREEN, xs, ys);
        assert!(at(&[1_048_576.0], &[]).is_ok());
        assert_eq!(at(&[1_048_576.000_000_000_2], &[]), Err(8));
        assert_eq!(at(&[0.0, 1e9], &[f64::INFINITY]), Ok(0));
    }

    /// So many states, as many arrows from state 0 to itself, and of these the last with as many empty lines.
    fn sheet_of(states: usize, arrows: usize, lines: usize) -> Vec<u8> {
        let mut list = Sheet { states: vec![0; states], arrows: vec![Arrow::default(); arrows] };
        if let Some(last) = list.arrows.last_mut() {
            last.lines = vec![vec![]; lines];
        }
        ordered(&list)
    }

    /// What all calls that take a sheet answer to one.
    fn all_calls(bytes: &[u8], limits: Limits) -> Vec<u8> {
        let answer = |refusal: Option<u8>| refusal.unwrap_or(0);
        vec![
            answer(check(bytes, limits).err()),
            answer(layout(bytes, limits, 0, (64, 64)).err()),
            answer(route(bytes, limits, &[], &[], (5120, 65_536)).err()),
            answer(clutter(bytes, limits, &[], &[]).err()),
            answer(list(bytes, limits, 0, 120_000).err()),
            answer(write_sheet(bytes, limits, 65_536).err()),
        ]
    }

    #[track_caller]
    fn all_answer(counts: [usize; 3], limits: Limits, answer: u8) {
        let [states, arrows, lines] = counts;
        assert_eq!(all_calls(&sheet_of(states, arrows, lines), limits), vec![answer; 6], "{counts:?} {limits:?}");
    }

    /// At each limit of the panel and of the main screen, and one over.
    #[test]
    fn worked_limits() {
        for (counts, answer) in [
            ([24, 0, 0], 0), ([25, 0, 0], 5), ([1, 64, 0], 0), ([1, 65, 0], 5), ([1, 1, 4], 0), ([1, 1, 5], 5),
            ([24, 64, 4], 0), ([25, 64, 4], 5), ([24, 65, 4], 5), ([24, 64, 5], 5), ([0, 64, 4], 0), ([0, 0, 0], 0),
        ] {
            all_answer(counts, SERVICE_PANEL, answer);
        }
        for (counts, answer) in [
            ([64, 0, 0], 0), ([65, 0, 0], 5), ([1, 256, 0], 0), ([1, 257, 0], 5), ([1, 1, 8], 0), ([1, 1, 9], 5),
            ([25, 65, 5], 0),
        ] {
            all_answer(counts, MAIN_SCREEN, answer);
        }
        for (n, panel, main) in [(0, 0, 0), (4, 0, 0), (5, 5, 0), (8, 5, 0), (9, 5, 5)] {
            let block = |limits| label_size(b"", &vec![0; n], limits).err().unwrap_or(0);
            assert_eq!((block(SERVICE_PANEL), block(MAIN_SCREEN)), (panel, main), "{n} lines");
        }
    }

    /// Each limit above the main screen's counts as the main screen's, by itself; the other two stay.
    #[test]
    fn limits_above() {
        for most in [usize::MAX, 1 << 63, 1 << 32] {
            let above = Limits::of([most; 3]);
            for counts in [[64, 0, 0], [0, 256, 0], [1, 1, 8]] {
                all_answer(counts, above, 0);
            }
            for counts in [[65, 0, 0], [0, 257, 0], [1, 1, 9]] {
                all_answer(counts, above, 5);
            }
            assert_eq!(label_size(b"", &[0; 8], above), Ok((0.0, 120.0)));
            assert_eq!(label_size(b"", &[0; 9], above), Err(5));
            assert_eq!(capped(Limits::of([most, 3, 2])), Limits::of([64, 3, 2]));
            assert_eq!(capped(Limits::of([3, most, 2])), Limits::of([3, 256, 2]));
            assert_eq!(capped(Limits::of([3, 2, most])), Limits::of([3, 2, 8]));
        }
        assert_eq!(capped(Limits::of([65, 257, 9])), MAIN_SCREEN);
        assert_eq!(capped(Limits::of([63, 255, 7])), Limits::of([63, 255, 7]));
        assert_eq!(capped(SERVICE_PANEL), SERVICE_PANEL);
    }

    /// Limits of 0 are limits like others: nothing of that sort is accepted.
    #[test]
    fn limits_of_0() {
        let none = Limits::of([0; 3]);
        all_answer([0, 0, 0], none, 0);
        all_answer([1, 0, 0], none, 5);
        all_answer([0, 1, 0], none, 5);
        all_answer([0, 4, 2], Limits::of([0, 4, 2]), 0);
        all_answer([4, 0, 0], Limits::of([4, 0, 0]), 0);
        all_answer([4, 1, 0], Limits::of([4, 0, 8]), 5);
        all_answer([2, 2, 0], Limits::of([2, 2, 0]), 0);
        all_answer([2, 2, 1], Limits::of([2, 2, 0]), 5);
        assert_eq!(label_size(b"", &[], none), Ok((0.0, 0.0)));
        assert_eq!(label_size(b"", &[0], none), Err(5));
        assert_eq!(label_size(b"", &[0], Limits::of([0, 0, 1])), Ok((0.0, 15.0)));
    }

    /// 11, 1, 2, 4 and 3 come before 5; 6, 8, 9 and 7 behind it. A line of 97 bytes is refused under any limits.
    #[test]
    fn limits_in_order() {
        let limits = Limits::of([2, 1, 1]);
        let over = sheet_of(3, 2, 2);
        assert_eq!(all_calls(&over, limits), [5; 6]);
        assert_eq!(layout(&over, limits, 3, (0, 0)), Err(11));
        assert_eq!(list(&over, limits, 255, 0), Err(11));
        for (at, value, answer) in [(2, 8, 1), (0, 2, 2), (8, 1, 4), (18, 1, 3)] {
            let mut bytes = over.clone();
            bytes[at] = value;
            assert_eq!(all_calls(&bytes, limits), [answer; 6]);
            assert_eq!(list(&bytes, limits, 3, 0), Err(11));
        }
        let lined = |lines: &[&[u8]]| {
            let arrow = |from, to, lines| Arrow { from, to, lines };
            let lines = lines.iter().map(|l| generate::full_pieces(l)).collect();
            ordered(&Sheet { states: vec![0; 2], arrows: vec![arrow(0, 1, lines), arrow(1, 0, vec![])] })
        };
        let ill = lined(&[b"\xff"]);
        assert_eq!(all_calls(&ill, limits), [5; 6]);
        assert_eq!(all_calls(&ill, Limits::of([2, 2, 1])), [6; 6]);
        assert_eq!(all_calls(&ill, Limits::of([2, 2, 0])), [5; 6]);
        assert_eq!(all_calls(&lined(&[b"a", b"\xff"]), Limits::of([2, 2, 1])), [5; 6]);
        assert_eq!(all_calls(&lined(&[&[b'a'; 97]]), Limits::of([usize::MAX; 3])), [5; 6]);
        assert_eq!(all_calls(&lined(&[&[b'a'; 96]]), Limits::of([usize::MAX; 3])), [0; 6]);
        assert_eq!(label_size(b"\xff", &[1], Limits::of([0, 0, 1])), Err(6));
        assert_eq!(label_size(b"\xff", &[1, 0], Limits::of([9, 9, 1])), Err(5));
        let sound = lined(&[b"a"]);
        for (limits, far, short) in [(limits, 5, 5), (Limits::of([2, 2, 1]), 8, 7)] {
            assert_eq!(clutter(&sound, limits, &[1e9], &[]), Err(far));
            assert_eq!(route(&sound, limits, &[1e9], &[], (0, 0)).err(), Some(far));
            assert_eq!(route(&sound, limits, &[], &[], (0, 0)).err(), Some(short));
            assert_eq!(layout(&sound, limits, 0, (2, 1)), Err(short));
            assert_eq!(list(&sound, limits, 0, 10), Err(short));
            assert_eq!(write_sheet(&sound, limits, sound.len() - 1), Err(short));
        }
        // A third state beside an end of the pair.
        let pair = |from, to| Arrow { from, to, lines: vec![] };
        let crowded = ordered(&Sheet { states: vec![0; 3], arrows: vec![pair(0, 1), pair(1, 0)] });
        let at = (&[0.0, 140.0, 1e-12], &[0.0, 0.0, 31.0]);
        assert_eq!(clutter(&crowded, Limits::of([3, 2, 0]), at.0, at.1), Err(9));
        assert_eq!(clutter(&crowded, Limits::of([3, 1, 0]), at.0, at.1), Err(5));
        assert_eq!(clutter(&crowded, Limits::of([2, 2, 0]), at.0, at.1), Err(5));
    }

    /// A sheet is answered alike under all limits that its counts are within, and refused by 5 under all others.
    #[test]
    fn limits_change_nothing_else() {
        let rng = &mut Random::new(53);
        let (mut within, mut over) = (0, 0);
        for i in 0..2_000 {
            let by = (i % 3) as u8;
            let sheet = generate::drawing(rng);
            let own = sheet.counts();
            let (xs, ys) = generate::centres(rng, &sheet);
            let bytes = generate::shuffled(rng, &sheet);
            let limits = generate::limits(rng, own);
            let most = capped(limits);
            let all = |limits| {
                let drawn = route(&bytes, limits, &xs, &ys, (5120, 65_536)).map(|r| (r.records, r.text));
                let saved = write_sheet(&bytes, limits, 65_536);
                (layout(&bytes, limits, by, (64, 64)), drawn, clutter(&bytes, limits, &xs, &ys), saved)
            };
            if own.states <= most.states && own.arrows <= most.arrows && own.lines <= most.lines {
                within += 1;
                assert_eq!(all(limits), all(MAIN_SCREEN), "{limits:?}");
                let saved = write_sheet(&bytes, limits, 65_536).unwrap();
                assert_eq!(check(&saved, limits), Ok(()));
            } else {
                over += 1;
                assert_eq!(all(limits), (Err(5), Err(5), Err(5), Err(5)), "{limits:?}");
            }
        }
        assert!(within > 500 && over > 200, "{within} within, {over} over");
    }
}
