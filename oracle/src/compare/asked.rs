//! A call with all that it is given, put to the port and to the oracle, and all that it leaves.

use crate::calls;
use crate::port::{
    murshogi_check, murshogi_clutter, murshogi_label_size, murshogi_layout, murshogi_list, murshogi_route,
    murshogi_write_num, murshogi_write_sheet,
};
use crate::sheet::{Limits, walked};

/// What a lent f64 or number holds before a call: a NaN with a payload, whose every bit must stay.
const BEFORE: f64 = f64::from_bits(0x7ff8_dead_beef_0001);
const NUMBER: usize = 987_654_321;

/// Elements before and behind what is lent.
const AROUND: usize = 64;

/// What a lent byte holds before a call, those around it too: no two neighbours are alike.
fn unset(i: usize) -> u8 {
    (37 * i + 11) as u8
}

/// A call with all that it is given but limits.
#[derive(Clone, Copy)]
pub enum Asked<'a> {
    Check { sheet: &'a [u8] },
    LabelSize { text: &'a [u8], lengths: &'a [usize] },
    Layout { sheet: &'a [u8], kind: u8, rooms: (usize, usize) },
    Route { sheet: &'a [u8], xs: &'a [f64], ys: &'a [f64], rooms: (usize, usize) },
    Clutter { sheet: &'a [u8], xs: &'a [f64], ys: &'a [f64] },
    WriteNum { v: f64, room: usize },
    List { sheet: &'a [u8], kind: u8, room: usize },
    WriteSheet { sheet: &'a [u8], room: usize },
}

/// What a call that is not refused writes: into x or records, into y, into size; into text; lengths and counts.
#[derive(Default)]
struct Written {
    floats: [Vec<f64>; 3],
    bytes: Vec<u8>,
    numbers: Vec<usize>,
}

impl Written {
    fn text(bytes: Vec<u8>) -> Self {
        Self { numbers: vec![bytes.len()], bytes, ..Self::default() }
    }
}

/// What a call leaves: its answer, and all that it was lent, with what stands around it.
pub struct Left {
    pub answer: u8,
    floats: [Vec<f64>; 3],
    bytes: Vec<u8>,
    numbers: [usize; 4],
    /// What is only to be read is as it was.
    kept: bool,
}

/// Bit for bit, but zeros of either sign are equal; NaN is NaN, but one that must stay has every bit that it had.
fn same(got: f64, wanted: f64) -> bool {
    got.to_bits() == wanted.to_bits()
        || got == wanted
        || (got.is_nan() && wanted.is_nan() && wanted.to_bits() != BEFORE.to_bits())
}

fn bits(list: &[f64]) -> Vec<u64> {
    list.iter().map(|v| v.to_bits()).collect()
}

impl Left {
    /// Whether the port left what the oracle would.
    pub fn agrees(&self, wanted: &Left) -> bool {
        let floats = self.floats.iter().flatten().zip(wanted.floats.iter().flatten());
        self.answer == wanted.answer
            && self.kept
            && floats.into_iter().all(|(&v, &w)| same(v, w))
            && self.bytes == wanted.bytes
            && self.numbers == wanted.numbers
    }

    /// Whether two calls that were lent the same left the same, in every bit.
    pub fn identical(&self, other: &Left) -> bool {
        let floats = |left: &Left| left.floats.iter().flat_map(|list| bits(list)).collect::<Vec<_>>();
        (self.answer, self.numbers, &self.bytes) == (other.answer, other.numbers, &other.bytes)
            && floats(self) == floats(other)
    }

    /// So many of the lent bytes.
    pub fn bytes(&self, n: usize) -> Vec<u8> {
        self.bytes[AROUND..AROUND + n].to_vec()
    }

    /// The first and the second number: lengths, the states or the count.
    pub fn numbers(&self) -> [usize; 2] {
        [self.numbers[1], self.numbers[2]]
    }
}

impl Asked<'_> {
    pub fn name(&self) -> &'static str {
        match self {
            Asked::Check { .. } => "check",
            Asked::LabelSize { .. } => "label_size",
            Asked::Layout { .. } => "layout",
            Asked::Route { .. } => "route",
            Asked::Clutter { .. } => "clutter",
            Asked::WriteNum { .. } => "write_num",
            Asked::List { .. } => "list",
            Asked::WriteSheet { .. } => "write_sheet",
        }
    }

    /// The sheet, or the label's text.
    pub fn sheet(&self) -> &[u8] {
        match self {
            Asked::Check { sheet }
            | Asked::Layout { sheet, .. }
            | Asked::Route { sheet, .. }
            | Asked::Clutter { sheet, .. }
            | Asked::List { sheet, .. }
            | Asked::WriteSheet { sheet, .. } => sheet,
            Asked::LabelSize { text, .. } => text,
            Asked::WriteNum { .. } => &[],
        }
    }

    pub fn centres(&self) -> (&[f64], &[f64]) {
        match self {
            Asked::Route { xs, ys, .. } | Asked::Clutter { xs, ys, .. } => (xs, ys),
            _ => (&[], &[]),
        }
    }

    fn lengths(&self) -> &[usize] {
        if let Asked::LabelSize { lengths, .. } = self { lengths } else { &[] }
    }

    /// The layout's kind, and the rooms that are lent.
    pub fn given(&self) -> String {
        match self {
            Asked::Layout { kind, rooms, .. } => format!("kind {kind}, rooms {rooms:?}"),
            Asked::Route { rooms, .. } => format!("rooms {rooms:?}"),
            Asked::List { kind, room, .. } => format!("kind {kind}, room {room}"),
            Asked::WriteSheet { room, .. } => format!("room {room}"),
            Asked::LabelSize { lengths, .. } => format!("lengths {lengths:?}"),
            Asked::WriteNum { v, room } => format!("{v:e}, room {room}"),
            Asked::Check { .. } | Asked::Clutter { .. } => String::new(),
        }
    }

    /// The counts of the sheet, or of the label block, that are held against limits; none where the records do not say.
    pub fn own(&self) -> Option<Limits> {
        match self {
            Asked::WriteNum { .. } => None,
            Asked::LabelSize { lengths, .. } => Some(Limits { states: 0, arrows: 0, lines: lengths.len() }),
            _ => walked(self.sheet()).ok().map(|s| s.counts()),
        }
    }

    /// What the call is lent, as it is before.
    fn before(&self) -> Left {
        let (floats, bytes) = match *self {
            Asked::Check { .. } | Asked::Clutter { .. } => ([0; 3], 0),
            Asked::LabelSize { .. } => ([0, 0, 2], 0),
            Asked::Layout { rooms, .. } => ([rooms.0, rooms.1, 2], 0),
            Asked::Route { rooms, .. } => ([rooms.0, 0, 0], rooms.1),
            Asked::WriteNum { room, .. } | Asked::List { room, .. } | Asked::WriteSheet { room, .. } => ([0; 3], room),
        };
        Left {
            answer: 0,
            floats: floats.map(|n| vec![BEFORE; n + 2 * AROUND]),
            bytes: (0..bytes + 2 * AROUND).map(unset).collect(),
            numbers: [NUMBER; 4],
            kept: true,
        }
    }

    /// What the port leaves.
    pub fn port(&self, limits: Limits) -> Left {
        let mut left = self.before();
        let [states, arrows, lines] = limits.list();
        // Beside the three stand numbers that are no limits.
        let most = [0, states, arrows, lines, 0];
        let (sheet, (xs, ys), lengths) = (self.sheet().to_vec(), self.centres(), self.lengths().to_vec());
        let (xs, ys) = (xs.to_vec(), ys.to_vec());
        let (s, n, l) = (sheet.as_ptr(), sheet.len(), most[1..].as_ptr());
        let (x, x_len, y, y_len) = (xs.as_ptr(), xs.len(), ys.as_ptr(), ys.len());
        let [first, second, size] = left.floats.each_mut().map(|list| list[AROUND..].as_mut_ptr());
        let (text, number) = (left.bytes[AROUND..].as_mut_ptr(), left.numbers[1..].as_mut_ptr());
        left.answer = unsafe {
            match *self {
                Asked::Check { .. } => murshogi_check(s, n, l),
                Asked::LabelSize { .. } => murshogi_label_size(s, n, lengths.as_ptr(), lengths.len(), l, size),
                Asked::Layout { kind, rooms, .. } => {
                    murshogi_layout(s, n, l, kind, first, rooms.0, second, rooms.1, size, number)
                }
                Asked::Route { rooms, .. } => {
                    murshogi_route(s, n, l, x, x_len, y, y_len, first, rooms.0, text, rooms.1, number)
                }
                Asked::Clutter { .. } => murshogi_clutter(s, n, l, x, x_len, y, y_len, number),
                Asked::WriteNum { v, room } => murshogi_write_num(v, text, room, number),
                Asked::List { kind, room, .. } => murshogi_list(s, n, l, kind, text, room, number),
                Asked::WriteSheet { room, .. } => murshogi_write_sheet(s, n, l, text, room, number),
            }
        };
        left.kept = sheet == self.sheet()
            && most == [0, states, arrows, lines, 0]
            && (bits(&xs), bits(&ys)) == (bits(self.centres().0), bits(self.centres().1))
            && lengths == self.lengths();
        left
    }

    /// What the oracle would leave.
    pub fn oracle(&self, limits: Limits) -> Left {
        let mut left = self.before();
        match self.written(limits) {
            Ok(w) => {
                for (list, written) in left.floats.iter_mut().zip(&w.floats) {
                    list[AROUND..AROUND + written.len()].copy_from_slice(written);
                }
                left.bytes[AROUND..AROUND + w.bytes.len()].copy_from_slice(&w.bytes);
                left.numbers[1..1 + w.numbers.len()].copy_from_slice(&w.numbers);
            }
            Err(refusal) => left.answer = refusal,
        }
        left
    }

    fn written(&self, limits: Limits) -> Result<Written, u8> {
        Ok(match *self {
            Asked::Check { sheet } => {
                calls::check(sheet, limits)?;
                Written::default()
            }
            Asked::LabelSize { text, lengths } => {
                let (width, height) = calls::label_size(text, lengths, limits)?;
                Written { floats: [vec![], vec![], vec![width, height]], ..Written::default() }
            }
            Asked::Layout { sheet, kind, rooms } => {
                let l = calls::layout(sheet, limits, kind, rooms)?;
                let numbers = vec![l.x.len()];
                Written { floats: [l.x, l.y, vec![l.width, l.height]], numbers, ..Written::default() }
            }
            Asked::Route { sheet, xs, ys, rooms } => {
                let r = calls::route(sheet, limits, xs, ys, rooms)?;
                let numbers = vec![r.records.len(), r.text.len()];
                Written { floats: [r.records, vec![], vec![]], bytes: r.text, numbers }
            }
            Asked::Clutter { sheet, xs, ys } => {
                Written { numbers: vec![calls::clutter(sheet, limits, xs, ys)?], ..Written::default() }
            }
            Asked::WriteNum { v, room } => Written::text(calls::write_num(v, room)?),
            Asked::List { sheet, kind, room } => Written::text(calls::list(sheet, limits, kind, room)?),
            Asked::WriteSheet { sheet, room } => Written::text(calls::write_sheet(sheet, limits, room)?),
        })
    }
}
