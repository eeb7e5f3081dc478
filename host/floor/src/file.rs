//! A floor's numbers, and the floor file's records of them (01, "The floor file").

use crate::record::{Record, RECORD_BYTES};

/// A record's index has two bytes, and no kind has more records than there are columns.
pub const MOST_COLUMNS: usize = 1 << 16;

pub const NO_BEAM: (u32, u32) = (0, 0);

/// What a floor file says, in range or not. The bays are the spans.
#[derive(Clone, Debug, PartialEq, Eq)]
pub struct Floor {
    pub t: u32,
    pub fc: u32,
    pub fy: u32,
    pub dead: u32,
    pub live: u32,
    /// The columns' size along x, along y.
    pub cx: u32,
    pub cy: u32,
    /// The sum of the four sides' codes.
    pub sides: u32,
    pub x_spans: Vec<u32>,
    pub y_spans: Vec<u32>,
    /// Width and depth of the beam on each x line; `NO_BEAM` for none.
    pub x_lines: Vec<(u32, u32)>,
    pub y_lines: Vec<(u32, u32)>,
    /// Along x and along y, for column j(nx+1)+i on y line i and x line j.
    pub offsets: Vec<(u32, u32)>,
}

/// Of each kind, how many of a, b and c 01 lists.
const LISTED: [usize; 10] = [0, 3, 2, 2, 3, 1, 1, 2, 2, 2];

impl Floor {
    /// The file. There are at most `MOST_COLUMNS` offsets.
    pub fn bytes(&self) -> Vec<u8> {
        let bays = |spans: &[u32]| u32::try_from(spans.len()).expect("an index of two bytes");
        let sizes = [bays(&self.x_spans), bays(&self.y_spans), self.t];
        let singles = |numbers: &[u32]| numbers.iter().map(|&number| [number, 0, 0]).collect();
        let pairs = |pairs: &[(u32, u32)]| pairs.iter().map(|&(a, b)| [a, b, 0]).collect();
        let kinds: [Vec<[u32; 3]>; 9] = [
            vec![sizes],
            vec![[self.fc, self.fy, 0]],
            vec![[self.dead, self.live, 0]],
            vec![[self.cx, self.cy, self.sides]],
            singles(&self.x_spans),
            singles(&self.y_spans),
            pairs(&self.x_lines),
            pairs(&self.y_lines),
            pairs(&self.offsets),
        ];
        let kinds = (1..).zip(kinds);
        kinds
            .flat_map(|(kind, records)| of_kind(kind, records))
            .collect()
    }

    /// What the file says, if it is laid out as one: the records that its sizes ask for, in their order, and nothing where 01 lists nothing.
    pub fn of(file: &[u8]) -> Option<Floor> {
        let mut records = Records { rest: file };
        let [nx, ny, t] = records.one(1)?;
        let [fc, fy, _] = records.one(2)?;
        let [dead, live, _] = records.one(3)?;
        let [cx, cy, sides] = records.one(4)?;
        let x_spans = records.take(5, nx.into())?;
        let y_spans = records.take(6, ny.into())?;
        let (x_lines, y_lines) = (u64::from(ny) + 1, u64::from(nx) + 1);
        let floor = Floor {
            t,
            fc,
            fy,
            dead,
            live,
            cx,
            cy,
            sides,
            x_spans: x_spans.into_iter().map(|[span, ..]| span).collect(),
            y_spans: y_spans.into_iter().map(|[span, ..]| span).collect(),
            x_lines: pairs(records.take(7, x_lines)?),
            y_lines: pairs(records.take(8, y_lines)?),
            offsets: pairs(records.take(9, x_lines * y_lines)?),
        };
        records.rest.is_empty().then_some(floor)
    }
}

fn pairs(records: Vec<[u32; 3]>) -> Vec<(u32, u32)> {
    records.into_iter().map(|[a, b, _]| (a, b)).collect()
}

/// The bytes of all records of a kind.
fn of_kind(kind: u16, records: Vec<[u32; 3]>) -> Vec<u8> {
    let mut bytes = Vec::new();
    for (index, fields) in records.into_iter().enumerate() {
        let index = u16::try_from(index).expect("an index of two bytes");
        let record = Record {
            kind,
            index,
            fields,
        };
        bytes.extend(record.bytes());
    }
    bytes
}

/// What is left of a file.
struct Records<'a> {
    rest: &'a [u8],
}

impl Records<'_> {
    fn one(&mut self, kind: u16) -> Option<[u32; 3]> {
        self.next(kind, 0)
    }

    fn take(&mut self, kind: u16, count: u64) -> Option<Vec<[u32; 3]>> {
        (0..count).map(|index| self.next(kind, index)).collect()
    }

    /// The next record, if it is this one and has zeros where nothing is listed.
    fn next(&mut self, kind: u16, index: u64) -> Option<[u32; 3]> {
        let (bytes, rest) = self.rest.split_at_checked(RECORD_BYTES)?;
        self.rest = rest;
        let record = Record::read(bytes);
        let unlisted = &record.fields[LISTED[usize::from(kind)]..];
        let as_listed = record.kind == kind
            && u64::from(record.index) == index
            && unlisted.iter().all(|&field| field == 0);
        as_listed.then_some(record.fields)
    }
}
