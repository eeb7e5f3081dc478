//! A floor's numbers, read once from its file.

pub const MOST_BAYS: usize = 12;
pub const MOST_LINES: usize = MOST_BAYS + 1;
pub const MOST_COLUMNS: usize = MOST_LINES * MOST_LINES;
pub const MOST_RECORDS: usize = 2 * MOST_LINES * MOST_BAYS;

/// Directions index arrays of two.
pub const X: usize = 0;
pub const Y: usize = 1;

/// Zeros where there is none.
#[derive(Clone, Copy, Default)]
pub struct Beam {
    pub width: u32,
    pub depth: u32,
}

impl Beam {
    pub fn is_there(self) -> bool {
        self.width > 0
    }
}

#[derive(Clone, Copy)]
pub struct Floor {
    pub bays: [usize; 2],
    pub t: u32,
    pub fc: u32,
    pub fy: u32,
    pub dead: u32,
    pub live: u32,
    /// The column's size along x and along y.
    pub column: [u32; 2],
    pub sides: u32,
    spans: [[u32; MOST_BAYS]; 2],
    /// By the direction that the line runs along.
    beams: [[Beam; MOST_LINES]; 2],
    /// Along x and along y.
    offsets: [[u32; MOST_COLUMNS]; 2],
}

impl Floor {
    #[inline]
    pub fn sized(nx: usize, ny: usize, t: u32) -> Floor {
        Floor {
            bays: [nx, ny],
            t,
            fc: 0,
            fy: 0,
            dead: 0,
            live: 0,
            column: [0; 2],
            sides: 0,
            spans: [[0; MOST_BAYS]; 2],
            beams: [[Beam::default(); MOST_LINES]; 2],
            offsets: [[0; MOST_COLUMNS]; 2],
        }
    }

    /// Lines that run along a direction: one more than the bays across it.
    pub fn lines(&self, way: usize) -> usize {
        self.bays[1 - way] + 1
    }

    pub fn columns(&self) -> usize {
        self.lines(X) * self.lines(Y)
    }

    /// "(ny+1)nx+(nx+1)ny"
    pub fn records(&self) -> usize {
        self.lines(X) * self.bays[X] + self.lines(Y) * self.bays[Y]
    }

    /// How many records of a kind the file has.
    pub fn count(&self, kind: u32) -> usize {
        match kind {
            1..=4 => 1,
            5 => self.bays[X],
            6 => self.bays[Y],
            7 => self.lines(X),
            8 => self.lines(Y),
            9 => self.columns(),
            _ => 0,
        }
    }

    pub fn spans(&self, way: usize) -> &[u32] {
        &self.spans[way][..self.bays[way]]
    }

    pub fn beams(&self, way: usize) -> &[Beam] {
        &self.beams[way][..self.lines(way)]
    }

    pub fn offsets(&self, way: usize) -> &[u32] {
        &self.offsets[way][..self.columns()]
    }

    /// "Sides = west + 4·east + 16·south + 64·north", at the low and the high end of a direction.
    pub fn sides(&self, way: usize) -> [u32; 2] {
        let pair = self.sides >> (4 * way);
        [pair & 3, pair >> 2 & 3]
    }

    /// Puts a record's fields in; answers what it has in fields that are not listed.
    #[inline]
    pub fn put(&mut self, kind: u32, index: usize, [a, b, c]: [u32; 3]) -> u32 {
        match kind {
            2 => (self.fc, self.fy) = (a, b),
            3 => (self.dead, self.live) = (a, b),
            4 => (self.column, self.sides) = ([a, b], c),
            5 => self.spans[X][index] = a,
            6 => self.spans[Y][index] = a,
            7 => self.beams[X][index] = Beam { width: a, depth: b },
            8 => self.beams[Y][index] = Beam { width: a, depth: b },
            _ => (self.offsets[X][index], self.offsets[Y][index]) = (a, b),
        }
        match kind {
            4 => 0,
            5 | 6 => b | c,
            _ => c,
        }
    }
}
