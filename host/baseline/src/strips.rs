//! "Moments" of one span: what it is given, and its sixteen numbers.
//!
//! A number that fits 32 bits is kept in them: two such multiply into 64 in one quick step.

/// What lies at an end of a span.
#[derive(Clone, Copy)]
pub enum End {
    Inner,
    Outer { side: u32, b: u64 },
}

/// Percent of Mo at the low end, between and at the high end.
pub type Percents = [u32; 3];

pub struct Span {
    /// "(12D + 16L)·W", with twice W.
    pub load: u64,
    pub l1: u32,
    /// The column along the frame.
    pub column: u32,
    pub l2: u32,
    pub alpha: u64,
    pub twice_width: u32,
    /// Four times wc.
    pub four_strips: u32,
    pub percents: Percents,
    pub ends: [End; 2],
}

fn product(a: u32, b: u32) -> u64 {
    u64::from(a) * u64::from(b)
}

impl Span {
    /// "Static moment Mo, N·m, rounded up: (12D + 16L)·W·ln²/80000000000", with twice W.
    fn static_moment(&self) -> u32 {
        let clear = (self.l1 - self.column).max(self.l1 / 20 * 13);
        (self.load * product(clear, clear)).div_ceil(160_000_000_000) as u32
    }

    /// "A = min(10000, α·l2/l1)"
    fn stiffness_ratio(&self) -> u32 {
        let stiffness = self.alpha * u64::from(self.l2);
        if stiffness >= product(10_000, self.l1) {
            10_000
        } else {
            stiffness as u32 / self.l1
        }
    }

    /// Writes the sixteen numbers.
    pub fn write(&self, record: &mut [u32; 16]) {
        let mo = self.static_moment();
        let a = self.stiffness_ratio();
        let r = 10_000 * self.l2 / self.l1;
        let g = 85 * a / 100;
        let [low, between, high] = self.percents;
        let [low, between, high] = [low * mo, between * mo, high * mo];
        let column = share(between, part(6_000, 15_000, a, r));
        record[0] = mo;
        put(
            &mut record[1..6],
            low,
            self.column_strip(self.ends[0], low, a, r),
            g,
        );
        put(&mut record[6..11], between, column, g);
        put(
            &mut record[11..16],
            high,
            self.column_strip(self.ends[1], high, a, r),
            g,
        );
    }

    /// The column strip's moment at an end.
    fn column_strip(&self, end: End, total: u32, a: u32, r: u32) -> u32 {
        match end {
            End::Inner => share(total, part(7_500, 10_000, a, r)),
            // "On a fully restrained side the outer negative spreads evenly instead"
            End::Outer { side: 2, .. } => {
                (product(total, self.four_strips) / u64::from(2 * self.twice_width)) as u32
            }
            End::Outer { b, .. } => share(total, outer_part(a, r, b)),
        }
    }
}

/// So many parts of 10000.
fn share(total: u32, parts: u32) -> u32 {
    (product(total, parts) / 10_000) as u32
}

/// "Beam = column·g/10000 down"; middle and slab are the rests.
fn put(section: &mut [u32], total: u32, column: u32, g: u32) {
    let beam = share(column, g);
    section[0] = total;
    section[1] = column;
    section[2] = total - column;
    section[3] = beam;
    section[4] = column - beam;
}

/// "6000 + floor(3·A·(15000 − R)/100000)", and likewise for the inner negative. What is below 0 is made up for before the
/// division: R is at most 20000 on a clear floor.
fn part(base: u32, even: u32, a: u32, r: u32) -> u32 {
    (100_000 * base + 3 * a * even - 3 * a * r) / 100_000
}

/// "10000 + floor(B·(12·A·(10000 − R) − 1000000000)/10000000000)"
fn outer_part(a: u32, r: u32, b: u64) -> u32 {
    let (a, r) = (u64::from(a), u64::from(r));
    let above = 100_000_000_000_000 + b * 12 * a * 10_000;
    ((above - b * (12 * a * r + 1_000_000_000)) / 10_000_000_000) as u32
}
