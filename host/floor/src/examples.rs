//! Floors to start from, and what is done to a whole floor.

use crate::file::{Floor, NO_BEAM};

impl Floor {
    /// Beams and offsets nowhere. The spans differ from bay to bay so that mixing them up shows.
    pub fn good(nx: usize, ny: usize) -> Floor {
        Floor {
            t: 200,
            fc: 30,
            fy: 420,
            dead: 5_000,
            live: 2_000,
            cx: 400,
            cy: 300,
            sides: 0,
            x_spans: (0..nx as u32).map(|i| 4_000 + 200 * i).collect(),
            y_spans: (0..ny as u32).map(|j| 5_000 + 100 * j).collect(),
            x_lines: vec![NO_BEAM; ny + 1],
            y_lines: vec![NO_BEAM; nx + 1],
            offsets: vec![(0, 0); (nx + 1) * (ny + 1)],
        }
    }

    /// Bays of 6,000 and columns of 400 without beams. Its outer panels ask for 5600/30 = 186.7 of its
    /// slab of 200, so from 3 by 3 bays on nothing is broken.
    pub fn clear(nx: usize, ny: usize) -> Floor {
        Floor {
            cx: 400,
            cy: 400,
            x_spans: vec![6_000; nx],
            y_spans: vec![6_000; ny],
            ..Floor::good(nx, ny)
        }
    }

    /// `x_lines` and `y_lines` have a 1 for each line with a beam and a 0 for each without.
    pub fn with_beams(mut self, x_lines: &str, y_lines: &str) -> Floor {
        assert_eq!(x_lines.len(), self.x_lines.len());
        assert_eq!(y_lines.len(), self.y_lines.len());
        self.x_lines = beams(x_lines, (300, 600));
        self.y_lines = beams(y_lines, (350, 700));
        self
    }

    pub fn with_beams_everywhere(self) -> Floor {
        let x_lines = "1".repeat(self.x_lines.len());
        let y_lines = "1".repeat(self.y_lines.len());
        self.with_beams(&x_lines, &y_lines)
    }

    pub fn with_offsets(mut self) -> Floor {
        self.offsets = (0..)
            .zip(&self.offsets)
            .map(|(k, _)| (3 * k + 1, 500 - 2 * k))
            .collect();
        self
    }

    /// The floor with x and y changed round.
    pub fn transposed(&self) -> Floor {
        let (nx, ny) = (self.x_spans.len(), self.y_spans.len());
        let mut offsets = Vec::new();
        for i in 0..=nx {
            for j in 0..=ny {
                let (along_x, along_y) = self.offsets[j * (nx + 1) + i];
                offsets.push((along_y, along_x));
            }
        }
        Floor {
            cx: self.cy,
            cy: self.cx,
            // West and east, the lower two digits, for south and north.
            sides: self.sides / 16 + self.sides % 16 * 16,
            x_spans: self.y_spans.clone(),
            y_spans: self.x_spans.clone(),
            x_lines: self.y_lines.clone(),
            y_lines: self.x_lines.clone(),
            offsets,
            ..self.clone()
        }
    }
}

/// A little wider and deeper from line to line so that mixing lines up shows.
fn beams(lines: &str, (width, depth): (u32, u32)) -> Vec<(u32, u32)> {
    (0..)
        .zip(lines.chars())
        .map(|(line, beam)| match beam {
            '1' => (width + 10 * line, depth + 15 * line),
            _ => NO_BEAM,
        })
        .collect()
}
