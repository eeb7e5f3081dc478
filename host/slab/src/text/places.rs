//! Beams and offsets put in their places, once the spans say how many lines there are.

use super::faults::Fault;
use super::lines::Lines;
use crate::way::Way;

/// Two numbers that a line of the text gives to a place of the floor.
pub struct Pair<P> {
    pub line: usize,
    pub place: P,
    pub pair: (u32, u32),
}

type Pairs = Vec<(u32, u32)>;

/// The places of one sort: their pairs, and the line of the text that gave each.
struct Places {
    pairs: Pairs,
    given: Vec<Option<usize>>,
}

impl Places {
    fn new(count: usize) -> Places {
        Places {
            pairs: vec![(0, 0); count],
            given: vec![None; count],
        }
    }

    /// The words of the fault where the place was given before.
    fn give(&mut self, at: usize, line: usize, pair: (u32, u32), name: &str) -> Result<(), String> {
        self.pairs[at] = pair;
        match self.given[at].replace(line) {
            None => Ok(()),
            Some(first) => Err(format!(
                "expected {name} once, and line {first} gives it already"
            )),
        }
    }
}

/// Those of the x lines and those of the y lines.
pub fn beams(
    beams: &[Pair<Lines>],
    nx: usize,
    ny: usize,
    faults: &mut Vec<Fault>,
) -> (Pairs, Pairs) {
    let mut x_lines = Places::new(ny + 1);
    let mut y_lines = Places::new(nx + 1);
    for beam in beams {
        let given = give_beam(&mut x_lines, Way::X, beam)
            .and_then(|()| give_beam(&mut y_lines, Way::Y, beam));
        let line = beam.line;
        faults.extend(given.err().map(|words| Fault { line, words }));
    }
    (x_lines.pairs, y_lines.pairs)
}

fn give_beam(places: &mut Places, way: Way, beam: &Pair<Lines>) -> Result<(), String> {
    let (way_name, count) = (way.name(), places.pairs.len());
    for number in beam.place.numbers(way, count) {
        if number >= count {
            let last = count - 1;
            return Err(format!(
                "expected one of the {way_name} lines 0 to {last} that the spans make, found {number}"
            ));
        }
        let name = format!("the beam on {way_name} line {number}");
        places.give(number, beam.line, beam.pair, &name)?;
    }
    Ok(())
}

pub fn offsets(
    offsets: &[Pair<[usize; 2]>],
    nx: usize,
    ny: usize,
    faults: &mut Vec<Fault>,
) -> Pairs {
    let mut columns = Places::new((nx + 1) * (ny + 1));
    for &Pair {
        line,
        place: [i, j],
        pair,
    } in offsets
    {
        let given = if i <= nx && j <= ny {
            let name = format!("the offset of column {i} {j}");
            columns.give(j * (nx + 1) + i, line, pair, &name)
        } else {
            Err(format!(
                "expected a column on y lines 0 to {nx} and x lines 0 to {ny}, \
                 which the spans make, found column {i} {j}"
            ))
        };
        faults.extend(given.err().map(|words| Fault { line, words }));
    }
    columns.pairs
}
