//! Places of one limit folded: many of them into few that are said together.

use crate::judge::Place;
use crate::way::Way;

/// Every place of this direction whose i and whose j are among these.
pub struct Fold {
    pub way: Way,
    pub i: Vec<usize>,
    pub j: Vec<usize>,
}

impl Fold {
    fn of(places: &[Place]) -> Fold {
        let mut i: Vec<usize> = places.iter().map(|place| place.i).collect();
        let mut j: Vec<usize> = places.iter().map(|place| place.j).collect();
        i.dedup();
        j.dedup();
        let way = places[0].way;
        Fold { way, i, j }
    }

    pub fn count(&self) -> usize {
        self.i.len() * self.j.len()
    }

    /// Those of i and j that count along the direction.
    pub fn along(&self) -> &[usize] {
        match self.way {
            Way::X => &self.i,
            Way::Y => &self.j,
        }
    }
}

/// Each place by itself.
pub fn apart(places: &[Place]) -> Vec<Fold> {
    places.chunks(1).map(Fold::of).collect()
}

/// Places that follow one another along their direction.
pub fn runs(places: &[Place]) -> Vec<Fold> {
    let follows =
        |one: &Place, next: &Place| one.way == next.way && one.i + one.j + 1 == next.i + next.j;
    places.chunk_by(follows).map(Fold::of).collect()
}

/// Rows of one j, and with them all others that have the same i.
pub fn rows(places: &[Place]) -> Vec<Fold> {
    let mut folds: Vec<Fold> = Vec::new();
    for row in places.chunk_by(|one, next| (one.way, one.j) == (next.way, next.j)) {
        let row = Fold::of(row);
        let alike = |fold: &&mut Fold| fold.way == row.way && fold.i == row.i;
        match folds.iter_mut().find(alike) {
            Some(fold) => fold.j.extend(row.j),
            None => folds.push(row),
        }
    }
    folds
}
