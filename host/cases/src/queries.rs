//! Steel queries to hold another program against. What it has to answer is worked out, never written
//! here.

pub mod drawn;
mod edges;
pub mod equal;
mod figures;
mod limits;
pub mod steps;
pub mod strength;

use reference::steel::Query;

#[derive(Clone, Debug)]
pub struct Described {
    pub description: String,
    pub query: Query,
}

impl Described {
    fn new(description: impl Into<String>, query: Query) -> Described {
        Described {
            description: description.into(),
            query,
        }
    }
}

pub fn all() -> Vec<Described> {
    [
        figures::queries(),
        edges::queries(),
        limits::queries(),
        equal::queries(),
        steps::queries(),
        drawn::queries(),
    ]
    .concat()
}
