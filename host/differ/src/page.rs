//! The page's library in place of the static one: the same module for WebAssembly, called in node as the page calls it.
//!
//! What is lent is copied to node and back. The guards around it in this memory say nothing of the module's; there
//! `web/test/watched.js` sees what is written beyond it.

mod frame;
mod node;

pub use node::{can_be_tried, lacking, Lacking};

use crate::job::Calls;
use frame::{Asked, Call};
use gandhrumil::{Answer, Query};
use node::Node;
use std::cell::RefCell;
use std::collections::BTreeMap;

/// What node runs to answer the calls: a script and words for it, which a test may put wrong ones in place of.
pub trait Script {
    const PATH: &'static str;
    const WORDS: &'static [&'static str] = &[];
}

pub struct Page;

impl Script for Page {
    const PATH: &'static str = concat!(env!("CARGO_MANIFEST_DIR"), "/../../web/test/calls.js");
}

pub const PAGE: Calls = calls::<Page>();

pub const fn calls<S: Script>() -> Calls {
    Calls {
        open: open::<S>,
        change: change::<S>,
        panel: panel::<S>,
        clear: clear::<S>,
        places: places::<S>,
        steel: steel::<S>,
        schedule: schedule::<S>,
    }
}

type Key = (&'static str, &'static [&'static str]);

thread_local! {
    /// A node for each thread, so that none waits for another's answer.
    static NODES: RefCell<BTreeMap<Key, Node>> = const { RefCell::new(BTreeMap::new()) };
}

fn in_node<S: Script>(call: impl FnOnce(&mut Node) -> Answer) -> Answer {
    NODES.with_borrow_mut(|nodes| {
        let key = (S::PATH, S::WORDS);
        call(
            nodes
                .entry(key)
                .or_insert_with(|| Node::new(S::PATH, S::WORDS)),
        )
    })
}

fn open<S: Script>(floor: &[u8], table: &mut [u32], governing: &mut [u32]) -> Answer {
    in_node::<S>(|node| {
        let asked = Asked {
            slices: [table, governing],
            floor,
            ..Asked::new(Call::Open)
        };
        let mut given = node.ask(&asked);
        given.numbers(table);
        given.numbers(governing);
        given.unwritten(floor);
        given.answer
    })
}

fn change<S: Script>(
    floor: &mut [u8],
    table: &mut [u32],
    governing: &mut [u32],
    change: &[u8],
) -> Answer {
    in_node::<S>(|node| {
        let asked = Asked {
            slices: [table, governing],
            floor,
            bytes: change,
            ..Asked::new(Call::Change)
        };
        let mut given = node.ask(&asked);
        given.numbers(table);
        given.numbers(governing);
        given.bytes(floor);
        given.unwritten(change);
        given.answer
    })
}

fn panel<S: Script>(floor: &[u8], x: u64, y: u64) -> Answer {
    let asked = Asked {
        floor,
        numbers: [x, y, 0, 0, 0, 0],
        ..Asked::new(Call::Panel)
    };
    of_the_floor_alone::<S>(&asked)
}

fn clear<S: Script>(floor: &[u8]) -> Answer {
    let asked = Asked {
        floor,
        ..Asked::new(Call::Clear)
    };
    of_the_floor_alone::<S>(&asked)
}

fn of_the_floor_alone<S: Script>(asked: &Asked) -> Answer {
    in_node::<S>(|node| {
        let mut given = node.ask(asked);
        given.unwritten(asked.floor);
        given.answer
    })
}

fn places<S: Script>(floor: &[u8], places: &mut [u32]) -> Answer {
    in_node::<S>(|node| {
        let asked = Asked {
            slices: [places, &[]],
            floor,
            ..Asked::new(Call::Places)
        };
        let mut given = node.ask(&asked);
        given.numbers(places);
        given.unwritten(floor);
        given.answer
    })
}

fn steel<S: Script>(query: Query) -> Answer {
    let Query { m, b, t, d, fc, fy } = query;
    let asked = Asked {
        numbers: [m, b, t, d, fc, fy],
        ..Asked::new(Call::Steel)
    };
    in_node::<S>(|node| node.ask(&asked).answer)
}

fn schedule<S: Script>(floor: &[u8], schedule: &mut [u8]) -> Answer {
    in_node::<S>(|node| {
        let asked = Asked {
            floor,
            bytes: schedule,
            ..Asked::new(Call::Schedule)
        };
        let mut given = node.ask(&asked);
        given.unwritten(floor);
        given.bytes(schedule);
        given.answer
    })
}
