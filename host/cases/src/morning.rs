//! A morning's work: a clear floor drawn from a seed, changed again and again, with all that has to be said of it after each change.

use crate::draw::Draw;
use crate::floors::drawn::{any_sides, clear, Wanted};
use crate::floors::LAYOUTS;
use crate::runs::changes::Changing;
use floor::Floor;
use reference::floor_file::sizes;
use reference::sheet::line;
use reference::{governing, held, opening, table};

/// Three lines for the floor and three for each change: `floor` or `change` with its bytes, refusal and verdict; then `table` and `governing`
/// with their numbers as they stand after it. The last line is `left` with the bytes of the floor in the end. Bytes are in hexadecimal digits.
pub fn text(seed: u64, count: usize) -> String {
    let mut draw = Draw::starting_at(seed);
    let mut floor = first_floor(&mut draw, seed).bytes();
    let mut table = vec![0; table::length(sizes(&floor))];
    let mut governing = vec![0; governing::length(sizes(&floor))];
    let mut changing = Changing::of(&floor);
    let opened = opening::open(&floor, &mut table, &mut governing);
    let mut text = said("floor", &floor, opened, &table, &governing);
    for _ in 0..count {
        let change = changing.next(&mut draw);
        let answer = held::change(&mut floor, &mut table, &mut governing, &change);
        text += &said("change", &change, answer, &table, &governing);
    }
    text + &format!("left {}\n", hex(&floor))
}

/// The layout is another one from each seed to the next.
fn first_floor(draw: &mut Draw, seed: u64) -> Floor {
    let (layout, _) = LAYOUTS[(seed % 3) as usize];
    let wanted = Wanted {
        nx: draw.between(3, 7),
        ny: draw.between(3, 7),
        layout,
        sides: any_sides(draw),
    };
    clear(draw, wanted)
}

fn said(
    word: &str,
    bytes: &[u8],
    (refusal, verdict): (u128, u128),
    table: &[u32],
    governing: &[u32],
) -> String {
    let bytes = hex(bytes);
    let (table, governing) = (line(table), line(governing));
    format!("{word} {bytes} {refusal} {verdict}\ntable {table}governing {governing}")
}

fn hex(bytes: &[u8]) -> String {
    bytes.iter().map(|byte| format!("{byte:02x}")).collect()
}
