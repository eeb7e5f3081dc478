//! The text of a floor: a line for each thing, as an engineer would note it.

pub mod change;
pub mod faults;
mod forms;
mod line;
mod lines;
mod places;
pub mod read;
pub mod sides;
mod words;
pub mod write;

use crate::input::Input;
use floor::Floor;

/// What `slab help make` says.
pub const GUIDE: &str = "\
A text has each of these lines once, in any order. Lengths are in mm, loads in N/m2, strengths in
MPa; numbers are digits alone, without commas in them. # begins a comment.

  slab 200                            thickness
  concrete 30                         fc
  steel 420                           fy
  dead 7200                           dead load, slab included
  live 5000                           live load
  columns 600 500                     size along x, along y
  sides west columns, east columns, south unrestrained, north restrained
                                      or alike on all four: sides columns
  x spans 6600 7200 7500 7200 6600    from west to east
  y spans 6000 7000 7000 6400         from south to north

and one for each beam, and for each column that stands off its lines:

  x line 0 beam 400 700               width, depth
  column 2 0 offset 250 0             on y line 2 and x line 0: off along x, along y

x lines run along x, and x line 0 is south; y lines run along y, and y line 0 is west. In place of
one line, `x lines`, `y lines`, `outer lines`, `inner lines` and `all lines` have that beam on each.

Every fault in the text is named, with its line. Values out of range are no faults: the floor is
made, and if it will be refused you are told so at once. Comments do not get into a floor file.

  slab make garage.txt -o garage.floor
";

/// The floor that the text says, or its faults in words.
pub fn floor(input: &Input) -> Result<Floor, String> {
    let counted = format!("{}, line", input.name);
    read::floor(input.text()?).map_err(|faults| faults::list(&counted, &faults))
}
