//! "Layouts allowed: beams on every line; on the four outer lines only; on none."

use floor::Floor;
use reference::layout::{layout, Layout};
use reference::refusals::refusal;

fn layouts_taken(nx: usize, ny: usize) -> Vec<Layout> {
    let lines = nx + ny + 2;
    let mut taken = Vec::new();
    for choice in 0..1 << lines {
        let choice: usize = choice;
        let text = format!("{choice:0lines$b}");
        let (x_lines, y_lines) = text.split_at(ny + 1);
        let floor = Floor::good(nx, ny).with_beams(x_lines, y_lines).bytes();
        match refusal(&floor) {
            0 => taken.push(layout(&floor).unwrap()),
            refused => assert_eq!(refused, 7, "{text}"),
        }
    }
    taken
}

/// Of all choices of lines only three are allowed, and two "where the first two coincide". A choice
/// counts up in binary, so none comes first and everywhere last.
#[test]
fn three_choices_of_lines_are_allowed() {
    use Layout::{Everywhere, NoBeams, OuterLinesOnly};
    assert_eq!(layouts_taken(1, 1), [NoBeams, Everywhere]);
    for (nx, ny) in [(1, 2), (2, 1), (2, 2), (3, 1), (3, 2), (3, 3)] {
        assert_eq!(
            layouts_taken(nx, ny),
            [NoBeams, OuterLinesOnly, Everywhere],
            "{nx}x{ny}"
        );
    }
}
