//! A sheet taken apart: the numbers of its text and of its page, in the order of the library's table and governing slice.

use crate::run::{slab_on, Ran};

/// Of a floor file, named and dated so that neither has a digit.
pub fn sheet(options: &[&str], file: &[u8]) -> Ran {
    let named = ["sheet", "--name", "a floor", "--date", "a day"];
    slab_on(&[&named, options, &["-"]].concat(), file)
}

/// As it has to be written, by another way than the command's.
pub fn kn_m(n_cm: u32) -> String {
    let up = match n_cm % 1_000 {
        0 => n_cm / 1_000,
        _ => n_cm / 1_000 + 1,
    };
    let digits = format!("{up:03}");
    let (whole, hundredths) = digits.split_at(digits.len() - 2);
    format!("{whole}.{hundredths}")
}

pub struct Numbers {
    pub table: Vec<u32>,
    pub governing: Vec<u32>,
    /// Of each section column strip, then middle strip: `10 @ 150`.
    pub bars: Vec<String>,
}

/// Those of a text; each is held to the kN·m before it.
pub fn of_text(words: &str) -> Numbers {
    let (mut table, mut governing, mut bars) = (Vec::new(), Vec::new(), Vec::new());
    for line in words.lines() {
        if let Some((_, whole)) = line.split_once(" kN·m, exactly ") {
            table.push(whole.strip_suffix(" N·m").unwrap().parse().unwrap());
        } else if let Some((place, moments, beside)) = row(line) {
            bars.extend(beside);
            match place.contains(" line ") {
                true => governing.extend(moments),
                false => table.extend(moments),
            }
        }
    }
    Numbers {
        table,
        governing,
        bars,
    }
}

/// What stands before top or bottom, the five exact numbers after it, and the bars after these.
fn row(line: &str) -> Option<(&str, Vec<u32>, Vec<String>)> {
    let line = line.strip_prefix("    ")?;
    let (place, rest) = [" top ", " bottom "]
        .iter()
        .find_map(|steel| line.split_once(steel))?;
    let right = if place.starts_with("between") {
        " bottom "
    } else {
        " top "
    };
    assert!(line.contains(right), "{line}");
    let words: Vec<&str> = rest.split_whitespace().collect();
    let (moments, bars) = words.split_at(10);
    let exact = moments.chunks(2).map(|pair| {
        let exact = pair[1].parse().unwrap();
        assert_eq!(pair[0], kn_m(exact), "{line}");
        exact
    });
    let bars = bars.chunks(3).map(|three| three.join(" "));
    Some((place, exact.collect(), bars.collect()))
}

/// Everything from the article's first tag to its last.
pub fn article(page: &str) -> &str {
    let (start, end) = (page.find("<article").unwrap(), page.find("</article>"));
    &page[start..end.unwrap()]
}

/// The words alone, a piece for each stretch between two tags.
pub fn pieces(markup: &str) -> Vec<&str> {
    let mut pieces: Vec<&str> = markup
        .split('<')
        .map(|piece| piece.split_once('>').map_or(piece, |(_, words)| words))
        .collect();
    pieces.retain(|piece| !piece.trim().is_empty());
    pieces
}

/// The cells of one class in a page's tables of another.
pub fn of_page(page: &str, class: &str, of_cells: &str) -> Vec<String> {
    let start = format!("<table class=\"{class}\">");
    let tables = page.split(&start).skip(1);
    let tables = tables.map(|rest| rest.split("</table>").next().unwrap());
    let cell = format!("<td class=\"{of_cells}\">");
    let cells = tables.flat_map(|table| table.split(&cell).skip(1));
    cells
        .map(|rest| rest.split("</td>").next().unwrap().to_string())
        .collect()
}
