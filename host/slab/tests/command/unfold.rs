//! From the words for places, one by one or folded, back to the places.

/// Limit, direction, i, j, as the library lists them.
pub type Place = [u32; 4];

/// Every place that a line below a limit stands for.
pub fn places(limit: u32, line: &str) -> Vec<Place> {
    let (names, _) = line.split_once(": ").unwrap_or((line, ""));
    match limit {
        1 => vec![[1, along(line), 0, 0]],
        4 => pairs(names),
        8 => {
            let (i, j) = two_lists(names, "column", "on y line", "x line");
            product(8, along(line), &i, &j)
        }
        16 => vec![[16, 0, 0, 0]],
        _ => {
            let (i, j) = two_lists(names, "panel", "of x bay", "y bay");
            product(limit, 0, &i, &j)
        }
    }
}

fn direction(way: &str) -> u32 {
    ["x", "y"].iter().position(|name| *name == way).unwrap() as u32
}

/// `2 bays along x`, `601 mm off along x, beside`
fn along(line: &str) -> u32 {
    let (_, way) = line.split_once(" along ").unwrap();
    direction(&way[..1])
}

/// `x spans 2 to 4`: the pairs 2, 3 and 3, 4.
fn pairs(names: &str) -> Vec<Place> {
    let direction = direction(&names[..1]);
    let spans = numbers(names[1..].strip_prefix(" spans ").unwrap());
    let lower = spans[..spans.len() - 1].iter();
    lower
        .map(|&lower| match direction {
            0 => [4, 0, lower, 0],
            _ => [4, 1, 0, lower],
        })
        .collect()
}

/// `panel of x bay 2, y bay 1`, `the 6 panels of x bays 0 to 2, y bays 1 and 4`
fn two_lists(names: &str, thing: &str, first: &str, second: &str) -> (Vec<u32>, Vec<u32>) {
    let (one, other) = names.split_once(&format!(", {second}")).unwrap();
    let (what, one) = one.split_once(&format!(" {first}")).unwrap();
    let list = |words: &str| numbers(words.trim_start_matches('s').trim_start());
    let (i, j) = (list(one), list(other));
    let right = match i.len() * j.len() {
        1 => thing.to_string(),
        count => format!("the {count} {thing}s"),
    };
    assert_eq!(what, right);
    (i, j)
}

/// `0 to 2, 4 and 5`
fn numbers(words: &str) -> Vec<u32> {
    let parsed = |number: &str| number.parse::<u32>().unwrap();
    let words = words.replace(" and ", ", ");
    let pieces = words
        .split(", ")
        .map(|piece| match piece.split_once(" to ") {
            Some((first, last)) => (parsed(first)..=parsed(last)).collect(),
            None => vec![parsed(piece)],
        });
    pieces.flatten().collect()
}

fn product(limit: u32, direction: u32, i: &[u32], j: &[u32]) -> Vec<Place> {
    let rows = j.iter();
    rows.flat_map(|&j| i.iter().map(move |&i| [limit, direction, i, j]))
        .collect()
}
