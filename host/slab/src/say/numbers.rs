//! Many numbers in few words.

/// `a`, `a and b`, `a, b and c`.
pub fn joined<T: ToString>(items: &[T]) -> String {
    let words: Vec<String> = items.iter().map(T::to_string).collect();
    match &words[..] {
        [first @ .., last] if !first.is_empty() => format!("{} and {last}", first.join(", ")),
        _ => words.concat(),
    }
}

/// Rising numbers, three or more in a row by the first and the last of them: `0 to 2, 4 and 5`.
fn listed(numbers: &[usize]) -> String {
    let rows = numbers.chunk_by(|one, next| one + 1 == *next);
    let words = rows.flat_map(|row| match row {
        [first, _, .., last] => vec![format!("{first} to {last}")],
        few => few.iter().map(usize::to_string).collect(),
    });
    joined(&words.collect::<Vec<String>>())
}

/// `x bay 3`, `x bays 0 to 2`.
pub fn named(name: &str, numbers: &[usize]) -> String {
    let plural = if numbers.len() == 1 { "" } else { "s" };
    format!("{name}{plural} {}", listed(numbers))
}

/// The number that they all are, or the least and the greatest of them: `210`, `204 to 210`.
pub fn range(numbers: &[u32]) -> String {
    let mut rising = numbers.to_vec();
    rising.sort_unstable();
    rising.dedup();
    match &rising[..] {
        [least, .., greatest] => format!("{least} to {greatest}"),
        one => joined(one),
    }
}

/// Each of one or two, the range of more.
pub fn few_or_range(numbers: &[u32]) -> String {
    match numbers {
        [_] | [_, _] => joined(numbers),
        _ => range(numbers),
    }
}
