//! Names and numbers in a text, and which name is meant by a misspelt one.

use super::alloc::format;
use super::alloc::string::String;
use super::alloc::vec::Vec;

/// What is wrong in a line.
pub(super) type Fault = String;

/// Names of numbers, and what they are names of.
#[derive(Clone, Copy)]
pub(super) struct Names(pub &'static str, pub &'static [&'static str]);

impl Names {
    pub fn name(self, number: u32) -> Option<&'static str> {
        self.1.get(usize::try_from(number).ok()?).copied()
    }

    /// The number that a name or the number itself says.
    pub fn number<T: TryFrom<u64>>(self, text: &str) -> Result<T, Fault> {
        match self.1.iter().position(|name| *name == text) {
            Some(place) => T::try_from(place as u64).map_err(|_| format!("too large: {text}")),
            None if self.1.is_empty() || text.starts_with(|first: char| first.is_ascii_digit()) => number(text),
            None => Err(misspelt(self.0, text, self.1.iter().copied())),
        }
    }
}

pub(super) fn number<T: TryFrom<u64>>(text: &str) -> Result<T, Fault> {
    let value: u64 = text.parse().map_err(|_| format!("not a number: {text}"))?;
    T::try_from(value).map_err(|_| format!("too large: {text}"))
}

/// A longer word is near no name.
const LONGEST_WORD: usize = 40;

/// That nothing has this name, and which name is near it.
pub(super) fn misspelt<'a>(what: &str, text: &str, names: impl Iterator<Item = &'a str>) -> Fault {
    let near = names.filter(|_| text.len() <= LONGEST_WORD).map(|name| (distance(text, name), name)).min();
    match near.filter(|(distance, name)| *distance <= name.len().div_ceil(3)) {
        Some((_, name)) => format!("no {what} is named {text} ({name}?)"),
        None => format!("no {what} is named {text}"),
    }
}

/// How many letters have to be put in, left out or changed to make one word of the other; small letters are as good as
/// capital ones.
fn distance(one: &str, other: &str) -> usize {
    let mut row: Vec<usize> = (0..=other.chars().count()).collect();
    for letter in one.chars() {
        row = next_row(&row, letter, other);
    }
    row.last().copied().unwrap_or_default()
}

/// The distances of a word, one letter longer, to each start of the other, by those of the shorter word.
fn next_row(row: &[usize], letter: char, other: &str) -> Vec<usize> {
    let mut next: Vec<usize> = row.first().map(|first| first + 1).into_iter().collect();
    for (two, theirs) in row.windows(2).zip(other.chars()) {
        let changed = two[0] + usize::from(!letter.eq_ignore_ascii_case(&theirs));
        let left_out = two[1] + 1;
        let put_in = next[next.len() - 1] + 1;
        next.push(changed.min(left_out).min(put_in));
    }
    next
}
