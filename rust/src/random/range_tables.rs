//! Range tables put into accepted questions: pairs of every shape.

use super::open_tables::{mark, MOST_TABLES};
use super::Random;
use crate::plain::{top, Contents, Question, Table, RANGE};
use std::collections::BTreeSet;

/// So many pairs a table has at most.
pub(super) const MOST_PAIRS: usize = 4_096;

/// So many words a question has at most.
pub(super) const MOST_WORDS: usize = 32_000;

/// Puts pairs in place of the rows of tables of an accepted question, or range tables between its tables, so that it is
/// still accepted. There is a range table then, unless the question has no place for one.
pub fn range_some(random: &mut Random, question: &mut Question) {
    for width in &mut question.widths {
        if random.one_in(3) {
            *width = random.from_to(*width as usize, 16) as u32;
        }
    }
    for table in 0..question.tables.len() {
        let of = &question.tables[table];
        if of.attributes.len() == 1 && of.rows().is_some() && random.one_in(2) {
            let attribute = of.attributes[0];
            question.tables[table].contents = Contents::Pairs(pairs(random, question, attribute));
        }
    }
    let none = !question.tables.iter().any(Table::is_range);
    let more = if none || random.one_in(4) {
        random.pick(&[1, 1, 1, 2, 3])
    } else {
        0
    };
    for _ in 0..more {
        add_range(random, question);
    }
}

/// Puts a range table at any place among the tables, and says the place; none if there are as many tables as there may
/// be.
pub fn add_range(random: &mut Random, question: &mut Question) -> Option<usize> {
    if question.tables.len() >= MOST_TABLES {
        return None;
    }
    let at = random.below(question.tables.len() + 1);
    let attribute = random.below(question.widths.len());
    let pairs = pairs(random, question, attribute);
    let table = Table::with_pairs(attribute, pairs);
    question.tables.insert(at, table);
    Some(at)
}

/// Pairs for an attribute of the question: of any shape, often around values that its tables have, so that joins aren't
/// all empty.
pub(super) fn pairs(random: &mut Random, question: &Question, attribute: usize) -> Vec<(u16, u16)> {
    let width = question.widths[attribute];
    let top = top(width);
    let mut wanted = Vec::new();
    match random.below(20) {
        0 => return Vec::new(),
        1 | 2 => wanted.push((0, top)),
        3 | 4 => wanted = both_ends(random, width),
        5 => {
            // All but one value.
            let value = random.word() & top;
            wanted.extend(value.checked_sub(1).map(|highest| (0, highest)));
            wanted.extend((value < top).then(|| (value + 1, top)));
        }
        6 => {
            // Touching ones, from end to end.
            wanted.push((0, top));
            for _ in 0..random.from_to(1, 6) {
                cut_one(random, &mut wanted);
            }
        }
        7 if width >= 8 && question.words().len() + 3 + 2 * MOST_PAIRS <= MOST_WORDS => {
            let count = random.pick(&[100, 300, 1_000, MOST_PAIRS]);
            return single_values(random, width, count);
        }
        kind => {
            for value in values_of(question, attribute) {
                if random.one_in(10) {
                    continue;
                }
                // Alone, or with some more on both sides.
                let mut some = || match kind {
                    8..=11 => 0,
                    _ => {
                        let bits = random.below(width as usize);
                        random.below(1 << bits) as u16
                    }
                };
                let lowest = value.saturating_sub(some());
                wanted.push((lowest, value.saturating_add(some()).min(top)));
            }
            for _ in 0..random.below(3) {
                let value = random.word() & top;
                wanted.push((value, value | random.word() & top));
            }
        }
    }
    let mut pairs = apart(wanted);
    if random.one_in(4) {
        for _ in 0..random.from_to(1, 4) {
            cut_one(random, &mut pairs);
        }
    }
    pairs
}

/// The values of an attribute in the rows of its tables.
fn values_of(question: &Question, attribute: usize) -> BTreeSet<u16> {
    let mut values = BTreeSet::new();
    for table in &question.tables {
        let column = table.attributes.iter().position(|&a| a == attribute);
        if let (Some(column), Some(rows)) = (column, table.rows()) {
            values.extend(rows.iter().map(|row| row[column]));
        }
    }
    values
}

/// Makes pairs that have no common values: of what two have in common the one with the lower lowest value keeps it, and
/// the other begins behind it, so that they touch.
fn apart(mut wanted: Vec<(u16, u16)>) -> Vec<(u16, u16)> {
    wanted.sort();
    let mut pairs: Vec<(u16, u16)> = Vec::new();
    for (lowest, highest) in wanted {
        let lowest = match pairs.last() {
            Some(&(_, before)) if before >= highest => continue,
            Some(&(_, before)) => lowest.max(before + 1),
            None => lowest,
        };
        pairs.push((lowest, highest));
    }
    pairs
}

/// Cuts a pair into two that touch, if there is one of more than one value.
pub(super) fn cut_one(random: &mut Random, pairs: &mut Vec<(u16, u16)>) {
    let long: Vec<usize> = (0..pairs.len())
        .filter(|&at| pairs[at].0 < pairs[at].1)
        .collect();
    if !long.is_empty() && pairs.len() < MOST_PAIRS {
        let at = random.pick(&long);
        let (lowest, highest) = pairs[at];
        let cut = lowest + random.below((highest - lowest) as usize) as u16;
        pairs.splice(at..=at, [(lowest, cut), (cut + 1, highest)]);
    }
}

/// A pair from the lowest value of this width on, and one up to the highest; with more between them sometimes.
pub(super) fn both_ends(random: &mut Random, width: u32) -> Vec<(u16, u16)> {
    let top = top(width);
    let mut ends: Vec<u16> = (0..random.pick(&[2, 2, 4, 6]))
        .map(|_| match random.below(4) {
            0 => 0,
            1 => top,
            _ => random.word() & top,
        })
        .collect();
    ends.sort();
    let mut wanted = vec![(0, ends[0])];
    let between = &ends[1..ends.len() - 1];
    wanted.extend(between.chunks(2).map(|two| (two[0], two[1])));
    wanted.push((ends[ends.len() - 1], top));
    apart(wanted)
}

/// So many pairs of one value each, if the width has so many.
pub(super) fn single_values(random: &mut Random, width: u32, count: usize) -> Vec<(u16, u16)> {
    let count = count.min(1 << width);
    let mut values = BTreeSet::new();
    while values.len() < count {
        values.insert(random.word() & top(width));
    }
    values.into_iter().map(|value| (value, value)).collect()
}

/// Words that say the question: each open table over one attribute has one of its two forms.
pub fn any_words(random: &mut Random, question: &Question) -> Vec<u16> {
    let mut words = question.words();
    for (number, table) in question.tables.iter().enumerate() {
        if has_two_forms(table) && random.one_in(2) {
            words[first(question, number)] = RANGE;
        }
    }
    words
}

/// An open table over one attribute is said with 1 or with the mark of a range table.
pub(super) fn has_two_forms(table: &Table) -> bool {
    table.is_open() && table.attributes.len() == 1
}

/// The place of the table's first word: how many attributes it has, or the mark of a range table.
pub(super) fn first(question: &Question, table: usize) -> usize {
    mark(question, table) - question.tables[table].attributes.len() - 1
}
