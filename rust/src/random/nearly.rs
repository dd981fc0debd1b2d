//! Accepted questions that are nearly alike: they begin with the same words, and differ in one thing.

use super::open_tables::{pick_table, MOST_TABLES};
use super::{add_open, add_range, any_words, Random};
use crate::plain::{self, Question, Table, MOST_ATTRIBUTES};

/// Words of an accepted question that differs from this one in one thing, and be it the form of an open table.
pub fn nearly_alike(random: &mut Random, question: &Question) -> Vec<u16> {
    let words = question.words();
    // Not every question can be changed in every way.
    loop {
        let other = changed(random, question);
        if let Some(other) = other.filter(|other| *other != words && plain::read(other).is_ok()) {
            return other;
        }
    }
}

/// The words with one thing changed, if it can be. They may be refused.
fn changed(random: &mut Random, question: &Question) -> Option<Vec<u16>> {
    let mut other = question.clone();
    match random.below(12) {
        0 => other = with_attribute(question)?,
        1 => {
            let attribute = random.below(other.widths.len());
            other.widths[attribute] = random.from_to(1, 16) as u32;
        }
        2 => {
            add_open(random, &mut other)?;
        }
        3 => {
            add_range(random, &mut other)?;
        }
        4 => {
            other.tables.pop();
        }
        5 | 6 => {
            // Two tables change places.
            let of = other.tables.len();
            other.tables.swap(random.below(of), random.below(of));
        }
        7 => {
            // A row or a pair less.
            let at = pick_table(random, &other, |table| !table.is_open())?;
            let table = &mut other.tables[at];
            if let Some(rows) = table.rows_mut() {
                rows.pop()?;
            } else {
                table.pairs_mut()?.pop()?;
            }
        }
        8 => return Some(any_words(random, question)),
        _ => {
            let mut words = question.words();
            let at = random.below(words.len());
            let (below, above) = (words[at].wrapping_sub(1), words[at].wrapping_add(1));
            words[at] = random.pick(&[below, above, random.word(), 0, 1, 65_535]);
            return Some(words);
        }
    }
    Some(other.words())
}

/// The question with one attribute more, in a table of its own behind the others, if it can have both.
pub fn with_attribute(question: &Question) -> Option<Question> {
    let (n, tables) = (question.widths.len(), question.tables.len());
    if n == MOST_ATTRIBUTES || tables == MOST_TABLES {
        return None;
    }
    let mut other = question.clone();
    other.widths.push(1);
    other.tables.push(Table::with_rows(vec![n], vec![vec![1]]));
    Some(other)
}

/// The words of an accepted question with another last word, one less or one more, so that they are accepted too.
pub fn with_other_end(words: &[u16]) -> Option<Vec<u16>> {
    let (&last, front) = words.split_last()?;
    let ends = [last.checked_sub(1), last.checked_add(1)];
    let mut others = ends.iter().flatten().map(|&end| [front, &[end]].concat());
    others.find(|other| plain::read(other).is_ok())
}
