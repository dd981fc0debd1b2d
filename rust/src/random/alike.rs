//! Questions made from others, which have the same tuples as these, but for the values of hidden attributes.

use super::open_tables::{pick_table, MOST_TABLES};
use super::{add_open, Random};
use crate::plain::{self, top, Question, Table};
use crate::text::{BOXES, LISTING_WORDS};
use std::collections::{BTreeMap, BTreeSet};

/// How a question is made from another one.
#[derive(Clone, Copy, Debug, PartialEq, Eq)]
pub enum Alike {
    // Hidden values are others.
    /// Those of the same tables, in the same order.
    Values,
    /// Those of a single table, which has the tuples that a text lists.
    Tuples,
    // No tuple is another one.
    /// Larger widths.
    Widths,
    /// One more table, which takes no tuple out.
    More,
    /// Two tables in place of one, which has what both have.
    Split,
    /// The tables in another order.
    Order,
}

impl Alike {
    pub const ALL: [Alike; 6] = [
        Alike::Values,
        Alike::Tuples,
        Alike::Widths,
        Alike::More,
        Alike::Split,
        Alike::Order,
    ];
}

/// A question with the same tuples but for the values of the hidden attributes, if it can be made so.
pub fn alike(
    random: &mut Random,
    question: &Question,
    hidden: &[u16],
    how: Alike,
) -> Option<Question> {
    let mut other = question.clone();
    match how {
        Alike::Values => {
            for &attribute in hidden {
                other_values(random, &mut other, attribute as usize);
            }
        }
        Alike::Tuples => other = one_table(random, question, hidden),
        Alike::Widths => {
            for width in &mut other.widths {
                *width = (*width + random.below(3) as u32).min(16);
            }
        }
        Alike::More => more(random, &mut other)?,
        Alike::Split => split(random, &mut other)?,
        Alike::Order => random.shuffle(&mut other.tables),
    }
    (other != *question).then_some(other)
}

/// Gives the attribute other values in all tables, in the same order.
pub fn other_values(random: &mut Random, question: &mut Question, attribute: usize) {
    let width = question.widths[attribute];
    let width = (width + random.below(3) as u32).min(16);
    let values: BTreeSet<u16> = cells(question, attribute).map(|value| *value).collect();
    let mut others = BTreeSet::new();
    while others.len() < values.len() {
        others.insert(random.word() & top(width));
    }
    let other: BTreeMap<u16, u16> = values.into_iter().zip(others).collect();
    for value in cells(question, attribute) {
        *value = other[value];
    }
    question.widths[attribute] = width;
}

/// The attribute's values in all rows.
fn cells(question: &mut Question, attribute: usize) -> impl Iterator<Item = &mut u16> {
    question
        .tables
        .iter_mut()
        .filter_map(move |table| {
            let place = table.attributes.iter().position(|&a| a == attribute)?;
            Some((place, table.rows_mut()?))
        })
        .flat_map(|(place, rows)| rows.iter_mut().map(move |row| &mut row[place]))
}

/// A single table with the tuples that a text lists, in their order, with other values of the hidden attributes.
fn one_table(random: &mut Random, question: &Question, hidden: &[u16]) -> Question {
    let run = plain::run_by_tree(&question.words(), LISTING_WORDS, BOXES * plain::RECORD);
    let n = question.widths.len();
    let mut rows: Vec<Vec<u16>> = run.listing.chunks(n).map(<[u16]>::to_vec).collect();
    let mut widths = question.widths.clone();
    let width = random.from_to(1, 6) as u32;
    let first = hidden.iter().min().map(|&a| a as usize);
    for at in 0..rows.len() {
        let (before, row) = rows.split_at_mut(at);
        let row = &mut row[0];
        for &attribute in hidden {
            row[attribute as usize] = random.word() & top(width);
        }
        // The first hidden value decides the order where all before it are those of the tuple before.
        if let Some(first) = first {
            row[first] = match before.last() {
                Some(last) if last[..first] == row[..first] => {
                    last[first] + 1 + random.below(3) as u16
                }
                _ => random.below(8) as u16,
            };
        }
    }
    for &attribute in hidden {
        let most = rows.iter().map(|row| row[attribute as usize]).max();
        let least = u16::BITS - most.unwrap_or(0).leading_zeros();
        widths[attribute as usize] = width.max(least);
    }
    Question {
        widths,
        tables: vec![Table::with_rows((0..n).collect(), rows)],
    }
}

/// One more table, open or over attributes of another one, with all values that this has there and some others.
fn more(random: &mut Random, question: &mut Question) -> Option<()> {
    if random.one_in(6) {
        return add_open(random, question).map(|_| ());
    }
    let of = filled_table(random, question)?;
    let of = question.tables[of].clone();
    let k = of.attributes.len();
    let mut places: Vec<usize> = (0..k).collect();
    random.shuffle(&mut places);
    places.truncate(random.from_to(1, k));
    places.sort();
    let chosen = |row: &Vec<u16>| places.iter().map(|&place| row[place]).collect();
    let mut rows: BTreeSet<Vec<u16>> = of.rows()?.iter().map(chosen).collect();
    let attributes: Vec<usize> = places.iter().map(|&place| of.attributes[place]).collect();
    for _ in 0..random.below(4) {
        rows.insert(row(random, question, &attributes));
    }
    insert(random, question, attributes, rows);
    Some(())
}

/// Two tables in place of one: each has its rows and others, but no other row stands in both.
fn split(random: &mut Random, question: &mut Question) -> Option<()> {
    let at = filled_table(random, question)?;
    let table = question.tables.remove(at);
    let rows: BTreeSet<Vec<u16>> = table.rows()?.iter().cloned().collect();
    let (mut one, mut two) = (rows.clone(), rows.clone());
    for _ in 0..random.from_to(1, 6) {
        let row = row(random, question, &table.attributes);
        if !one.contains(&row) && !two.contains(&row) {
            if random.one_in(2) {
                one.insert(row);
            } else {
                two.insert(row);
            }
        }
    }
    insert(random, question, table.attributes.clone(), one);
    insert(random, question, table.attributes, two);
    Some(())
}

/// A table with rows, perhaps none, if there may be one more table.
fn filled_table(random: &mut Random, question: &Question) -> Option<usize> {
    if question.tables.len() >= MOST_TABLES {
        return None;
    }
    pick_table(random, question, |table| table.rows().is_some())
}

fn row(random: &mut Random, question: &Question, attributes: &[usize]) -> Vec<u16> {
    let value = |&a: &usize| random.word() & top(question.widths[a]);
    attributes.iter().map(value).collect()
}

/// Puts a table with these rows at any place among the tables.
fn insert(
    random: &mut Random,
    question: &mut Question,
    attributes: Vec<usize>,
    rows: BTreeSet<Vec<u16>>,
) {
    let at = random.below(question.tables.len() + 1);
    let table = Table::with_rows(attributes, rows.into_iter().collect());
    question.tables.insert(at, table);
}

#[cfg(test)]
mod tests {
    use super::*;
    use crate::nested::{join_by_rows, most_turns};
    use crate::random::text_question;

    /// The two joins, without the values of the hidden attributes, are the same list.
    #[test]
    fn joins_are_alike() {
        for how in Alike::ALL {
            let (mut tried, mut tuples, mut others) = (0, 0, 0);
            for seed in 0..400 {
                let mut random = Random::new(95_000_000 + seed);
                let question = text_question(&mut random);
                let all = 0..question.widths.len() as u16;
                let hidden: Vec<u16> = all.filter(|_| random.one_in(2)).collect();
                let boxes = BOXES * plain::RECORD;
                let run = plain::run_by_tree(&question.words(), LISTING_WORDS, boxes);
                if run.number != 0 || most_turns(&question) > 1e5 {
                    continue;
                }
                let Some(other) = alike(&mut random, &question, &hidden, how) else {
                    continue;
                };
                assert!(plain::read(&other.words()).is_ok(), "{how:?}, seed {seed}");
                if most_turns(&other) > 1e5 {
                    continue;
                }
                let visible = |mut join: Vec<Vec<u16>>| {
                    for tuple in &mut join {
                        hidden.iter().for_each(|&a| tuple[a as usize] = 0);
                    }
                    join
                };
                let (join, of_other) = (join_by_rows(&question), join_by_rows(&other));
                tried += 1;
                tuples += join.len();
                others += usize::from(join != of_other);
                let same = visible(join) == visible(of_other);
                assert!(same, "{how:?}, seed {seed}: {question:?} and {other:?}");
            }
            let hides = matches!(how, Alike::Values | Alike::Tuples);
            println!("{how:?}: {tried} tried, {tuples} tuples, {others} other joins");
            assert!(tried >= 100 && tuples >= 500, "{how:?}: {tried}, {tuples}");
            assert!(
                if hides { others >= 50 } else { others == 0 },
                "{how:?}: {others}"
            );
        }
    }
}
