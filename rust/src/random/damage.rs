//! Damaged questions: a good one, and then something wrong with its tables, its rows or with a word.

use super::{question, Random};
use crate::plain::{Contents, Question, MOST_ATTRIBUTES, OPEN, RANGE};

/// What a word of a question says.
#[derive(Clone, Copy, Debug, PartialEq, Eq)]
pub enum Part {
    Attributes,
    Width,
    Tables,
    /// How many attributes there are, or the mark of a range table.
    Arity,
    Attribute,
    /// How many rows or pairs there are, or the mark of an open table.
    Rows,
    Value(u32),
}

/// What each word of the question says, in order.
pub fn parts(question: &Question) -> Vec<Part> {
    let mut parts = vec![Part::Attributes];
    parts.extend(question.widths.iter().map(|_| Part::Width));
    parts.push(Part::Tables);
    for table in &question.tables {
        parts.push(Part::Arity);
        parts.extend(table.attributes.iter().map(|_| Part::Attribute));
        parts.push(Part::Rows);
        match &table.contents {
            Contents::Rows(rows) => {
                for _ in rows {
                    let widths = table.attributes.iter().map(|&a| question.widths[a]);
                    parts.extend(widths.map(Part::Value));
                }
            }
            Contents::Open => {}
            Contents::Pairs(pairs) => {
                let width = question.widths[table.attributes[0]];
                parts.extend(pairs.iter().flat_map(|_| [Part::Value(width); 2]));
            }
        }
    }
    parts
}

/// Words that are mostly no accepted question.
pub fn damaged(random: &mut Random) -> Vec<u16> {
    let mut question = question(random);
    // Damage to tables, rows and pairs, which are still sorted and distinct here.
    match random.below(14) {
        0 => swap_rows(random, &mut question),
        1 => repeat_row(random, &mut question),
        2 => {
            question.tables.remove(0);
        }
        3 => {
            question.widths.push(random.from_to(1, 16) as u32);
        }
        4 => open_any(random, &mut question),
        5 | 6 => damage_pairs(random, &mut question),
        _ => {}
    }
    let mut words = question.words();
    let parts = parts(&question);
    match random.below(16) {
        0 => {
            // Purely random words, large or small.
            let top = random.pick(&[2, 3, 4, MOST_ATTRIBUTES + 1, 17, 65_536]);
            let length = random.below(40);
            words = (0..length).map(|_| random.below(top) as u16).collect();
            for word in &mut words {
                if random.one_in(12) {
                    *word = OPEN;
                }
            }
        }
        1 | 2 => words.truncate(random.below(words.len() + 1)),
        3 => {
            for _ in 0..random.from_to(1, 3) {
                words.push(random.word());
            }
        }
        4 => {
            let at = random.below(words.len() + 1);
            words.insert(at, random.below(4) as u16);
        }
        5 => {
            words.remove(random.below(words.len()));
        }
        6 => {
            let at = random.below(words.len());
            words[at] = random.word();
        }
        7 => {
            let at = random.below(words.len());
            words[at] = if random.one_in(2) {
                words[at].wrapping_add(1)
            } else {
                words[at].wrapping_sub(1)
            };
        }
        8 | 9 => {
            // A value at its limit or just past it.
            if let Some(at) = place_of(random, &parts, |p| matches!(p, Part::Value(_))) {
                if let Part::Value(width) = parts[at] {
                    words[at] = ((1u32 << width) - random.below(2) as u32).min(65_535) as u16;
                }
            }
        }
        10 => {
            // A number of rows becomes the mark of an open table, and the other way round; rows stay.
            if let Some(at) = place_of(random, &parts, |p| p == Part::Rows) {
                words[at] = if words[at] == OPEN {
                    random.below(4) as u16
                } else {
                    OPEN
                };
            }
        }
        11 => {
            // A number of attributes becomes the mark of a range table, and the other way round.
            if let Some(at) = place_of(random, &parts, |p| p == Part::Arity) {
                words[at] = if words[at] == RANGE { 1 } else { RANGE };
            }
        }
        _ => {
            // Another number at its limit or just past it.
            let part = random.pick(&[
                Part::Attributes,
                Part::Width,
                Part::Tables,
                Part::Arity,
                Part::Attribute,
                Part::Rows,
            ]);
            let most = MOST_ATTRIBUTES as u16;
            let limits: &[u16] = match part {
                Part::Attributes => &[0, 1, most, most + 1, 65_535],
                Part::Width => &[0, 1, 16, 17, 65_535],
                Part::Tables => &[0, 1, 16, 17, 65_535],
                Part::Arity => &[0, 1, most, most + 1, RANGE - 1, RANGE],
                Part::Attribute => &[0, 1, most - 1, most, 65_535],
                _ => &[0, 4_095, 4_096, 4_097, OPEN - 1, OPEN],
            };
            if let Some(at) = place_of(random, &parts, |p| p == part) {
                let n = question.widths.len() as u16;
                words[at] = match random.below(3) {
                    0 => n,
                    1 => n + 1,
                    _ => random.pick(limits),
                };
            }
        }
    }
    if random.one_in(40) {
        // As long as is allowed, or a little longer; what follows the question doesn't matter then.
        let length = random.pick(&[31_999, 32_000, 32_001, 32_002, 40_000, 70_000]);
        while words.len() < length {
            words.push(random.below(3) as u16);
        }
    }
    words
}

fn place_of(random: &mut Random, parts: &[Part], is: impl Fn(Part) -> bool) -> Option<usize> {
    let places: Vec<usize> = (0..parts.len()).filter(|&i| is(parts[i])).collect();
    (!places.is_empty()).then(|| random.pick(&places))
}

pub(super) fn swap_rows(random: &mut Random, question: &mut Question) {
    for rows in question.tables.iter_mut().filter_map(|t| t.rows_mut()) {
        if rows.len() >= 2 {
            let at = random.below(rows.len() - 1);
            rows.swap(at, at + 1);
            return;
        }
    }
}

pub(super) fn repeat_row(random: &mut Random, question: &mut Question) {
    for rows in question.tables.iter_mut().filter_map(|t| t.rows_mut()) {
        if !rows.is_empty() {
            let at = random.below(rows.len());
            rows.insert(at, rows[at].clone());
            return;
        }
    }
}

/// Damages the first range table that has pairs: the order of two, or of a lowest and a highest value.
fn damage_pairs(random: &mut Random, question: &mut Question) {
    for pairs in question.tables.iter_mut().filter_map(|t| t.pairs_mut()) {
        if pairs.is_empty() {
            continue;
        }
        let at = random.below(pairs.len());
        match random.below(4) {
            0 if at > 0 => pairs.swap(at - 1, at),
            1 if at > 0 => pairs[at].0 = pairs[at - 1].1,
            2 => pairs.insert(at, pairs[at]),
            _ => pairs[at] = (pairs[at].1, pairs[at].0),
        }
        return;
    }
}

/// Opens tables, whether their attributes stand in others or not.
pub(super) fn open_any(random: &mut Random, question: &mut Question) {
    let all = random.one_in(4);
    let one = random.below(question.tables.len());
    for (at, table) in question.tables.iter_mut().enumerate() {
        if all || at == one {
            table.contents = Contents::Open;
        }
    }
}
