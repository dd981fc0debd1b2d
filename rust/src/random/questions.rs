//! Accepted questions: mostly small ones, with open tables and range tables and without, and long ones up to the limit.

use super::{open_some, range_some, Random};
use crate::plain::{top, Question, Table, MOST_ATTRIBUTES};
use std::collections::BTreeSet;

/// The accepted ones among the trial questions.
pub const TRIALS: [&[u16]; 3] = [
    &[1, 2, 2, 1, 0, 2, 1, 3, 1, 0, 2, 1, 2],
    &[1, 2, 2, 1, 0, 0, 1, 0, 1, 0],
    &[1, 1, 1, 1, 0, 2, 0, 1],
];

/// An accepted question, mostly small; one in three has range tables and one in three open ones, if there is a place
/// for one.
pub fn question(random: &mut Random) -> Question {
    let mut question = filled_question(random);
    if random.one_in(3) {
        range_some(random, &mut question);
    }
    open_one_in_three(random, question)
}

/// The same without range tables, which no text has.
pub fn text_question(random: &mut Random) -> Question {
    let question = filled_question(random);
    open_one_in_three(random, question)
}

fn open_one_in_three(random: &mut Random, mut question: Question) -> Question {
    if random.one_in(3) {
        open_some(random, &mut question);
    }
    question
}

/// An accepted question without open and range tables, mostly small.
pub fn filled_question(random: &mut Random) -> Question {
    match random.below(16) {
        0 => crate::plain::read(random.pick(&TRIALS)).unwrap(),
        1 | 2 => with_tables(random, 3, vec![vec![0, 1], vec![1, 2], vec![0, 2]]),
        3 | 4 => {
            let n = match random.below(6) {
                0 => random.from_to(7, MOST_ATTRIBUTES),
                _ => random.from_to(2, 6),
            };
            with_tables(random, n, (1..n).map(|a| vec![a - 1, a]).collect())
        }
        5 => {
            let n = random.from_to(1, MOST_ATTRIBUTES);
            with_tables(random, n, (0..n).map(|a| vec![a]).collect())
        }
        6 => {
            let n = random.from_to(1, MOST_ATTRIBUTES);
            with_tables(random, n, vec![(0..n).collect()])
        }
        _ => {
            let n = match random.below(4) {
                0 => random.from_to(5, MOST_ATTRIBUTES),
                _ => random.pick(&[1, 1, 2, 2, 2, 3, 3, 3, 4, 4]),
            };
            let tables = if random.one_in(12) {
                random.from_to(5, 16)
            } else {
                random.from_to(1, 4)
            };
            let mut attributes = vec![BTreeSet::new(); tables];
            for of in &mut attributes {
                let k = random.from_to(1, n);
                while of.len() < k {
                    of.insert(random.below(n));
                }
            }
            for attribute in 0..n {
                if !attributes.iter().any(|of| of.contains(&attribute)) {
                    attributes[random.below(tables)].insert(attribute);
                }
            }
            let attributes = attributes.into_iter().map(|of| of.into_iter().collect());
            with_tables(random, n, attributes.collect())
        }
    }
}

/// A question with these tables' attributes, random widths and random rows.
pub fn with_tables(random: &mut Random, n: usize, attributes: Vec<Vec<usize>>) -> Question {
    let widest = random.pick(&[1, 2, 2, 3, 3, 4, 4, 5, 8, 16]);
    let widths: Vec<u32> = (0..n).map(|_| random.from_to(1, widest) as u32).collect();
    // Some tuples that most tables have, so that joins aren't all empty.
    let planted: Vec<Vec<u16>> = (0..random.below(6))
        .map(|_| widths.iter().map(|&w| value(random, w)).collect())
        .collect();
    let most = random.pick(&[3, 6, 12, 24]);
    let tables = attributes
        .into_iter()
        .map(|attributes| {
            let rows = rows(random, &widths, &attributes, &planted, most);
            Table::with_rows(attributes, rows)
        })
        .collect();
    Question { widths, tables }
}

/// A value of this width: often at the edges.
fn value(random: &mut Random, width: u32) -> u16 {
    let top = top(width);
    match random.below(8) {
        0 => 0,
        1 => top,
        2 => top.min(random.below(4) as u16),
        _ => random.word() & top,
    }
}

fn rows(
    random: &mut Random,
    widths: &[u32],
    attributes: &[usize],
    planted: &[Vec<u16>],
    most: usize,
) -> Vec<Vec<u16>> {
    let mut rows = BTreeSet::new();
    let bits: u32 = attributes.iter().map(|&a| widths[a]).sum();
    match random.below(20) {
        0 => return Vec::new(),
        1 | 2 if bits <= 6 => {
            // All rows, or all but a few.
            for number in 0..1u32 << bits {
                let mut rest = number;
                let mut row = Vec::new();
                for &a in attributes {
                    row.push((rest & ((1 << widths[a]) - 1)) as u16);
                    rest >>= widths[a];
                }
                rows.insert(row);
            }
            if random.one_in(2) {
                let dropped = random.below(rows.len());
                let row = rows.iter().nth(dropped).cloned().unwrap();
                rows.remove(&row);
            }
            return rows.into_iter().collect();
        }
        _ => {}
    }
    for tuple in planted {
        if !random.one_in(10) {
            rows.insert(attributes.iter().map(|&a| tuple[a]).collect());
        }
    }
    for _ in 0..random.below(most + 1) {
        let mut row: Vec<u16> = attributes
            .iter()
            .map(|&a| value(random, widths[a]))
            .collect();
        // Rows that begin alike.
        if let (Some(other), true) = (rows.first(), random.one_in(2)) {
            let alike = random.below(row.len());
            row[..alike].copy_from_slice(&other[..alike]);
        }
        rows.insert(row);
    }
    rows.into_iter().collect()
}

/// A question of just so many words (from 28,000 on), accepted if it isn't too long.
pub fn long_question(random: &mut Random, words: usize) -> Question {
    let tables = 8;
    // One attribute; each table has 3 words and its rows.
    let mut left = words - 3 - 3 * tables;
    let width = random.from_to(13, 16) as u32;
    let tables = (0..tables)
        .map(|table| {
            let m = left
                .min(4096 - random.below(4))
                .max(left / (tables - table));
            left -= m;
            let mut values = BTreeSet::new();
            while values.len() < m {
                values.insert(vec![random.word() & top(width)]);
            }
            Table::with_rows(vec![0], values.into_iter().collect())
        })
        .collect();
    Question {
        widths: vec![width],
        tables,
    }
}

/// A question whose run stops in a text after a few tuples. Behind these two tables have the values of the first
/// attribute by turns, and each value takes a gap box of the table that hasn't got it.
pub fn stopping_question(random: &mut Random) -> Question {
    let n = random.from_to(1, 4);
    let mut widths = vec![random.from_to(10, 16) as u32];
    widths.extend((1..n).map(|_| random.from_to(1, 4) as u32));
    let (common, turns) = (random.below(6), 600);
    let mut values = BTreeSet::new();
    while values.len() < common + turns {
        values.insert(random.word() & top(widths[0]));
    }
    let (mut whole, mut alone) = (Vec::new(), Vec::new());
    for (place, value) in values.into_iter().enumerate() {
        if place < common || place % 2 == 0 {
            let mut row = vec![value];
            row.extend(widths[1..].iter().map(|&w| random.word() & top(w)));
            whole.push(row);
        }
        if place < common || place % 2 == 1 {
            alone.push(vec![value]);
        }
    }
    let mut tables = vec![
        Table::with_rows((0..n).collect(), whole),
        Table::with_rows(vec![0], alone),
    ];
    random.shuffle(&mut tables);
    Question { widths, tables }
}
