//! Questions for the benchmark: triangles, call logs and columns of a wanted size, and cables with a range table.

use super::Random;
use crate::plain::{top, Question, Table, MOST_ATTRIBUTES};
use std::collections::BTreeSet;

/// A triangle R(a, b), S(b, c), T(a, c): so many random rows in each table.
pub fn triangle(seed: u64, width: u32, rows: usize) -> Question {
    let mut random = Random::new(seed);
    let top = top(width);
    let tables = [[0, 1], [1, 2], [0, 2]]
        .iter()
        .map(|attributes| {
            let mut set = BTreeSet::new();
            while set.len() < rows {
                set.insert(vec![random.word() & top, random.word() & top]);
            }
            Table::with_rows(attributes.to_vec(), set.into_iter().collect())
        })
        .collect();
    Question {
        widths: vec![width; 3],
        tables,
    }
}

/// The widths of a call log's attributes: shaft, unit, line, first and second centre.
const CALL_LOG_WIDTHS: [u32; 5] = [11, 11, 7, 4, 4];

/// A call log: each shaft has its unit, each unit a line, each line its first centre, and each centre some
/// second ones to try after it. Their numbers are random ones of the widths.
pub fn call_log(seed: u64, shafts: usize, lines: usize, centres: usize, tries: usize) -> Question {
    let mut random = Random::new(seed);
    let [shaft, unit, line, centre, _] = CALL_LOG_WIDTHS;
    let shafts_there = numbers(&mut random, shaft, shafts);
    let units_there = numbers(&mut random, unit, shafts);
    let lines_there = numbers(&mut random, line, lines);
    let centres_there = numbers(&mut random, centre, centres);
    let mut units = units_there.clone();
    random.shuffle(&mut units);
    let shaft_unit = shafts_there.iter().zip(units).map(|(&s, u)| vec![s, u]);
    Question {
        widths: CALL_LOG_WIDTHS.to_vec(),
        tables: vec![
            table([0, 1], shaft_unit.collect()),
            table([1, 2], some_of(&mut random, &units_there, &lines_there, 1)),
            table(
                [2, 3],
                some_of(&mut random, &lines_there, &centres_there, 1),
            ),
            table(
                [3, 4],
                some_of(&mut random, &centres_there, &centres_there, tries),
            ),
        ],
    }
}

/// A call log with a table more, of the lines that are connected: every fourth one.
pub fn connected_call_log(
    seed: u64,
    shafts: usize,
    lines: usize,
    centres: usize,
    tries: usize,
) -> Question {
    let mut question = call_log(seed, shafts, lines, centres, tries);
    let lines = question.tables[2].rows().expect("rows");
    let connected = lines.iter().step_by(4).map(|row| vec![row[0]]).collect();
    question.tables.push(Table::with_rows(vec![2], connected));
    question
}

/// The widths of what a unit has beside that: card, provider and antenna of each of two radio modules, and a
/// battery.
const UNIT_WIDTHS: [u32; 7] = [8, 4, 2, 8, 4, 2, 5];

/// A call log with as many attributes as there may be: one table more has seven numbers for each unit.
pub fn wide_call_log(
    seed: u64,
    shafts: usize,
    lines: usize,
    centres: usize,
    tries: usize,
) -> Question {
    let mut random = Random::new(seed + 1);
    let mut question = call_log(seed, shafts, lines, centres, tries);
    let lines = question.tables[1].rows().expect("rows");
    let units = lines.iter().map(|row| row[0]);
    let rows = units.map(|unit| {
        let mut row = vec![unit];
        row.extend(UNIT_WIDTHS.map(|width| random.below(1 << width) as u16));
        row
    });
    let rows = rows.collect();
    let beside = question.widths.len()..question.widths.len() + UNIT_WIDTHS.len();
    let mut attributes = vec![1];
    attributes.extend(beside);
    question.widths.extend(UNIT_WIDTHS);
    question.tables.push(Table::with_rows(attributes, rows));
    assert_eq!(question.widths.len(), MOST_ATTRIBUTES);
    question
}

/// Units, each with the length of its cable, and a range table of the lengths in stock: so many pairs of so many
/// values each, spread over the whole range.
pub fn cables(seed: u64, units: usize, pairs: usize, values: usize) -> Question {
    let mut random = Random::new(seed);
    let (unit, length) = (12, 16);
    let units = numbers(&mut random, unit, units);
    let rows = units.iter().map(|&unit| vec![unit, random.word()]);
    let rows = rows.collect();
    let apart = (1 << length) / pairs;
    let stock = (0..pairs).map(|pair| {
        let lowest = pair * apart + random.below(apart - values + 1);
        (lowest as u16, (lowest + values - 1) as u16)
    });
    Question {
        widths: vec![unit, length],
        tables: vec![table([0, 1], rows), Table::with_pairs(1, stock.collect())],
    }
}

/// One attribute of this width, and so many tables of so many random values each.
pub fn columns(seed: u64, width: u32, tables: usize, rows: usize) -> Question {
    let mut random = Random::new(seed);
    let tables = (0..tables).map(|_| {
        let values = numbers(&mut random, width, rows);
        Table::with_rows(
            vec![0],
            values.into_iter().map(|value| vec![value]).collect(),
        )
    });
    Question {
        widths: vec![width],
        tables: tables.collect(),
    }
}

fn table(attributes: [usize; 2], rows: Vec<Vec<u16>>) -> Table {
    Table::with_rows(attributes.to_vec(), rows)
}

/// So many different numbers of this width, ascending.
fn numbers(random: &mut Random, width: u32, count: usize) -> Vec<u16> {
    let mut set = BTreeSet::new();
    while set.len() < count {
        set.insert(random.below(1 << width) as u16);
    }
    set.into_iter().collect()
}

/// Rows of each first number with so many of the second ones, none with itself.
fn some_of(random: &mut Random, firsts: &[u16], seconds: &[u16], count: usize) -> Vec<Vec<u16>> {
    let mut rows = BTreeSet::new();
    for (place, &first) in firsts.iter().enumerate() {
        while rows.len() < (place + 1) * count {
            let second = random.pick(seconds);
            if second != first {
                rows.insert(vec![first, second]);
            }
        }
    }
    rows.into_iter().collect()
}
