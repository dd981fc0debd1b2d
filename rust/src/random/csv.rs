//! Comma-separated files of tables: columns and records in any order, records more than once, fields in
//! quotes that need none, a last line with its end or without.

use super::texts::names;
use super::{filled_question, Random};
use crate::plain::{Table, MOST_ATTRIBUTES};
use std::collections::BTreeSet;

/// The records of a file, the header first, each a list of fields as they are written.
pub(super) type Records = Vec<Vec<Vec<u8>>>;

/// A table's file before its records are joined, and the names of all attributes.
#[derive(Clone)]
pub(super) struct Sheet {
    pub names: Vec<String>,
    pub records: Records,
    pub ended: bool,
}

impl Sheet {
    /// The line of the names, and the file.
    pub fn bytes(&self) -> (Vec<u8>, Vec<u8>) {
        let file = join_records(&self.records, self.ended);
        (names_line(&self.names), file)
    }
}

/// A line of names, without its end, and a file of a table with some of them.
pub fn csv(random: &mut Random) -> (Vec<u8>, Vec<u8>) {
    sheet(random, 0).bytes()
}

/// The line of these names, without its end.
pub fn names_line(names: &[String]) -> Vec<u8> {
    names.join(" ").into_bytes()
}

/// A file of this table.
pub fn csv_of(random: &mut Random, names: &[String], table: &Table) -> Vec<u8> {
    let records = records(random, names, table);
    join_records(&records, !random.one_in(3))
}

/// A file of at least so many rows: mostly of a table of a small question.
pub(super) fn sheet(random: &mut Random, least: usize) -> Sheet {
    loop {
        let (n, table) = if random.one_in(60) {
            large_table(random)
        } else {
            let question = filled_question(random);
            let at = random.below(question.tables.len());
            (question.widths.len(), question.tables[at].clone())
        };
        if rows_of(&table).len() >= least {
            let names = names(random, n);
            return Sheet {
                records: records(random, &names, &table),
                names,
                ended: !random.one_in(3),
            };
        }
    }
}

/// A table of many rows, and the number of all attributes. All its fields in quotes, some records twice and the header
/// are still no more bytes than a file may have.
fn large_table(random: &mut Random) -> (usize, Table) {
    let n = random.from_to(1, MOST_ATTRIBUTES);
    let mut attributes: Vec<usize> = (0..n).collect();
    random.shuffle(&mut attributes);
    attributes.truncate(random.from_to(1, n));
    attributes.sort();
    let end = random.pick(&[10, 100, 65_536]);
    let rows: BTreeSet<Vec<u16>> = (0..random.from_to(1, 590))
        .map(|_| {
            let values = attributes.iter().map(|_| random.below(end) as u16);
            values.collect()
        })
        .collect();
    (n, Table::with_rows(attributes, rows.into_iter().collect()))
}

/// The rows of a table that has some or could: no file is an open table's or a range table's.
fn rows_of(table: &Table) -> &Vec<Vec<u16>> {
    table.rows().expect("a table with rows")
}

pub(super) fn records(random: &mut Random, names: &[String], table: &Table) -> Records {
    // Of so many fields one is in quotes: of one each, of 0 none.
    let quotes = random.pick(&[0, 0, 1, 2, 5]);
    let mut columns: Vec<usize> = (0..table.attributes.len()).collect();
    random.shuffle(&mut columns);
    let mut rows: Vec<&Vec<u16>> = rows_of(table).iter().collect();
    if !rows.is_empty() && random.one_in(2) {
        for _ in 0..random.from_to(1, rows.len().min(20)) {
            rows.push(random.pick(&rows));
        }
    }
    match random.below(6) {
        0 => rows.sort(),
        1 => {
            rows.sort();
            rows.reverse();
        }
        _ => random.shuffle(&mut rows),
    }
    let mut field = |says: &str| {
        if quotes > 0 && random.one_in(quotes) {
            quoted(says.as_bytes())
        } else {
            says.as_bytes().to_vec()
        }
    };
    let name = |&column: &usize| field(&names[table.attributes[column]]);
    let mut records = vec![columns.iter().map(name).collect()];
    for row in rows {
        let value = |&column: &usize| field(&row[column].to_string());
        records.push(columns.iter().map(value).collect());
    }
    records
}

/// A field in quotes, its own quotes doubled.
pub(super) fn quoted(says: &[u8]) -> Vec<u8> {
    let mut field = vec![b'"'];
    for &byte in says {
        field.push(byte);
        if byte == b'"' {
            field.push(byte);
        }
    }
    field.push(b'"');
    field
}

pub(super) fn join_records(records: &Records, ended: bool) -> Vec<u8> {
    let lines: Vec<Vec<u8>> = records.iter().map(|fields| fields.join(&b',')).collect();
    let mut file = lines.join(&b"\r\n"[..]);
    if ended {
        file.extend(b"\r\n");
    }
    file
}
