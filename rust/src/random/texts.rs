//! Texts of accepted questions, and what they are put together from.

use super::Random;
use crate::plain::{Contents, Question};

/// The lines of a text, each a list of fields.
pub(super) type Lines = Vec<Vec<String>>;

/// The text of a question with these names. It has no range tables: no text says them.
pub fn text_of(names: &[String], question: &Question) -> Vec<u8> {
    join_lines(&lines(names, question))
}

/// Distinct names, many of which begin alike; sometimes `open` is one of them.
pub fn names(random: &mut Random, n: usize) -> Vec<String> {
    let mut names: Vec<String> = Vec::new();
    while names.len() < n {
        let length = random.pick(&[1, 1, 2, 3, 4, 5, 11, 12]);
        let letters = random.pick(&["ab", "az", "abcdefghijklmnopqrstuvwxyz"]);
        let name: String = (0..length)
            .map(|_| random.pick(letters.as_bytes()) as char)
            .collect();
        let name = if random.one_in(40) {
            "open".to_string()
        } else {
            name
        };
        if !names.contains(&name) {
            names.push(name);
        }
    }
    names
}

pub(super) fn lines(names: &[String], question: &Question) -> Lines {
    let mut lines = vec![
        names.to_vec(),
        question.widths.iter().map(|w| w.to_string()).collect(),
    ];
    for table in &question.tables {
        lines.push(Vec::new());
        lines.push(table.attributes.iter().map(|&a| names[a].clone()).collect());
        match &table.contents {
            Contents::Rows(rows) => {
                let fields = |row: &Vec<u16>| row.iter().map(|v| v.to_string()).collect();
                lines.extend(rows.iter().map(fields));
            }
            Contents::Open => lines.push(vec!["open".to_string()]),
            Contents::Pairs(_) => unreachable!("a text with a range table"),
        }
    }
    lines
}

pub(super) fn join_lines(lines: &Lines) -> Vec<u8> {
    let lines: Vec<String> = lines.iter().map(|fields| fields.join(" ") + "\n").collect();
    lines.concat().into_bytes()
}
