//! The files of a question's tables one after the other, good ones and some with any damage.

use super::csv::{records, Sheet};
use super::messy_csv::mess_up;
use super::texts::names;
use super::{damaged_names, filled_question, names_line, Cause, Random};
use crate::plain::Question;

/// What a call reads: the line of names, the bytes of all files, and where each file ends.
#[derive(Clone, Debug, PartialEq, Eq)]
pub struct Files {
    pub names: Vec<u8>,
    pub bytes: Vec<u8>,
    pub ends: Vec<u32>,
}

impl Files {
    pub fn new(names: &[u8], files: &[Vec<u8>]) -> Files {
        let mut laid = Files {
            names: names.to_vec(),
            bytes: Vec::new(),
            ends: Vec::new(),
        };
        for file in files {
            laid.bytes.extend(file);
            laid.ends.push(laid.bytes.len() as u32);
        }
        laid
    }
}

/// Files of the tables of this question, perhaps with some bytes behind them.
pub fn files_of(random: &mut Random, question: &Question) -> Files {
    let names = names(random, question.widths.len());
    let files: Vec<Vec<u8>> = sheets(random, &names, &names, question)
        .iter()
        .map(|sheet| sheet.bytes().1)
        .collect();
    let mut files = Files::new(&names_line(&names), &files);
    if random.one_in(3) {
        let behind = random.below(12);
        files.bytes.extend((0..behind).map(|_| random.word() as u8));
    }
    files
}

/// The sheets of the question's tables, `used` being the names of its attributes among all names.
pub(super) fn sheets(
    random: &mut Random,
    names: &[String],
    used: &[String],
    question: &Question,
) -> Vec<Sheet> {
    let sheet = |table| Sheet {
        names: names.to_vec(),
        records: records(random, used, table),
        ended: !random.one_in(3),
    };
    question.tables.iter().map(sheet).collect()
}

/// What a call reads, with any damage or none: to bytes, to ends, to names, to the number of files.
pub fn messy_files(random: &mut Random) -> Files {
    let question = filled_question(random);
    let names = names(random, question.widths.len());
    let sheets = sheets(random, &names, &names, &question);
    let mut files: Vec<Vec<u8>> = sheets.iter().map(|sheet| sheet.bytes().1).collect();
    for _ in 0..random.pick(&[0, 0, 1, 1, 2]) {
        let at = random.below(files.len());
        mess_up(random, &mut files[at]);
    }
    match random.below(10) {
        0 => {
            files.remove(random.below(files.len()));
        }
        1 => {
            let at = random.below(files.len());
            files.insert(at, files[at].clone());
        }
        2 => files.push(Vec::new()),
        _ => {}
    }
    let mut files = Files::new(&names_line(&names), &files);
    match random.below(10) {
        0 if !files.ends.is_empty() => {
            let at = random.below(files.ends.len());
            let more = random.pick(&[1, 2, u32::MAX, u32::MAX - 1]);
            files.ends[at] = files.ends[at].wrapping_add(more);
        }
        1 => random.shuffle(&mut files.ends),
        2 => {
            let end = random.below(files.bytes.len() + 2) as u32;
            let at = random.below(files.ends.len() + 1);
            files.ends.insert(at, end);
        }
        3 => {
            let cause = random.pick(&Cause::OF_NAMES);
            files.names = damaged_names(random, cause);
        }
        4 => {
            let left = random.below(files.bytes.len() + 1);
            files.bytes.truncate(left);
        }
        _ => {}
    }
    files
}
