//! Files with one or two things wrong, of which the one that is asked first decides.

use super::csv::Sheet;
use super::damaged_csv::{damaged_sheet, twice_damaged_sheet};
use super::files::sheets;
use super::texts::names;
use super::{damaged_names, filled_question, long_question, names_line, Cause, Files, Random};
use crate::files::{Refusal, MOST_FILES};
use crate::plain::{Question, MOST_ATTRIBUTES};

/// Something wrong with what a call reads.
#[derive(Clone, Copy, Debug, PartialEq, Eq)]
pub enum Wrong {
    Names(Cause),
    NoFile,
    TooManyFiles,
    EndBeyond,
    EndBelow,
    /// A file, with the cause in its header or not.
    File(Cause, bool),
    /// A file in which two things are wrong.
    FileTwice,
    TooManyWords,
    AttributeInNone,
}

impl Wrong {
    /// All that can be wrong.
    pub fn all() -> Vec<Wrong> {
        let mut all: Vec<Wrong> = Cause::OF_NAMES.map(Wrong::Names).to_vec();
        all.extend([Wrong::NoFile, Wrong::TooManyFiles]);
        all.extend([Wrong::EndBeyond, Wrong::EndBelow]);
        all.extend(Cause::OF_FILE.map(|cause| Wrong::File(cause, false)));
        all.extend(Cause::OF_HEADER.map(|cause| Wrong::File(cause, true)));
        all.extend(Cause::OF_RECORD.map(|cause| Wrong::File(cause, false)));
        all.extend([
            Wrong::FileTwice,
            Wrong::TooManyWords,
            Wrong::AttributeInNone,
        ]);
        all
    }

    /// Are there many bytes or words to it?
    pub fn is_long(self) -> bool {
        use Cause::{TooLong, TooManyRows};
        matches!(
            self,
            Wrong::File(TooLong | TooManyRows, _) | Wrong::TooManyWords
        )
    }
}

/// A refusal behind its place among all that is asked: the names, the number of files, then of each file its
/// end and its bytes, then the words and the attributes of the question.
type Due = ([u32; 3], Refusal);

fn due(place: [u32; 3], number: u8, file: u32, record: u32) -> Due {
    let refusal = Refusal {
        number,
        file,
        record,
    };
    (place, refusal)
}

/// What a call reads, with all of this wrong, and the refusal of what is asked first.
pub fn wrong_files(random: &mut Random, wrongs: &[Wrong]) -> (Files, Refusal) {
    let question = base(random, wrongs);
    let n = question.widths.len();
    let in_none = wrongs.contains(&Wrong::AttributeInNone);
    let names = names(random, n + usize::from(in_none));
    let mut used = names.clone();
    if in_none {
        used.remove(random.below(n + 1));
    }
    let mut sheets = sheets(random, &names, &used, &question);
    random.shuffle(&mut sheets);
    let (files, mut all) = wrong_bytes(random, sheets, wrongs);
    let mut files = Files::new(&names_line(&names), &files);
    for &wrong in wrongs {
        match wrong {
            Wrong::Names(cause) => {
                files.names = damaged_names(random, cause);
                all.push(due([0; 3], cause.number(), 0, 0));
            }
            Wrong::NoFile | Wrong::TooManyFiles => all.push(due([1, 0, 0], 5, 0, 0)),
            Wrong::EndBeyond | Wrong::EndBelow => {
                let file = wrong_end(random, &mut files, wrong);
                all.push(due([2, file, 0], 3, file, 0));
            }
            Wrong::TooManyWords => all.push(due([3, 0, 0], 1, 0, 0)),
            Wrong::AttributeInNone => all.push(due([4, 0, 0], 12, 0, 0)),
            Wrong::File(..) | Wrong::FileTwice => {}
        }
    }
    if wrongs.contains(&Wrong::NoFile) {
        files.ends.clear();
    }
    if wrongs.contains(&Wrong::TooManyFiles) {
        let count = random.pick(&[17, 17, 18, 40, 256, 257, 272, 65_537]);
        let last = files.bytes.len() as u32;
        files.ends.resize(count, last);
    }
    let first = all.into_iter().min_by_key(|(place, _)| *place);
    (files, first.expect("something wrong").1)
}

/// A question with a table for each thing that is wrong and one more, with at least two rows each; it has less
/// than the most attributes, and more words than it may have only where that is what is wrong.
fn base(random: &mut Random, wrongs: &[Wrong]) -> Question {
    let mut question = if wrongs.contains(&Wrong::TooManyWords) {
        let words = random.pick(&[32_001, 32_002, 32_500, 32_768]);
        long_question(random, words)
    } else {
        filled_question(random)
    };
    while question.tables.len() < wrongs.len() + 1 {
        let table = question.tables[0].clone();
        question.tables.push(table);
    }
    for table in &mut question.tables {
        let k = table.attributes.len();
        let rows = table.rows_mut().expect("rows");
        if rows.len() < 2 {
            *rows = vec![vec![0; k], vec![1; k]];
        }
    }
    if question.widths.len() == MOST_ATTRIBUTES || question.tables.len() > MOST_FILES {
        return base(random, wrongs);
    }
    question
}

/// The bytes of each file, a file for each of the wrongs that are in one, and their refusals.
fn wrong_bytes(
    random: &mut Random,
    sheets: Vec<Sheet>,
    wrongs: &[Wrong],
) -> (Vec<Vec<u8>>, Vec<Due>) {
    let mut files: Vec<Vec<u8>> = sheets.iter().map(|sheet| sheet.bytes().1).collect();
    let mut places: Vec<usize> = (0..sheets.len()).collect();
    random.shuffle(&mut places);
    let mut all = Vec::new();
    for (&wrong, at) in wrongs.iter().zip(places) {
        let sheet = sheets[at].clone();
        let (bytes, number, record) = match wrong {
            Wrong::File(cause, in_header) => {
                let (bytes, record) = damaged_sheet(random, sheet, cause, in_header);
                (bytes, cause.number(), record)
            }
            Wrong::FileTwice => twice_damaged_sheet(random, sheet),
            _ => continue,
        };
        files[at] = bytes;
        let file = at as u32 + 1;
        all.push(due([2, file, 1], number, file, record));
    }
    (files, all)
}

/// Makes an end wrong, and says which file's.
fn wrong_end(random: &mut Random, files: &mut Files, wrong: Wrong) -> u32 {
    let ends = &mut files.ends;
    let at;
    if wrong == Wrong::EndBeyond {
        at = random.below(ends.len());
        let bytes = files.bytes.len() as u32;
        ends[at] = bytes + random.pick(&[1, 1, 2, 256, 65_536, u32::MAX - bytes]);
    } else {
        // One before which there is a byte.
        let first = ends.iter().position(|&end| end > 0);
        at = random.from_to(first.expect("a byte") + 1, ends.len() - 1);
        let before = ends[at - 1] as usize;
        let below = random.below(before);
        ends[at] = random.pick(&[before - 1, below, 0]) as u32;
    }
    at as u32 + 1
}
