//! A plain model of the join of comma-separated files: what a call answers, and what it writes. It has the
//! plain reader and the plain export of [`csv`](crate::csv), and between them the steps of
//! [`plain`](crate::plain).

use crate::plain::{self, Question, Run, Table};
use crate::{csv, text, CsvJoin};

pub const MOST_FILES: usize = 16;

/// Why files are refused: the number, the file that it is of and the record in it, both from 1, 0 where there
/// is none.
#[derive(Clone, Copy, Debug, PartialEq, Eq)]
pub struct Refusal {
    pub number: u8,
    pub file: u32,
    pub record: u32,
}

impl Refusal {
    /// The refusal of what is in no file.
    fn of_all(number: u8) -> Refusal {
        Refusal {
            number,
            file: 0,
            record: 0,
        }
    }
}

/// The question whose tables the files are, or the refusal.
pub fn question(names: &[u8], files: &[u8], ends: &[u32]) -> Result<Question, Refusal> {
    let names = text::top_names(names).map_err(Refusal::of_all)?;
    if !(1..=MOST_FILES).contains(&ends.len()) {
        return Err(Refusal::of_all(5));
    }
    let mut tables = Vec::new();
    let mut start = 0;
    for (number, &end) in (1..).zip(ends) {
        let refused = |of: csv::Refusal| Refusal {
            number: of.number,
            file: number,
            record: of.record,
        };
        // No such bytes if the end is beyond them all, or below the start.
        let bytes = files.get(start..end as usize);
        let bytes = bytes.ok_or(refused(csv::Refusal {
            number: 3,
            record: 0,
        }))?;
        tables.push(csv::table(&names, bytes).map_err(refused)?);
        start = end as usize;
    }
    let widths = (0..names.len()).map(|a| least_width(&tables, a)).collect();
    let question = Question { widths, tables };
    plain::read(&question.words()).map_err(Refusal::of_all)
}

/// The least width from 1 on that holds all values of the attribute.
fn least_width(tables: &[Table], attribute: usize) -> u32 {
    let mut width = 1;
    for table in tables {
        // Each file's table has rows.
        for row in table.rows().expect("rows") {
            for (&of, &value) in table.attributes.iter().zip(row) {
                while of == attribute && value as u32 >= 1 << width {
                    width += 1;
                }
            }
        }
    }
    width
}

/// How many words and bytes a call has for what it writes.
#[derive(Clone, Copy, Debug, PartialEq, Eq)]
pub struct Rooms {
    pub listing: usize,
    pub store: usize,
    pub out: usize,
}

/// What a call answers, and what it writes at the front of what is lent to it.
#[derive(Clone, Debug, PartialEq, Eq)]
pub struct Join {
    pub told: CsvJoin,
    pub listing: Vec<u16>,
    pub store: Vec<u32>,
    pub out: Vec<u8>,
    /// Was there a run? Only then the scratch may change.
    pub ran: bool,
}

/// The answer for what [`question`] made, with these rooms. `run` is [`plain::run`] or [`plain::run_by_tree`].
pub fn answer(
    names: &[u8],
    made: &Result<Question, Refusal>,
    run: fn(&[u16], usize, usize) -> Run,
    rooms: Rooms,
) -> Join {
    let question = match made {
        Err(refusal) => {
            return Join {
                told: CsvJoin {
                    number: refusal.number,
                    tuples: 0,
                    boxes: 0,
                    resolutions: 0,
                    bytes: 0,
                    file: refusal.file,
                    record: refusal.record,
                },
                listing: Vec::new(),
                store: Vec::new(),
                out: Vec::new(),
                ran: false,
            }
        }
        Ok(question) => question,
    };
    let run = run(&question.words(), rooms.listing, rooms.store);
    let mut join = Join {
        told: CsvJoin {
            number: run.number,
            tuples: run.tuples,
            boxes: run.boxes,
            resolutions: run.resolutions,
            bytes: 0,
            file: 0,
            record: 0,
        },
        listing: run.listing,
        store: run.store,
        out: Vec::new(),
        ran: true,
    };
    if run.number == 0 {
        let file = csv::export(names, &join.listing);
        let answer = csv::answer(&file, rooms.out);
        join.told.number = answer.number;
        join.told.bytes = answer.count;
        join.out = answer.written.to_vec();
    }
    join
}
