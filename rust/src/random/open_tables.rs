//! Open tables in questions: put into accepted ones, and the ways in which words with them are accepted or refused.

use super::{filled_question, Random};
use crate::plain::{Contents, Question, Table, OPEN};

/// So many tables a question has at most.
pub(super) const MOST_TABLES: usize = 16;

/// Opens tables of an accepted question, or puts open ones between its tables, so that it is still accepted. There
/// is an open table then, unless the question has no place for one.
pub fn open_some(random: &mut Random, question: &mut Question) {
    let mut tables: Vec<usize> = (0..question.tables.len()).collect();
    random.shuffle(&mut tables);
    match random.below(6) {
        0 => open_among(question, &tables, 1),
        1 => open_among(question, &tables, tables.len()),
        2 | 3 => {
            // All but one of an attribute's tables, where it can be.
            let attribute = random.below(question.widths.len());
            tables.retain(|&t| question.tables[t].attributes.contains(&attribute));
            open_among(question, &tables, tables.len());
        }
        4 => {}
        _ => open_among(question, &tables, random.below(3)),
    }
    let none = !question.tables.iter().any(Table::is_open);
    let more = if none || random.one_in(4) {
        random.pick(&[1, 1, 1, 2, 3])
    } else {
        0
    };
    for _ in 0..more {
        add_open(random, question);
    }
}

/// Opens at most so many of these tables, in this order, each only if its attributes stand in others that aren't
/// open.
fn open_among(question: &mut Question, tables: &[usize], most: usize) {
    let mut left = most;
    for &table in tables {
        let stands = |attribute: &usize| {
            let mut others = question.tables.iter().enumerate();
            others.any(|(at, other)| {
                at != table && !other.is_open() && other.attributes.contains(attribute)
            })
        };
        if left > 0 && question.tables[table].attributes.iter().all(stands) {
            question.tables[table].contents = Contents::Open;
            left -= 1;
        }
    }
}

/// Puts an open table over some of the attributes at any place among the tables, and says the place; none if there
/// are as many tables as there may be.
pub fn add_open(random: &mut Random, question: &mut Question) -> Option<usize> {
    if question.tables.len() >= MOST_TABLES {
        return None;
    }
    let at = random.below(question.tables.len() + 1);
    insert_open(random, question, at);
    Some(at)
}

pub(super) fn insert_open(random: &mut Random, question: &mut Question, at: usize) {
    let n = question.widths.len();
    let mut attributes: Vec<usize> = (0..n).collect();
    random.shuffle(&mut attributes);
    attributes.truncate(random.from_to(1, n));
    attributes.sort();
    question.tables.insert(at, Table::open(attributes));
}

/// What is special in words with an open table.
#[derive(Clone, Copy, Debug, PartialEq, Eq)]
pub enum OpenWords {
    // Accepted.
    Some,
    Several,
    /// All but one of the tables of an attribute are open, and those are at least two.
    AllButOne,
    /// The mark is the last word.
    Last,
    /// A table without rows is there too.
    BesideEmpty,
    /// As many tables as there may be, all but one of them open.
    Sixteen,
    // Refused.
    /// No table that isn't open.
    Only,
    /// An attribute in open tables alone.
    InOpenAlone,
    /// A number of rows that is one less than the mark.
    BelowMark,
    /// One row more than there may be, in place of the mark or beside it.
    TooManyRows,
    /// Nothing behind the mark, though there should be one more table.
    CutBehind,
    /// Rows behind the mark of the last table.
    RowsBehindLast,
    // As it comes.
    /// Rows behind the mark of another table.
    RowsBehind,
    /// The mark in place of a number of rows; the rows stay.
    Marked,
    /// A number of rows in place of the mark.
    Unmarked,
}

impl OpenWords {
    pub const ALL: [OpenWords; 15] = [
        OpenWords::Some,
        OpenWords::Several,
        OpenWords::AllButOne,
        OpenWords::Last,
        OpenWords::BesideEmpty,
        OpenWords::Sixteen,
        OpenWords::Only,
        OpenWords::InOpenAlone,
        OpenWords::BelowMark,
        OpenWords::TooManyRows,
        OpenWords::CutBehind,
        OpenWords::RowsBehindLast,
        OpenWords::RowsBehind,
        OpenWords::Marked,
        OpenWords::Unmarked,
    ];

    /// 0 for words that are accepted, else the number of their refusal; none where it is as it comes.
    pub fn number(self) -> Option<u8> {
        match self {
            OpenWords::Some | OpenWords::Several | OpenWords::AllButOne => Some(0),
            OpenWords::Last | OpenWords::BesideEmpty | OpenWords::Sixteen => Some(0),
            OpenWords::Only | OpenWords::InOpenAlone => Some(12),
            OpenWords::BelowMark | OpenWords::TooManyRows => Some(8),
            OpenWords::CutBehind => Some(3),
            OpenWords::RowsBehindLast => Some(11),
            OpenWords::RowsBehind | OpenWords::Marked | OpenWords::Unmarked => None,
        }
    }
}

/// Words with this special.
pub fn open_words(random: &mut Random, what: OpenWords) -> Vec<u16> {
    // Not every question can have it.
    loop {
        let mut question = filled_question(random);
        open_some(random, &mut question);
        let changed = change_question(random, &mut question, what);
        if let Some(words) = changed.and_then(|()| changed_words(random, &question, what)) {
            return words;
        }
    }
}

/// Changes the question where this special is one of its tables', if it can have it.
fn change_question(random: &mut Random, question: &mut Question, what: OpenWords) -> Option<()> {
    let n = question.widths.len();
    let last = question.tables.len();
    let attribute = random.below(n);
    match what {
        OpenWords::Last if last < MOST_TABLES => insert_open(random, question, last),
        OpenWords::Last => return None,
        OpenWords::BesideEmpty => {
            let at = pick_table(random, question, |table| !table.is_open())?;
            question.tables[at].contents = Contents::Rows(Vec::new());
        }
        OpenWords::Sixteen => {
            question.tables = vec![Table::with_rows((0..n).collect(), vec![vec![0; n]])];
            while add_open(random, question).is_some() {}
        }
        OpenWords::Only | OpenWords::InOpenAlone => {
            for table in &mut question.tables {
                if what == OpenWords::Only || table.attributes.contains(&attribute) {
                    table.contents = Contents::Open;
                }
            }
        }
        _ => {}
    }
    let open = question.tables.iter().filter(|table| table.is_open());
    let open = open.count();
    let has = match what {
        OpenWords::Several => open >= 2,
        OpenWords::AllButOne => (0..n).any(|a| all_but_one(question, a)),
        OpenWords::InOpenAlone => open < question.tables.len(),
        _ => open >= 1,
    };
    has.then_some(())
}

/// The words of the question, changed where this special is one of theirs, if they can have it.
fn changed_words(random: &mut Random, question: &Question, what: OpenWords) -> Option<Vec<u16>> {
    let mut words = question.words();
    let last = question.tables.len() - 1;
    let any = random.below(last + 1);
    let open = pick_table(random, question, Table::is_open)?;
    match what {
        OpenWords::BelowMark => words[mark(question, any)] = OPEN - 1,
        OpenWords::TooManyRows => words[mark(question, any)] = 4_097,
        OpenWords::CutBehind if open < last => words.truncate(mark(question, open) + 1),
        OpenWords::CutBehind => return None,
        OpenWords::RowsBehind | OpenWords::RowsBehindLast => {
            if (open == last) != (what == OpenWords::RowsBehindLast) {
                return None;
            }
            let behind = mark(question, open) + 1;
            let count = question.tables[open].attributes.len() * random.from_to(1, 3);
            words.splice(behind..behind, (0..count).map(|_| random.below(3) as u16));
        }
        OpenWords::Marked => {
            let filled = pick_table(random, question, |table| !table.is_open())?;
            words[mark(question, filled)] = OPEN;
        }
        OpenWords::Unmarked => {
            let count = random.pick(&[0, 0, 1, 1, 2, 3, 4_096, 4_097]);
            words[mark(question, open)] = count;
        }
        _ => {}
    }
    Some(words)
}

/// One of the tables that are so.
pub(super) fn pick_table(
    random: &mut Random,
    question: &Question,
    so: impl Fn(&Table) -> bool,
) -> Option<usize> {
    let tables = 0..question.tables.len();
    let those: Vec<usize> = tables.filter(|&t| so(&question.tables[t])).collect();
    (!those.is_empty()).then(|| random.pick(&those))
}

/// Are all of the attribute's tables open but one, and these at least two?
pub fn all_but_one(question: &Question, attribute: usize) -> bool {
    let has = |table: &&Table| table.attributes.contains(&attribute);
    let (open, filled): (Vec<&Table>, Vec<&Table>) = question
        .tables
        .iter()
        .filter(has)
        .partition(|table| table.is_open());
    open.len() >= 2 && filled.len() == 1
}

/// The place of the word that says how many rows or pairs the table has, or marks it as open.
pub(super) fn mark(question: &Question, table: usize) -> usize {
    let tables = question.tables[..table].iter();
    let before: usize = tables.map(|table| table.words().len()).sum();
    2 + question.widths.len() + before + 1 + question.tables[table].attributes.len()
}
