//! Texts of questions with open tables, and the ways in which the line `open` is right or wrong.

use super::open_tables::{insert_open, pick_table, MOST_TABLES};
use super::texts::{join_lines, lines, names};
use super::{add_open, filled_question, open_some, Random};
use crate::plain::{Contents, Question, Table};

/// What is special in a text with an open table.
#[derive(Clone, Copy, Debug, PartialEq, Eq)]
pub enum OpenText {
    // Good.
    Good,
    /// An attribute has the name `open`, and the names line `open` stands above the line `open`.
    Named,
    /// As many tables as there may be.
    Sixteen,
    // Good but for their question.
    OnlyOpen,
    InOpenAlone,
    // The line `open` where it may not stand.
    Twice,
    BehindRow,
    BeforeRows,
    RowBehind,
    AtStart,
    AsWidths,
    NoEmptyLine,
    // A line that is not quite `open`.
    SpaceBefore,
    SpaceBehind,
    Beside,
    Capitals,
    Near,
    Unended,
    // The lines around it.
    NothingBehindEmpty,
    Seventeen,
    FormOfNames,
    NameUnknown,
    NameTwice,
    // The line `open` as a line of names.
    AsNames,
    BehindEmpty,
}

impl OpenText {
    pub const ALL: [OpenText; 25] = [
        OpenText::Good,
        OpenText::Named,
        OpenText::Sixteen,
        OpenText::OnlyOpen,
        OpenText::InOpenAlone,
        OpenText::Twice,
        OpenText::BehindRow,
        OpenText::BeforeRows,
        OpenText::RowBehind,
        OpenText::AtStart,
        OpenText::AsWidths,
        OpenText::NoEmptyLine,
        OpenText::SpaceBefore,
        OpenText::SpaceBehind,
        OpenText::Beside,
        OpenText::Capitals,
        OpenText::Near,
        OpenText::Unended,
        OpenText::NothingBehindEmpty,
        OpenText::Seventeen,
        OpenText::FormOfNames,
        OpenText::NameUnknown,
        OpenText::NameTwice,
        OpenText::AsNames,
        OpenText::BehindEmpty,
    ];

    /// The number of the refusal; 0 where there is none.
    pub fn number(self) -> u8 {
        match self {
            OpenText::Good | OpenText::Named | OpenText::Sixteen => 0,
            OpenText::OnlyOpen | OpenText::InOpenAlone => 12,
            OpenText::Twice | OpenText::BehindRow | OpenText::BeforeRows => 15,
            OpenText::RowBehind | OpenText::AtStart | OpenText::AsWidths => 15,
            OpenText::NoEmptyLine | OpenText::SpaceBefore | OpenText::SpaceBehind => 15,
            OpenText::Beside | OpenText::Capitals | OpenText::Near => 15,
            OpenText::Unended | OpenText::NothingBehindEmpty | OpenText::Seventeen => 15,
            OpenText::FormOfNames => 15,
            OpenText::NameUnknown | OpenText::NameTwice => 16,
            OpenText::AsNames | OpenText::BehindEmpty => 16,
        }
    }
}

/// A text with this special.
pub fn open_text(random: &mut Random, what: OpenText) -> Vec<u8> {
    // Not every question can have it.
    loop {
        let mut question = filled_question(random);
        open_some(random, &mut question);
        if let Some(text) = special(random, question, what) {
            return text;
        }
    }
}

/// The text of the question, changed so that it has this special, if it can.
fn special(random: &mut Random, mut question: Question, what: OpenText) -> Option<Vec<u8>> {
    let n = question.widths.len();
    let mut names = names(random, n);
    if names.iter().any(|name| name == "open") {
        return None;
    }
    change_question(random, &mut question, &mut names, what)?;
    let mut lines = lines(&names, &question);
    let below = below_names(&question);
    // The line `open` of an open table.
    let open = below[pick_table(random, &question, Table::is_open)?];
    let is_last = open + 1 == lines.len();
    let says = |line: &str| vec![line.to_string()];
    match what {
        OpenText::Good | OpenText::Named | OpenText::Sixteen | OpenText::Seventeen => {}
        OpenText::OnlyOpen | OpenText::InOpenAlone => {}
        OpenText::Twice => lines.insert(open, says("open")),
        OpenText::BehindRow | OpenText::BeforeRows => {
            let has_rows = |table: &Table| table.rows().is_some_and(|rows| !rows.is_empty());
            let table = pick_table(random, &question, has_rows)?;
            let rows = question.tables[table].rows()?.len();
            let behind = match what {
                OpenText::BehindRow => random.from_to(1, rows),
                _ => 0,
            };
            lines.insert(below[table] + behind, says("open"));
        }
        OpenText::RowBehind => {
            let row = vec!["0".to_string(); lines[open - 1].len()];
            lines.insert(open + 1, row);
        }
        OpenText::AtStart => lines.insert(0, says("open")),
        OpenText::AsWidths => {
            if random.one_in(2) {
                lines[1] = says("open");
            } else {
                lines[1][random.below(n)] = "open".to_string();
            }
        }
        OpenText::NoEmptyLine => lines.insert(2, says("open")),
        OpenText::SpaceBefore => lines[open].insert(0, String::new()),
        OpenText::SpaceBehind => lines[open].push(String::new()),
        OpenText::Beside => {
            let more = random.pick(&["open", "0", "1", "65535", "a", "opens"]);
            lines[open].insert(random.below(2), more.to_string());
        }
        OpenText::Capitals => lines[open] = says(random.pick(&["Open", "OPEN", "oPen", "opeN"])),
        OpenText::Near => {
            let near = random.pick(&[
                "o", "op", "ope", "pen", "opem", "opfn", "ppen", "npen", "opens", "oopen", "openn",
                "openopen", "open0", "0open", "0pen", "closed", "open\r", "open\t", "open\0",
            ]);
            lines[open] = says(near);
        }
        OpenText::Unended if is_last => {
            let mut text = join_lines(&lines);
            text.pop();
            return Some(text);
        }
        OpenText::NothingBehindEmpty if is_last => lines.push(Vec::new()),
        OpenText::Unended | OpenText::NothingBehindEmpty => return None,
        OpenText::FormOfNames => {
            let wrong = random.pick(&["A", "1", "", "abcdefghijklm"]);
            let place = random.below(lines[open - 1].len());
            lines[open - 1][place] = wrong.to_string();
        }
        OpenText::NameUnknown => {
            let place = random.below(lines[open - 1].len());
            lines[open - 1][place] = "unknown".to_string();
        }
        OpenText::NameTwice => {
            // Of one attribute two names are too many.
            if n < 2 {
                return None;
            }
            let name = lines[open - 1][0].clone();
            lines[open - 1] = vec![name; 2];
        }
        OpenText::AsNames => lines[open - 1] = says("open"),
        OpenText::BehindEmpty => {
            // With as many tables as there may be, the empty line is one too many.
            if question.tables.len() == MOST_TABLES {
                return None;
            }
            lines.insert(open, Vec::new());
        }
    }
    Some(join_lines(&lines))
}

/// Changes the question and the names where this special is one of theirs, if they can have it.
fn change_question(
    random: &mut Random,
    question: &mut Question,
    names: &mut [String],
    what: OpenText,
) -> Option<()> {
    let attribute = random.below(names.len());
    match what {
        OpenText::Named => {
            names[attribute] = "open".to_string();
            let at = add_open(random, question)?;
            question.tables[at].attributes = vec![attribute];
        }
        OpenText::Sixteen => while add_open(random, question).is_some() {},
        OpenText::Seventeen => {
            while add_open(random, question).is_some() {}
            let at = random.below(MOST_TABLES + 1);
            insert_open(random, question, at);
        }
        OpenText::OnlyOpen | OpenText::InOpenAlone => {
            for table in &mut question.tables {
                if what == OpenText::OnlyOpen || table.attributes.contains(&attribute) {
                    table.contents = Contents::Open;
                }
            }
        }
        _ => {}
    }
    Some(())
}

/// For each table the number of the line below its names.
fn below_names(question: &Question) -> Vec<usize> {
    let mut below = Vec::new();
    let mut at = 2;
    for table in &question.tables {
        at += 2;
        below.push(at);
        // The rows, or the line `open`.
        at += table.rows().map_or(1, Vec::len);
    }
    below
}
