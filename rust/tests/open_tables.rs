//! What open tables change. A run knows a table by its gap boxes alone, and an open one has none anywhere: so, by the
//! paper's steps, every entry of the course is the same with an open table more, but for the first origin of a gap
//! box, which is its table's number. This holds of complete runs and of stopped ones, with any room. Questions 8 and 12
//! are what else knows of open tables.

mod common;

use boxjoin::nested::{join_by_rows, most_turns};
use boxjoin::plain::{self, Question, Table, OPEN};
use boxjoin::random::{add_open, all_but_one, filled_question, names, open_some, open_words};
use boxjoin::random::{question, text_of, OpenWords, Random};
use common::{check, compare, renumbered, rooms, see_emptied, small_questions};
use common::{Buffer, Lengths, Tally, Trial, AMPLE, BOXES};

/// The question without its open tables, and what numbers its other tables have.
fn without_open(question: &Question) -> (Question, Vec<u32>) {
    let mut without = question.clone();
    without.tables.retain(|table| !table.is_open());
    let numbers = (0..).zip(&question.tables);
    let filled = numbers.filter(|(_, table)| !table.is_open());
    (without, filled.map(|(number, _)| number).collect())
}

/// Runs the question with its open tables and without, in several rooms, with a scratch too; sees that the runs are
/// the same but for the tables' numbers, and that the listing of a complete one is nested loops' join.
fn compare_without(what: &str, random: &mut Random, question: &Question, tally: &mut Tally) {
    let words = question.words();
    let (without, numbers) = without_open(question);
    let fewer = without.words();
    let ample = plain::run(&fewer, AMPLE.listing, AMPLE.store);
    for lengths in rooms(&ample, AMPLE) {
        let run = compare(what, random, &fewer, lengths);
        let trial = Trial::new(what, &words, lengths);
        trial.compare(random, None);
        let len = random.below(12 * BOXES);
        let mut scratch = Buffer::new(random, len, |r| r as u32);
        trial.compare(random, Some(&mut scratch));
        assert!(trial.run == renumbered(run, &numbers), "{what}: the runs");
        tally.count(trial.run.number);
    }
    if ample.number == 0 && most_turns(&without) <= 1e4 {
        let join = join_by_rows(&without);
        assert_eq!(join, join_by_rows(question), "{what}: nested loops");
        assert_eq!(join.concat(), ample.listing, "{what}: the join");
    }
}

/// Open tables put between the tables of a question, which may have some before.
#[test]
fn open_tables_more() {
    let mut tally = Tally::new();
    let mut added = [0; 5];
    for seed in 0..1_200 {
        let mut random = Random::new(52_000_000 + seed);
        let mut question = question(&mut random);
        let count = random.from_to(1, 4);
        let places: Vec<usize> = (0..count)
            .filter_map(|_| add_open(&mut random, &mut question))
            .collect();
        added[places.len()] += 1;
        let what = format!("open tables more of seed {seed}");
        compare_without(&what, &mut random, &question, &mut tally);
    }
    tally.finish("open tables more", &[0, 13, 14], 500);
    println!("open tables more: by how many, {added:?}");
    assert!(added[1..=4].iter().all(|&count| count >= 200));
}

/// All but one of an attribute's tables are open.
#[test]
fn all_tables_but_one() {
    let mut tally = Tally::new();
    let mut complete = 0;
    for seed in 0..500 {
        let mut random = Random::new(53_000_000 + seed);
        let words = open_words(&mut random, OpenWords::AllButOne);
        let question = plain::read(&words).unwrap();
        let attributes = 0..question.widths.len();
        assert!(attributes.into_iter().any(|a| all_but_one(&question, a)));
        let what = format!("all but one of seed {seed}");
        compare_without(&what, &mut random, &question, &mut tally);
        let run = plain::run(&words, AMPLE.listing, AMPLE.store);
        complete += usize::from(run.number == 0 && run.tuples > 0);
    }
    tally.finish("all but one", &[0, 13, 14], 200);
    println!("all but one: {complete} complete with tuples");
    assert!(complete >= 150);
}

/// Of small questions each with one open table, over all choices of its attributes and at each place.
#[test]
fn every_place() {
    let mut tally = Tally::new();
    let mut random = Random::new(54_000_000);
    small_questions(|question| {
        if question.tables.iter().any(Table::is_open) || !random.one_in(40) {
            return;
        }
        let n = question.widths.len();
        for set in 1..1 << n {
            let attributes: Vec<usize> = (0..n).filter(|a| set >> a & 1 == 1).collect();
            for place in 0..=question.tables.len() {
                let mut with = question.clone();
                with.tables.insert(place, Table::open(attributes.clone()));
                let what = format!("an open table over {attributes:?} at {place}");
                compare_without(&what, &mut random, &with, &mut tally);
            }
        }
    });
    tally.finish("an open table at each place", &[0, 13, 14], 1_000);
}

/// The plain model alone, without the library.
#[test]
fn the_plain_runs_are_the_same() {
    let mut tally = Tally::new();
    for seed in 0..1_500 {
        let mut random = Random::new(55_000_000 + seed);
        let mut question = filled_question(&mut random);
        open_some(&mut random, &mut question);
        let (without, numbers) = without_open(&question);
        let ample = plain::run(&without.words(), AMPLE.listing, AMPLE.store);
        for Lengths { listing, store, .. } in rooms(&ample, AMPLE) {
            let run = plain::run(&question.words(), listing, store);
            let fewer = plain::run(&without.words(), listing, store);
            assert!(run == renumbered(fewer, &numbers), "seed {seed}: the runs");
            tally.count(run.number);
        }
    }
    tally.finish("plain runs with open tables", &[0, 13, 14], 500);
}

/// A table that is filled in restricts: of the tuples listed while it was open, those that have their row in it are
/// listed.
#[test]
fn filling_in() {
    let mut filled_in = 0;
    let mut fewer = 0;
    for seed in 0..4_000 {
        let mut random = Random::new(56_000_000 + seed);
        let mut question = filled_question(&mut random);
        let filled = question.clone();
        open_some(&mut random, &mut question);
        let listed = |question: &Question| {
            let mut listing = vec![0; AMPLE.listing];
            let words = question.words();
            let counts = boxjoin::run(&words, &mut listing, &mut vec![0; 3 * AMPLE.store]);
            let n = question.widths.len();
            let tuples = listing.chunks_exact(n).take(counts.tuples as usize);
            (counts.number == 0).then(|| tuples.map(<[u16]>::to_vec).collect::<Vec<_>>())
        };
        // Only those that were opened, not those that were put between.
        if question.tables.len() != filled.tables.len() {
            continue;
        }
        let (Some(before), Some(after)) = (listed(&question), listed(&filled)) else {
            continue;
        };
        let has = |table: &Table, tuple: &[u16]| {
            let row: Vec<u16> = table.attributes.iter().map(|&a| tuple[a]).collect();
            table.rows().is_some_and(|rows| rows.contains(&row))
        };
        let tables = filled.tables.iter();
        let opened: Vec<&Table> = tables
            .zip(&question.tables)
            .filter_map(|(table, now)| now.is_open().then_some(table))
            .collect();
        let kept = before.iter().filter(|t| opened.iter().all(|o| has(o, t)));
        assert!(kept.eq(&after), "seed {seed}");
        filled_in += 1;
        fewer += usize::from(after.len() < before.len());
    }
    println!("filling in: {filled_in} tried, in {fewer} fewer tuples");
    assert!(filled_in >= 300 && fewer >= 100);
}

/// What is printed for a text is the same with open tables and without.
#[test]
fn texts() {
    let mut complete = 0;
    for seed in 0..300 {
        let mut random = Random::new(57_000_000 + seed);
        let mut question = filled_question(&mut random);
        open_some(&mut random, &mut question);
        let names = names(&mut random, question.widths.len());
        let print = |question: &Question| {
            let text = text_of(&names, question);
            let mut out = vec![0; 200_000];
            let count = boxjoin::list_text(&text, &mut out);
            out.truncate(count);
            let printed = boxjoin::text::print(&text);
            assert!(
                out == printed,
                "seed {seed}: the plain model prints something else"
            );
            String::from_utf8(out).unwrap()
        };
        let (without, _) = without_open(&question);
        let printed = print(&question);
        assert_eq!(printed, print(&without), "seed {seed}");
        complete += usize::from(printed.contains("\ncomplete "));
    }
    println!("texts with open tables and without: {complete} of 300 complete");
    assert!(complete >= 200);
}

/// Question 8 lets the mark pass and no other number above 4,096.
#[test]
fn every_number_of_rows() {
    for m in 0..=u16::MAX {
        // As the last word: the rows are missing.
        let last = match m {
            0 | 65_535 => 0,
            1..=4_096 => 3,
            4_097..=65_534 => 8,
        };
        check("the last word", &[1, 16, 2, 1, 0, 1, 9, 1, 0, m], last);
        check(
            "the only table's",
            &[1, 16, 1, 1, 0, m],
            if m == 65_535 { 12 } else { last },
        );
        // In front of a table with one row, whose words are read as rows where rows are due.
        let front = match m {
            0 | 65_535 => 0,
            // The row 1, and then a table of 0 attributes, or the row 0.
            1 => 6,
            2..=4_096 => 10,
            4_097..=65_534 => 8,
        };
        check("the first table's", &[1, 16, 2, 1, 0, m, 1, 0, 1, 9], front);
    }
    println!("every number of rows: 65,536 tried, three times");
}

/// The numbers that the request names, alone and before one another.
#[test]
fn named_numbers() {
    let cases: &[(&str, &[u16], u8)] = &[
        (
            "an open table beside",
            &[1, 1, 2, 1, 0, OPEN, 1, 0, 1, 0],
            0,
        ),
        ("as the last word", &[1, 1, 2, 1, 0, 1, 0, 1, 0, OPEN], 0),
        ("two", &[1, 1, 3, 1, 0, OPEN, 1, 0, 1, 0, 1, 0, OPEN], 0),
        (
            "over both",
            &[2, 1, 1, 3, 1, 0, 0, 2, 0, 1, OPEN, 1, 1, 0],
            0,
        ),
        (
            "over one of two",
            &[2, 1, 1, 2, 2, 0, 1, 1, 0, 1, 1, 1, OPEN],
            0,
        ),
        ("one less", &[1, 1, 2, 1, 0, 1, 0, 1, 0, OPEN - 1], 8),
        ("one less, alone", &[1, 1, 1, 1, 0, OPEN - 1], 8),
        (
            "one more than rows may be",
            &[1, 1, 2, 1, 0, OPEN, 1, 0, 4_097],
            8,
        ),
        ("only an open one", &[1, 1, 1, 1, 0, OPEN], 12),
        ("only open ones", &[1, 1, 2, 1, 0, OPEN, 1, 0, OPEN], 12),
        (
            "only open ones of two",
            &[2, 1, 1, 2, 1, 0, OPEN, 1, 1, OPEN],
            12,
        ),
        (
            "the first in open ones",
            &[2, 1, 1, 2, 1, 0, OPEN, 1, 1, 0],
            12,
        ),
        (
            "the second in open ones",
            &[2, 1, 1, 2, 1, 0, 0, 2, 0, 1, OPEN],
            12,
        ),
        ("the second in none", &[2, 1, 1, 2, 1, 0, 0, 1, 0, OPEN], 12),
        // 3, 5, 6 and 7 as before; 11 before 12.
        ("the mark is missing", &[1, 1, 1, 1, 0], 3),
        ("a table is missing", &[1, 1, 2, 1, 0, OPEN], 3),
        ("the mark as tables", &[1, 1, OPEN, 1, 0, OPEN], 5),
        ("no attribute", &[1, 1, 1, 0, OPEN], 6),
        ("not below n", &[1, 1, 1, 1, 1, OPEN], 7),
        ("not ascending", &[2, 1, 1, 1, 2, 1, 0, OPEN], 7),
        ("the mark as attribute", &[1, 1, 1, 1, OPEN, OPEN], 7),
        ("a row behind", &[1, 1, 1, 1, 0, OPEN, 0], 11),
        (
            "a row behind, with rows beside",
            &[1, 1, 2, 1, 0, 1, 0, 1, 0, OPEN, 1],
            11,
        ),
        (
            "the mark again",
            &[1, 1, 2, 1, 0, 1, 0, 1, 0, OPEN, OPEN],
            11,
        ),
        ("a row in between", &[1, 1, 2, 1, 0, OPEN, 0, 1, 0, 1, 0], 6),
        // The mark as a value.
        ("as a value", &[1, 16, 1, 1, 0, 1, OPEN], 0),
        ("as a value, too narrow", &[1, 15, 1, 1, 0, 1, OPEN], 9),
    ];
    let mut tally = Tally::new();
    for (what, words, number) in cases {
        check(what, words, *number);
        let run = compare(what, &mut Random::new(1), words, AMPLE);
        assert_eq!(run.number, *number, "{what}");
        tally.count(run.number);
    }
    tally.finish("named numbers", &[0, 3, 5, 6, 7, 8, 9, 11, 12], 1);
}

/// A table without rows empties the join, wherever open ones are.
#[test]
fn a_table_without_rows() {
    let mut tally = Tally::new();
    for seed in 0..1_000 {
        let mut random = Random::new(58_000_000 + seed);
        let words = open_words(&mut random, OpenWords::BesideEmpty);
        let what = format!("a table without rows, seed {seed}");
        let run = compare(&what, &mut random, &words, AMPLE);
        see_emptied(&what, &run);
        tally.count(run.number);
    }
    tally.finish("tables without rows beside open ones", &[0], 1_000);
}
