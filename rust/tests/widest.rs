//! Questions and texts of many attributes: as many as there may be, and one more.

mod common;

use boxjoin::nested::{join_by_rows, most_turns};
use boxjoin::plain::{self, Question, Table, MOST_ATTRIBUTES, OPEN, RANGE, RECORD};
use boxjoin::random::{names, open_some, range_some, text_of, with_tables, Random};
use boxjoin::{MAX_ATTRIBUTES, OPEN_MARK, RANGE_MARK, RECORD_WORDS};
use common::{compare, Lengths, Opens, Ranges, Tally};

/// Room for every run that is looked at here.
const AMPLE: Lengths = Lengths {
    listing: MOST_ATTRIBUTES * 200,
    store: RECORD * 200,
    counts: 3,
};

/// A question of so many attributes: one table over all, a chain of pairs, a table for each attribute, or some
/// that overlap; one in three has open tables.
fn wide(random: &mut Random, n: usize) -> Question {
    let tables = match random.below(4) {
        0 => vec![(0..n).collect()],
        1 => (1..n).map(|a| vec![a - 1, a]).collect(),
        2 => (0..n).map(|a| vec![a]).collect(),
        _ => {
            let cut = random.from_to(1, n - 1);
            let shared = random.below(cut + 1);
            vec![(0..cut).collect(), (shared..n).collect(), vec![n - 1]]
        }
    };
    let mut question = with_tables(random, n, tables);
    if random.one_in(3) {
        open_some(random, &mut question);
    }
    question
}

/// Few enough rows for nested loops.
fn is_small(question: &Question) -> bool {
    most_turns(question) <= 1e5
}

/// With just enough room a run is complete; with a word less of either, which is all but a word of the last tuple's
/// or record's, it is stopped; and what is one word short of a further tuple and a further record changes nothing.
#[test]
fn exact_rooms() {
    let mut tally = Tally::new();
    let mut complete = [0; MOST_ATTRIBUTES + 1];
    let (mut opens, mut ranges) = (Opens::new(), Ranges::new());
    for seed in 0..4_000 {
        let mut random = Random::new(30_000_000 + seed);
        let n = random.from_to(9, MOST_ATTRIBUTES);
        let mut question = wide(&mut random, n);
        if random.one_in(3) {
            range_some(&mut random, &mut question);
        }
        if !is_small(&question) {
            continue;
        }
        let words = question.words();
        let run = plain::run(&words, AMPLE.listing, AMPLE.store);
        if run.number != 0 || run.tuples == 0 {
            continue;
        }
        complete[n] += 1;
        opens.count(&question);
        ranges.count(&question);
        assert_eq!(run.listing, join_by_rows(&question).concat(), "seed {seed}");
        let exact = Lengths {
            listing: run.listing.len(),
            store: run.store.len(),
            counts: 3,
        };
        assert_eq!(exact.store, run.boxes as usize * 15, "seed {seed}");
        let what = format!("{n} attributes of seed {seed}");
        let mut with = |number: u8, listing: usize, store: usize| {
            let lengths = Lengths {
                listing,
                store,
                counts: 3,
            };
            let run = compare(&what, &mut random, &words, lengths);
            assert_eq!(run.number, number, "{what}");
            tally.count(number);
        };
        with(0, exact.listing, exact.store);
        with(0, exact.listing + n - 1, exact.store + RECORD - 1);
        with(13, exact.listing - 1, exact.store);
        with(14, exact.listing, exact.store - 1);
    }
    tally.finish("exact rooms of many attributes", &[0, 13, 14], 300);
    println!("exact rooms of many attributes: {complete:?} complete");
    assert!(complete[9..].iter().all(|&count| count > 50));
    opens.finish("exact rooms of many attributes", 30, 0);
    ranges.finish("exact rooms of many attributes", 10, 0);
}

/// One attribute more than there may be is refused with 2, whatever follows, and nothing is changed.
#[test]
fn one_attribute_more() {
    let mut tally = Tally::new();
    for seed in 0..500 {
        let mut random = Random::new(31_000_000 + seed);
        let mut question = wide(&mut random, MOST_ATTRIBUTES);
        assert_eq!(boxjoin::check_question(&question.words()), 0);
        question.widths.push(random.from_to(1, 16) as u32);
        if random.one_in(2) {
            let attributes = vec![MOST_ATTRIBUTES];
            question
                .tables
                .push(Table::with_rows(attributes, vec![vec![0]]));
        }
        let mut words = question.words();
        if random.one_in(3) {
            words.truncate(random.from_to(1, words.len()));
        }
        let what = format!("one attribute more, seed {seed}");
        assert_eq!(boxjoin::check_question(&words), 2, "{what}");
        tally.count(compare(&what, &mut random, &words, AMPLE).number);
    }
    tally.finish("one attribute more", &[2], 500);
}

/// What is printed for the text of a question with as many attributes as there may be is nested loops' join; with
/// one name more it is refused.
#[test]
fn texts() {
    let mut complete = 0;
    for seed in 0..400 {
        let mut random = Random::new(32_000_000 + seed);
        let question = wide(&mut random, MOST_ATTRIBUTES);
        let mut names = names(&mut random, MOST_ATTRIBUTES + 1);
        let more = names.pop().unwrap();
        let print = |text: &str| {
            let mut out = vec![0; 200_000];
            let count = boxjoin::list_text(text.as_bytes(), &mut out);
            out.truncate(count);
            assert!(
                out == boxjoin::text::print(text.as_bytes()),
                "seed {seed}: the plain model prints something else"
            );
            String::from_utf8(out).unwrap()
        };
        let text = String::from_utf8(text_of(&names, &question)).unwrap();
        let printed = print(&text);
        let lines: Vec<&str> = printed.lines().collect();
        let (last, listed) = lines.split_last().unwrap();
        if last.starts_with("complete ") && is_small(&question) {
            complete += 1;
            let tuples = join_by_rows(&question);
            let mut due = vec![names.join(" ")];
            due.extend(tuples.iter().map(|tuple| {
                let values: Vec<String> = tuple.iter().map(|v| v.to_string()).collect();
                values.join(" ")
            }));
            assert_eq!(listed, due, "seed {seed}");
            assert!(last.starts_with(&format!("complete {} ", tuples.len())));
        }
        let longer = names.join(" ") + " " + &more + text.strip_prefix(&names.join(" ")).unwrap();
        assert_eq!(print(&longer), "refused 15\n", "seed {seed}");
    }
    println!("texts of many attributes: {complete} of 400 complete");
    assert!(complete > 150);
}

/// What callers in C and in Rust compute with is what the library has.
#[test]
fn told_limits() {
    let most = MAX_ATTRIBUTES as u16;
    assert_eq!(boxjoin::check_question(&[most]), 3);
    assert_eq!(boxjoin::check_question(&[most + 1]), 2);
    // Three boxes: two tuples, and the whole space.
    let question = [1, 1, 1, 1, 0, 2, 0, 1];
    let run = |words: usize| boxjoin::run(&question, &mut [0; 2], &mut vec![0; words]);
    assert_eq!(run(3 * RECORD_WORDS).number, 0);
    assert_eq!(run(3 * RECORD_WORDS - 1).number, 14);
    // An attribute in a table with one row, and in an open one or in one of so many rows.
    let with_open = |m: u16| boxjoin::check_question(&[1, 1, 2, 1, 0, 1, 0, 1, 0, m]);
    assert_eq!((with_open(OPEN_MARK), with_open(OPEN_MARK - 1)), (0, 8));
    // An attribute in a range table with one pair, or in a table of so many attributes.
    let with_range = |k: u16| boxjoin::check_question(&[1, 1, 1, k, 0, 1, 0, 1]);
    assert_eq!((with_range(RANGE_MARK), with_range(RANGE_MARK - 1)), (0, 6));
    assert_eq!((MAX_ATTRIBUTES, RECORD_WORDS), (MOST_ATTRIBUTES, RECORD));
    assert_eq!((OPEN_MARK, RANGE_MARK), (OPEN, RANGE));
    let header = include_str!("../../include/boxjoin.h");
    let defined = |name: &str| {
        let line = format!("#define {name} ");
        header.lines().find_map(|of| of.strip_prefix(&line))
    };
    assert_eq!(
        defined("BOXJOIN_MAX_ATTRIBUTES").unwrap(),
        MAX_ATTRIBUTES.to_string()
    );
    assert_eq!(
        defined("BOXJOIN_RECORD_WORDS").unwrap(),
        "(BOXJOIN_MAX_ATTRIBUTES + 3)"
    );
    assert_eq!(defined("BOXJOIN_OPEN_MARK").unwrap(), OPEN_MARK.to_string());
    assert_eq!(
        defined("BOXJOIN_RANGE_MARK").expect("BOXJOIN_RANGE_MARK in the header"),
        RANGE_MARK.to_string()
    );
}
