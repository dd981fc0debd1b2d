//! Checks and runs of very many questions: the library against the plain model, word for word.

mod common;

use boxjoin::plain::{self, Question, Table, MOST_ATTRIBUTES, OPEN, RANGE, RECORD, REFUSALS};
use boxjoin::random::{add_open, any_words, damaged, long_question, open_words, question};
use boxjoin::random::{range_words, OpenWords, Random, RangeWords};
use common::{compare, every_room, largest_store, listing_lengths, show, small_questions};
use common::{store_lengths, Lengths, Opens, Ranges, Tally, AMPLE, BOXES, COUNTS, STORES};

fn check(what: &str, words: &[u16]) -> u8 {
    let expected = plain::read(words).err().unwrap_or(0);
    let number = boxjoin::check_question(words);
    if number != expected {
        panic!(
            "{what}: check says {number}, not {expected}\nquestion {}",
            show(words)
        );
    }
    number
}

/// Runs an accepted question with buffers of many lengths.
fn run_many(what: &str, random: &mut Random, words: &[u16], times: usize, tally: &mut Tally) {
    let n = words[0] as usize;
    // With room for all, or nearly.
    let long = compare(what, random, words, AMPLE);
    tally.count(long.number);
    let listings = listing_lengths(n, long.listing.len());
    let stores = store_lengths(long.store.len());
    for _ in 0..times {
        let listing = if random.one_in(3) {
            AMPLE.listing
        } else {
            random.pick(&listings)
        };
        let store = match random.below(4) {
            0 => AMPLE.store,
            1 => random.below(AMPLE.store),
            _ => random.pick(&stores),
        };
        let lengths = Lengths {
            listing,
            store,
            counts: random.pick(&COUNTS),
        };
        tally.count(compare(what, random, words, lengths).number);
    }
}

#[test]
fn random_questions() {
    let mut tally = Tally::new();
    let (mut opens, mut ranges) = (Opens::new(), Ranges::new());
    for seed in 0..12_000 {
        let mut random = Random::new(seed);
        let question = question(&mut random);
        let words = any_words(&mut random, &question);
        let what = format!("question of seed {seed}");
        assert_eq!(check(&what, &words), 0, "{what}");
        opens.count(&question);
        ranges.count(&question);
        run_many(&what, &mut random, &words, 8, &mut tally);
    }
    tally.finish("runs of random questions", &[0, 13, 14], 10_000);
    opens.finish("runs of random questions", 500, 200);
    ranges.finish("runs of random questions", 300, 200);
    assert!(ranges.many >= 50);
}

/// Each way in which words with open tables are accepted or refused.
#[test]
fn open_tables() {
    let mut tally = Tally::new();
    for (kind, &case) in OpenWords::ALL.iter().enumerate() {
        let mut checks = Tally::new();
        for seed in 0..800 {
            let mut random = Random::new(50_000_000 + 1_000 * kind as u64 + seed);
            let words = open_words(&mut random, case);
            let what = format!("{case:?} of seed {seed}");
            let number = check(&what, &words);
            checks.count(number);
            if let Some(due) = case.number() {
                assert_eq!(number, due, "the plain model on {what}");
            }
            let lengths = Lengths {
                listing: random.pick(&[0, 7, 40, 900]),
                store: random.pick(&[0, RECORD, 20 * RECORD + 3, BOXES * RECORD]),
                counts: random.pick(&COUNTS),
            };
            let run = compare(&what, &mut random, &words, lengths);
            tally.count(run.number);
            if case == OpenWords::BesideEmpty {
                assert_eq!(
                    run.tuples, 0,
                    "{what}: a table without rows empties the join"
                );
            }
        }
        let numbers: &[usize] = match case {
            OpenWords::RowsBehind => &[6, 7, 9, 10, 11],
            OpenWords::Marked => &[6, 7, 11, 12],
            OpenWords::Unmarked => &[0, 3, 8, 9, 10],
            _ => &[],
        };
        checks.finish(&format!("words with open tables, {case:?}"), numbers, 10);
    }
    tally.finish(
        "runs of words with open tables",
        &[0, 3, 8, 11, 12, 13, 14],
        300,
    );
}

/// Each way in which words with range tables are accepted or refused.
#[test]
fn range_tables() {
    let (mut all, mut tally) = (Tally::new(), Tally::new());
    let mut ranges = Ranges::new();
    for (kind, &case) in RangeWords::ALL.iter().enumerate() {
        let mut checks = Tally::new();
        // These are long.
        for seed in 0..if case == RangeWords::Most { 100 } else { 600 } {
            let mut random = Random::new(60_000_000 + 1_000 * kind as u64 + seed);
            let words = range_words(&mut random, case);
            let what = format!("{case:?} of seed {seed}");
            let number = check(&what, &words);
            checks.count(number);
            all.count(number);
            if let Some(due) = case.number() {
                assert_eq!(number, due, "the plain model on {what}");
            }
            if let Ok(question) = plain::read(&words) {
                ranges.count(&question);
            }
            let lengths = Lengths {
                listing: random.pick(&[0, 7, 40, 900]),
                store: random.pick(&[0, RECORD, 20 * RECORD + 3, BOXES * RECORD]),
                counts: random.pick(&COUNTS),
            };
            let run = compare(&what, &mut random, &words, lengths);
            tally.count(run.number);
            if case == RangeWords::NoPairs {
                assert_eq!(run.tuples, 0, "{what}: no pairs empty the join");
            }
        }
        let numbers: &[usize] = match case {
            RangeWords::OpenBefore => &[0, 6, 7, 9],
            RangeWords::Marked => &[0, 3, 6, 7, 9, 10, 11, 28],
            RangeWords::Unmarked => &[0, 6, 7, 10, 11],
            RangeWords::AsValue => &[0, 9, 10, 28],
            _ => &[],
        };
        checks.finish(&format!("words with range tables, {case:?}"), numbers, 5);
    }
    all.finish(
        "words with range tables",
        &[3, 6, 7, 8, 9, 10, 11, 12, 28],
        600,
    );
    tally.finish(
        "runs of words with range tables",
        &[0, 3, 6, 7, 8, 9, 10, 11, 12, 13, 14, 28],
        500,
    );
    ranges.finish("words with range tables that are accepted", 500, 500);
}

#[test]
fn damaged_questions() {
    let mut checks = Tally::new();
    let mut runs = Tally::new();
    let (mut opens, mut ranges) = (Opens::new(), Ranges::new());
    for seed in 0..120_000 {
        let mut random = Random::new(seed);
        let words = damaged(&mut random);
        let what = format!("damaged question of seed {seed}");
        let number = check(&what, &words);
        checks.count(number);
        if let Ok(question) = plain::read(&words) {
            opens.count(&question);
            ranges.count(&question);
        }
        let lengths = Lengths {
            listing: random.pick(&[0, 1, 2, 7, 40]),
            store: random.pick(&STORES),
            counts: random.pick(&COUNTS),
        };
        runs.count(compare(&what, &mut random, &words, lengths).number);
    }
    let refusals = REFUSALS.map(usize::from);
    checks.finish("checks of damaged questions", &refusals, 700);
    checks.had("checks of damaged questions", &[0], 10_000);
    runs.finish("runs of damaged questions", &refusals, 700);
    runs.had("runs of damaged questions", &[0, 13, 14], 1_000);
    opens.finish("damaged questions that are accepted", 500, 300);
    ranges.finish("damaged questions that are accepted", 200, 200);
}

/// All lists of up to 9 words below 3, of up to 7 below 4, and of up to 7 of which some are the mark of an open table
/// and of a range table or one less, behind each of ten fronts.
#[test]
fn every_short_question() {
    let mut tally = Tally::new();
    let (mut opens, mut ranges) = (Opens::new(), Ranges::new());
    let kinds: [(&[u16], u32); 4] = [
        (&[0, 1, 2], 9),
        (&[0, 1, 2, 3], 7),
        (&[0, 1, 2, OPEN], 7),
        (&[0, 1, OPEN - 1, OPEN], 7),
    ];
    let fronts: [&[u16]; 10] = [
        &[],
        &[1],
        &[1, 2],
        &[1, 1, 1],
        &[2, 1, 1],
        &[2, 1, 2, 1, 2],
        &[1, 1, 2, 1, 0],
        &[1, 1, 3, 1, 0, OPEN],
        &[1, 2, 1, RANGE, 0],
        &[1, 2, 2, RANGE, 0],
    ];
    for front in fronts {
        for (of, longest) in kinds {
            for length in 0..=longest {
                for number in 0..of.len().pow(length) {
                    let mut words = front.to_vec();
                    let mut rest = number;
                    for _ in 0..length {
                        words.push(of[rest % of.len()]);
                        rest /= of.len();
                    }
                    tally.count(check("a short question", &words));
                    if let Ok(question) = plain::read(&words) {
                        opens.count(&question);
                        ranges.count(&question);
                    }
                }
            }
        }
    }
    let outcomes = [0, 2, 3, 4, 5, 6, 7, 8, 9, 10, 11, 12, 28];
    tally.finish("checks of all short questions", &outcomes, 100);
    opens.finish("all short questions that are accepted", 10, 5);
    ranges.finish("all short questions that are accepted", 10, 50);
}

/// All questions of a few shapes, each with every room up to what it needs.
#[test]
fn every_small_question() {
    let mut tally = Tally::new();
    let (mut opens, mut ranges) = (Opens::new(), Ranges::new());
    let mut random = Random::new(1);
    small_questions(|question| {
        opens.count(question);
        ranges.count(question);
        let words = any_words(&mut random, question);
        for lengths in every_room(&mut random, question) {
            let run = compare("a small question", &mut random, &words, lengths);
            tally.count(run.number);
        }
    });
    tally.finish("runs of all small questions", &[0, 13, 14], 10_000);
    opens.finish("all small questions", 10, 50);
    ranges.finish("all small questions", 300, 500);
}

/// Questions at the limits: 32,000 words and one more, 4,096 rows and one more, 16 tables, as many
/// attributes as there may be.
#[test]
fn long_questions() {
    let mut tally = Tally::new();
    let mut opens = 0;
    for seed in 0..40 {
        let mut random = Random::new(seed);
        let length = random.pick(&[28_000, 31_999, 32_000, 32_000, 32_001, 32_050]);
        // An open table of the one attribute has three words.
        let open = random.pick(&[0, 0, 1, 2]);
        let mut question = long_question(&mut random, length - 3 * open);
        let what = format!("long question of seed {seed}");
        let filled = random.below(question.tables.len());
        if random.one_in(4) {
            // One row more than a table may have.
            let rows = question.tables[filled].rows_mut().expect("rows");
            rows.truncate(2_000);
            for value in 0.. {
                if rows.len() == 4_097 {
                    break;
                }
                if !rows.contains(&vec![value]) {
                    rows.push(vec![value]);
                }
            }
            rows.sort();
        }
        for _ in 0..open {
            add_open(&mut random, &mut question);
        }
        opens += open;
        let words = question.words();
        tally.count(check(&what, &words));
        let lengths = Lengths {
            listing: random.pick(&[0, 3, 40]),
            store: random.pick(&[0, RECORD, 500, 3_000]),
            counts: 3,
        };
        tally.count(compare(&what, &mut random, &words, lengths).number);
    }
    for rows in [4_095, 4_096, 4_097] {
        let many = (0..rows).map(|r| vec![0, 1, 2, 3, 4, r, 5]).collect();
        let table = Table::with_rows((0..7).collect(), many);
        // The first ones have an attribute each; of the others every other one is open.
        let one = |nth: usize| {
            let attributes = vec![7 + nth % (MOST_ATTRIBUTES - 7)];
            if nth >= MOST_ATTRIBUTES - 7 && nth.is_multiple_of(2) {
                Table::open(attributes)
            } else {
                Table::with_rows(attributes, vec![vec![0], vec![65_535]])
            }
        };
        let mut question = Question {
            widths: vec![16; MOST_ATTRIBUTES],
            tables: (0..15).map(one).collect(),
        };
        question.tables.push(table);
        let words = question.words();
        let expected = if rows == 4_097 { 8 } else { 0 };
        assert_eq!(check("wide question", &words), expected);
        let lengths = Lengths {
            listing: 30_000,
            store: 5_000,
            counts: 3,
        };
        let run = compare("wide question", &mut Random::new(0), &words, lengths);
        tally.count(run.number);
    }
    tally.finish("long questions", &[0, 1, 8], 3);
    println!("long questions: {opens} open tables");
    assert!(opens >= 15);
}

/// A store never holds more than 65,536 boxes, however long it is. This takes minutes:
/// `cargo test --release --offline --test questions -- --ignored --nocapture`.
#[test]
#[ignore = "takes minutes"]
fn the_largest_store() {
    let (words, lengths) = largest_store();
    let run = compare("the largest store", &mut Random::new(0), &words, lengths);
    assert_eq!((run.number, run.boxes), (14, 65_536));
    println!("the largest store: stops with 14 at 65,536 boxes");
}
