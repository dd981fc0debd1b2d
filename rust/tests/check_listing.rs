//! The check of a listing and its records, on what runs leave: every complete run is accepted, no stopped one is, and a
//! refused question's number is answered whatever the listing and the records are. The plain check is asked beside it.

mod common;

use boxjoin::plain::{self, course, top, Entry, Question, Table, Tree, MOST_BOXES, RECORD};
use boxjoin::plain::{CHECK_FAILS, GAP, MOST_ATTRIBUTES, REFUSALS, RESOLVENT, TUPLE};
use boxjoin::random::{any_words, cables, call_log, columns, connected_call_log, damaged};
use boxjoin::random::{open_some, question, range_some, triangle, wide_call_log, with_tables};
use boxjoin::random::{open_words, range_words, OpenWords, Random, RangeWords};
use common::certificates::{agreed, record, run, Asked, Certificate};
use common::{largest_store, rooms, Lengths, Opens, Ranges, Tally, AMPLE};

/// The paper's questions K1, K5 and K6 with their records, and its sample text with those that the widest witness leaves.
#[test]
fn of_the_paper() {
    let mut random = Random::new(80_000_000);
    let mut accepted = |words: &[u16], listing: &[u16], records: &[&[u32]]| {
        let certificate = Certificate::of(listing, records);
        let number = Asked::of(words).check("of the paper", &mut random, &certificate);
        assert_eq!(number, 0, "{words:?}");
    };
    let k1 = [1, 2, 2, 1, 0, 2, 1, 3, 1, 0, 2, 1, 2];
    let records: [&[u32]; 7] = [
        &[4, GAP, 0, 0],
        &[5, TUPLE, 0, 0],
        &[2, RESOLVENT, 0, 1],
        &[6, GAP, 0, 0],
        &[7, GAP, 1, 0],
        &[3, RESOLVENT, 3, 4],
        &[1, RESOLVENT, 2, 5],
    ];
    accepted(&k1, &[1], &records);
    let k5 = [1, 2, 2, 1, 0, 0, 1, 0, 1, 0];
    accepted(&k5, &[], &[&[1, GAP, 0, 0]]);
    let k6 = [1, 1, 1, 1, 0, 2, 0, 1];
    let records: [&[u32]; 3] = [&[2, TUPLE, 0, 0], &[3, TUPLE, 1, 0], &[1, RESOLVENT, 0, 1]];
    accepted(&k6, &[0, 1], &records);
    let sample = [2, 1, 1, 2, 2, 0, 1, 2, 0, 1, 1, 0, 1, 1, 1, 1];
    let records: [&[u32]; 7] = [
        &[2, 2, GAP, 0, 0],
        &[1, 2, GAP, 1, 0],
        &[2, 3, TUPLE, 0, 0],
        &[2, 1, RESOLVENT, 1, 2],
        &[3, 3, GAP, 0, 0],
        &[3, 1, RESOLVENT, 1, 4],
        &[1, 1, RESOLVENT, 3, 5],
    ];
    accepted(&sample, &[0, 1], &records);
}

/// Any question; one in four is over nine attributes or more.
fn any_question(random: &mut Random) -> Question {
    if !random.one_in(4) {
        return question(random);
    }
    let n = random.from_to(9, MOST_ATTRIBUTES);
    let cut = random.from_to(1, n - 1);
    let shared = random.below(cut + 1);
    let mut question = with_tables(random, n, vec![(0..cut).collect(), (shared..n).collect()]);
    if random.one_in(3) {
        range_some(random, &mut question);
    }
    if random.one_in(3) {
        open_some(random, &mut question);
    }
    question
}

/// In several rooms, with several scratches: a complete run is accepted, one that is stopped is not, since its last record
/// isn't the whole space. Nor is a whole store in place of the records that the counts name.
#[test]
fn runs() {
    let (mut numbers, mut uncut) = (Tally::new(), Tally::new());
    let (mut opens, mut ranges) = (Opens::new(), Ranges::new());
    let mut complete = [0; MOST_ATTRIBUTES + 1];
    let mut joins = 0;
    for seed in 0..2_000 {
        let mut random = Random::new(81_000_000 + seed);
        let question = any_question(&mut random);
        let words = any_words(&mut random, &question);
        let asked = Asked::new(question, words);
        let ample = plain::run(&asked.words, AMPLE.listing, AMPLE.store);
        // The plain check takes its time with wide pairs, and so isn't asked in every room.
        let beside = random.pick(&[2, 3]);
        for (nth, &room) in rooms(&ample, AMPLE).iter().enumerate() {
            let plain_run = plain::run(&asked.words, room.listing, room.store);
            let complete = plain_run.number == 0;
            let due = if complete { 0 } else { CHECK_FAILS };
            let what = format!("run of seed {seed} in room {nth}");
            if nth == 0 || nth == beside {
                let number = asked.check(&what, &mut random, &Certificate::left(&plain_run));
                assert_eq!(number, due, "{what}, by the plain steps");
            }
            let small = random.below(200);
            let scratch = random.pick(&[0, small, small, 20_000]);
            for scratch in [None, Some(scratch)] {
                let (ending, left) = run(&asked.words, room, scratch);
                assert_eq!(ending, plain_run.number, "{what}, {scratch:?}");
                let number = boxjoin::check_listing(&asked.words, &left.listing, &left.records);
                assert_eq!(number, due, "{what}, {scratch:?}");
                asked.see(&what, number, &left);
                numbers.count(ending);
            }
        }
        if ample.number == 0 {
            complete[asked.n()] += 1;
            opens.count(&asked.question);
            ranges.count(&asked.question);
            joins += usize::from(asked.join.is_some());
            let mut whole = Certificate::left(&ample);
            whole.records.resize(AMPLE.store, 0);
            if ample.store.len() < AMPLE.store {
                asked.count("a whole store", &mut random, &whole, &mut uncut);
            }
        }
    }
    numbers.finish("runs that are checked", &[0, 13, 14], 1_000);
    uncut.finish("whole stores", &[22], 1_000);
    println!("runs that are checked: complete by attributes {complete:?}, {joins} with the join by nested loops");
    assert!(complete[1..].iter().all(|&count| count >= 15) && joins >= 1_000);
    assert!(complete[9..].iter().sum::<usize>() >= 200);
    opens.finish("runs that are checked", 100, 10);
    ranges.finish("runs that are checked", 40, 20);
}

/// Thousands of boxes, as the benchmark has them: accepted, also without a scratch. Without one of the tuples, and with
/// words changed here and there, it is as the plain check says.
#[test]
fn long_runs() {
    let mut tally = Tally::new();
    let mut random = Random::new(82_000_000);
    let room = Lengths {
        listing: 40_000,
        store: RECORD * 20_000,
        counts: 3,
    };
    for question in [
        triangle(1, 6, 290),
        call_log(1, 140, 32, 8, 2),
        wide_call_log(1, 50, 16, 8, 2),
        connected_call_log(1, 140, 32, 8, 2),
        columns(1, 16, 2, 4_000),
        cables(1, 200, 16, 256),
    ] {
        let words = question.words();
        let asked = Asked::new(question, words);
        let (number, left) = run(&asked.words, room, Some(1_000_000));
        assert_eq!(number, 0, "a long run");
        asked.count("a long run", &mut random, &left, &mut tally);
        let tuples = left.listing.len() / asked.n();
        for place in [0, tuples - 1] {
            let mut fewer = left.clone();
            fewer.take_tuple(asked.n(), place);
            let number = asked.check("a tuple taken out", &mut random, &fewer);
            assert_eq!(number, CHECK_FAILS, "a tuple taken out");
            tally.count(number);
        }
        for _ in 0..12 {
            let mut other = left.clone();
            let at = random.below(other.records.len());
            other.records[at] = other.records[random.below(at + 1)];
            asked.count("a word of a long run", &mut random, &other, &mut tally);
        }
    }
    tally.finish("long runs", &[0, 22], 6);
}

/// A refused question's number, whatever the listing and the records are.
#[test]
fn refused_questions() {
    let mut tally = Tally::new();
    for seed in 0..8_000 {
        let mut random = Random::new(83_000_000 + seed);
        let words = match random.below(4) {
            0 => {
                let special = random.pick(&RangeWords::ALL);
                range_words(&mut random, special)
            }
            1 => {
                let special = random.pick(&OpenWords::ALL);
                open_words(&mut random, special)
            }
            _ => damaged(&mut random),
        };
        let mut certificate = Certificate {
            listing: Vec::new(),
            records: Vec::new(),
        };
        match random.below(4) {
            0 => {}
            1 => {
                // The whole space as a gap box.
                certificate.records = record(&[], GAP, [0, 0]);
            }
            2 => {
                // What is accepted for another question.
                let other = question(&mut random).words();
                certificate = Certificate::left(&plain::run(&other, AMPLE.listing, AMPLE.store));
            }
            _ => {
                let listing = (0..random.below(30)).map(|_| random.word());
                certificate.listing = listing.collect();
                let records = (0..random.below(60)).map(|_| random.number() as u32);
                certificate.records = records.collect();
            }
        }
        let what = format!("refused, seed {seed}");
        let number = agreed(&what, &mut random, &words, &certificate);
        if let Err(due) = plain::read(&words) {
            assert_eq!(number, due, "{what}");
        }
        tally.count(number);
    }
    let numbers = REFUSALS.map(usize::from);
    tally.finish("refused questions", &numbers, 20);
    tally.had("refused questions", &[0, 22], 20);
}

/// The full course of a question, whatever room it takes.
fn full_course(question: &Question) -> Certificate {
    let mut certificate = Certificate {
        listing: Vec::new(),
        records: Vec::new(),
    };
    course(question, Tree::default(), &mut |entry| {
        match entry {
            Entry::Tuple(values) => certificate.listing.extend(values),
            Entry::Box {
                intervals,
                kind,
                origins,
            } => certificate.records.extend(record(intervals, kind, origins)),
        }
        true
    });
    certificate
}

/// A join that takes more boxes than a store has room for is accepted if somebody else finds them. What a run has of it
/// isn't.
#[test]
fn more_than_a_store_has() {
    let mut random = Random::new(84_000_000);
    let (product, lengths) = largest_store();
    let whole_range = Question {
        widths: vec![16],
        tables: vec![Table::with_pairs(0, vec![(0, top(16))])],
    };
    for words in [product, whole_range.words()] {
        let asked = Asked::of(&words);
        let certificate = full_course(&asked.question);
        assert!(certificate.count() > MOST_BOXES, "{}", certificate.count());
        println!("more than a store has: {} records", certificate.count());
        let number = asked.check("all records", &mut random, &certificate);
        assert_eq!(number, 0, "all records");
        let (number, left) = run(&words, lengths, Some(2_000_000));
        assert_eq!((number, left.count()), (14, MOST_BOXES));
        let number = asked.check("a full store", &mut random, &left);
        assert_eq!(number, CHECK_FAILS, "a full store");
        // A record far behind, with an origin of which only the lower 16 bits are right.
        let mut wrong = certificate.clone();
        let last = wrong.count() - 1;
        wrong.record_mut(last)[MOST_ATTRIBUTES + 2] -= 65_536;
        let number = asked.check("65,536 less", &mut random, &wrong);
        assert_eq!(number, CHECK_FAILS, "65,536 less");
    }
}

/// Any record again and again, in front of the others or behind.
#[test]
fn many_times() {
    let mut random = Random::new(85_000_000);
    let mut tally = Tally::new();
    let words = [1, 2, 2, 1, 0, 2, 1, 3, 1, 0, 2, 1, 2];
    let asked = Asked::of(&words);
    let (_, left) = run(&words, AMPLE, None);
    for times in [65_528, 65_529, 65_530, 65_536, 70_000, 131_072] {
        // The first record, a gap box; all others keep their origins.
        let mut front = left.clone();
        front.renumber(|origin| origin + times);
        let again = left.record(0).repeat(times as usize);
        front.records = [again, front.records].concat();
        asked.count("many in front", &mut random, &front, &mut tally);
        // The last one, the whole space.
        let mut behind = left.clone();
        let again = left.record(left.count() - 1).repeat(times as usize);
        behind.records.extend(again);
        asked.count("many behind", &mut random, &behind, &mut tally);
        // The first one behind: the last isn't the whole space then.
        let mut other = behind;
        other.records.extend(left.record(0));
        let number = asked.check("another one last", &mut random, &other);
        assert_eq!(number, CHECK_FAILS);
        // In front, with the origins as they were: they name the wrong records.
        let again = left.record(0).repeat(times as usize);
        other.records = [again, left.records.clone()].concat();
        let number = asked.check("wrong origins", &mut random, &other);
        assert_eq!(number, CHECK_FAILS);
    }
    tally.finish("many times", &[0], 12);
}
