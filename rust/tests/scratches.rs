//! Runs with a scratch: whatever its length and its words before, every word of the other buffers is what
//! the plain model says, and no word beside the scratch is changed.

mod common;

use boxjoin::plain::{self, MOST_ATTRIBUTES, RECORD, REFUSALS};
use boxjoin::random::{call_log, damaged, question, triangle, Random};
use common::{every_room, largest_store, listing_lengths, small_questions, store_lengths};
use common::{Buffer, Lengths, Opens, Ranges, Tally, Trial, AMPLE, COUNTS, STORES};
use std::collections::HashSet;

/// How many nodes the tree of these records has: one for each beginning of a record's path, the empty one
/// included. A beginning is the intervals before an attribute and the front bits of the attribute's own.
fn nodes(store: &[u32]) -> usize {
    let mut beginnings = HashSet::from([vec![1]]);
    for record in store.chunks_exact(RECORD) {
        let last = record[..MOST_ATTRIBUTES]
            .iter()
            .rposition(|&v| v != 1)
            .unwrap_or(0);
        for at in 0..=last {
            for cut in 0..=record[at].ilog2() {
                beginnings.insert([&record[..at], &[record[at] >> cut]].concat());
            }
        }
    }
    beginnings.len()
}

/// The length of a scratch with room for just so many nodes.
fn room_for(nodes: usize) -> usize {
    4 * (nodes + 1)
}

/// Lengths of a scratch around every limit, for a run that needs so many nodes.
fn scratch_lengths(random: &mut Random, nodes: usize) -> Vec<usize> {
    let all = room_for(nodes);
    // All fit; a word, a node, a node and a word too few; more than enough.
    let mut lengths = vec![
        all,
        all - 1,
        all - 4,
        all - 5,
        all + 1,
        all + 4,
        3 * all + 500,
    ];
    // Hardly any, some, nearly all.
    lengths.extend((0..6).map(|_| random.below(20)));
    lengths.extend((0..6).map(|_| random.below(all)));
    lengths.extend((0..3).map(|_| all - 1 - random.below(all.min(40))));
    lengths
}

/// A scratch that has random words before, or numbers that could be nodes' and records', or one word
/// throughout.
fn scratch(random: &mut Random, len: usize) -> Buffer<u32> {
    let nodes = len as u64 / 4 + 2;
    match random.below(5) {
        0 => Buffer::new(random, len, |r| r as u32),
        1 | 2 => Buffer::new(random, len, |r| (r % nodes) as u32),
        3 => Buffer::new(random, len, |_| 0),
        _ => Buffer::new(random, len, |_| u32::MAX),
    }
}

/// Runs the trial with scratches of these lengths.
fn try_all(trial: &Trial, random: &mut Random, lengths: &[usize], tally: &mut Tally) {
    for &len in lengths {
        let mut scratch = scratch(random, len);
        trial.compare(random, Some(&mut scratch));
        tally.count(trial.run.number);
    }
}

/// Lengths with room for all, or nearly; then others, around what such a run needs.
fn lengths_of_runs(random: &mut Random, words: &[u16], times: usize) -> Vec<Lengths> {
    let run = plain::run(words, AMPLE.listing, AMPLE.store);
    let mut listings = listing_lengths(words[0] as usize, run.listing.len());
    let mut stores = store_lengths(run.store.len());
    listings.extend([AMPLE.listing; 12]);
    stores.extend([AMPLE.store; 12]);
    let other = |_| Lengths {
        listing: random.pick(&listings),
        store: random.pick(&stores),
        counts: random.pick(&COUNTS),
    };
    let mut all = vec![AMPLE];
    all.extend((0..times).map(other));
    all
}

#[test]
fn random_questions() {
    let mut tally = Tally::new();
    let (mut opens, mut ranges) = (Opens::new(), Ranges::new());
    for seed in 0..1_200 {
        let mut random = Random::new(3_000_000 + seed);
        let question = question(&mut random);
        opens.count(&question);
        ranges.count(&question);
        let words = question.words();
        let what = format!("question of seed {seed}");
        for lengths in lengths_of_runs(&mut random, &words, 2) {
            let trial = Trial::new(&what, &words, lengths);
            let scratches = scratch_lengths(&mut random, nodes(&trial.run.store));
            try_all(&trial, &mut random, &scratches, &mut tally);
        }
    }
    tally.finish("random questions with scratches", &[0, 13, 14], 5_000);
    opens.finish("random questions with scratches", 50, 20);
    ranges.finish("random questions with scratches", 40, 20);
}

/// A refused question changes no word of listing, store and scratch, and a scratch changes no refusal.
#[test]
fn damaged_questions() {
    let mut tally = Tally::new();
    let (mut opens, mut ranges) = (Opens::new(), Ranges::new());
    for seed in 0..20_000 {
        let mut random = Random::new(4_000_000 + seed);
        let words = damaged(&mut random);
        if let Ok(question) = plain::read(&words) {
            opens.count(&question);
            ranges.count(&question);
        }
        let what = format!("damaged question of seed {seed}");
        let lengths = Lengths {
            listing: random.pick(&[0, 1, 2, 7, 40]),
            store: random.pick(&STORES),
            counts: random.pick(&COUNTS),
        };
        let trial = Trial::new(&what, &words, lengths);
        let len = random.pick(&[0, 1, 3, 4, 5, 7, 8, 9, 12, 40, 300]);
        try_all(&trial, &mut random, &[len], &mut tally);
    }
    let refusals = REFUSALS.map(usize::from);
    tally.finish("damaged questions with a scratch", &refusals, 100);
    tally.had("damaged questions with a scratch", &[0, 13, 14], 200);
    opens.finish("damaged questions that are accepted", 50, 50);
    ranges.finish("damaged questions that are accepted", 30, 30);
}

/// Small questions: with room for all, every length of a scratch; with every other room, three.
#[test]
fn every_small_question() {
    let mut tally = Tally::new();
    let mut random = Random::new(2);
    small_questions(|question| {
        let words = question.words();
        for (nth, lengths) in every_room(&mut random, question).into_iter().enumerate() {
            let trial = Trial::new("a small question", &words, lengths);
            let most = room_for(nodes(&trial.run.store)) + 1;
            let mut scratches = vec![4, random.below(most), random.below(most)];
            if nth == 0 {
                scratches = (0..=most).collect();
            }
            try_all(&trial, &mut random, &scratches, &mut tally);
        }
    });
    tally.finish("small questions with scratches", &[0, 13, 14], 10_000);
}

/// One scratch for run after run: what a run leaves there is no part of the next one's tree.
#[test]
fn a_scratch_used_again() {
    let mut tally = Tally::new();
    let mut random = Random::new(5_000_000);
    let mut scratch = scratch(&mut random, 8_000);
    for number in 0..3_000 {
        let words = question(&mut random).words();
        let what = format!("question {number} with a used scratch");
        for lengths in lengths_of_runs(&mut random, &words, 1) {
            let trial = Trial::new(&what, &words, lengths);
            for _ in 0..2 {
                trial.compare(&mut random, Some(&mut scratch));
                tally.count(trial.run.number);
            }
        }
    }
    tally.finish("questions with a used scratch", &[0, 13, 14], 500);
}

/// Thousands of boxes: a scratch that is just long enough, and ones that are a little or much too short.
#[test]
fn larger_questions() {
    let mut tally = Tally::new();
    let mut random = Random::new(6_000_000);
    let triangle = triangle(1, 6, 290);
    let call_log = call_log(1, 100, 32, 8, 2);
    for (what, question) in [("a triangle", triangle), ("a call log", call_log)] {
        let words = question.words();
        let lengths = Lengths {
            listing: 3_000,
            store: RECORD * 10_000,
            counts: 3,
        };
        let trial = Trial::new(what, &words, lengths);
        let (boxes, nodes) = (trial.run.boxes, nodes(&trial.run.store));
        println!("{what} with scratches: {boxes} boxes, {nodes} nodes");
        assert!(boxes >= 5_000);
        let all = room_for(nodes);
        let scratches = [all, all - 1, all - 4, all / 2];
        try_all(&trial, &mut random, &scratches, &mut tally);
    }
    tally.finish("larger questions with scratches", &[0], 8);
}

/// A store never holds more than 65,536 boxes, however long it is.
#[test]
fn the_largest_store() {
    let mut tally = Tally::new();
    let (words, lengths) = largest_store();
    let trial = Trial::by_tree("the largest store", &words, lengths);
    assert_eq!((trial.run.number, trial.run.boxes), (14, 65_536));
    let all = room_for(nodes(&trial.run.store));
    let scratches = [all, all - 4, 2 * all];
    try_all(&trial, &mut Random::new(0), &scratches, &mut tally);
    tally.finish("the largest store with scratches", &[14], 3);
}
