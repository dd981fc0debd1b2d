//! Records that no run of ours writes, made by hand: each has one thing that is right or wrong. And all of a tiny shape.
//! The plain check has to say the same of each, and what is accepted has to be the join.

mod common;

use boxjoin::plain::{self, interval_holds, unit, Question, Table};
use boxjoin::plain::{CHECK_FAILS, GAP, MOST_ATTRIBUTES, OPEN, RANGE, RESOLVENT, TUPLE};
use boxjoin::random::Random;
use common::certificates::{record, run, Asked, Certificate};
use common::{Tally, AMPLE};

/// What is answered for a listing and records over the first attributes, each with its intervals, kind and origins.
fn answer(words: &[u16], listing: &[u16], records: &[&[u32]]) -> u8 {
    let certificate = Certificate::of(listing, records);
    let asked = Asked::of(words);
    asked.check("by hand", &mut Random::new(93_000_000), &certificate)
}

/// One table over both attributes; the second is 0 in the lower half of the first, and 1 in the upper. A run would have a
/// gap box for each value of the first, where an interval of two values is as good.
#[test]
fn an_earlier_interval_that_is_no_unit() {
    let words = [2, 2, 1, 1, 2, 0, 1, 4, 0, 0, 1, 0, 2, 1, 3, 1];
    let listing = [0, 0, 1, 0, 2, 1, 3, 1];
    let records: [&[u32]; 11] = [
        &[2, 3, GAP, 0, 0],
        &[3, 2, GAP, 0, 0],
        &[4, 2, TUPLE, 0, 0],
        &[5, 2, TUPLE, 1, 0],
        &[2, 2, RESOLVENT, 2, 3],
        &[2, 1, RESOLVENT, 4, 0],
        &[6, 3, TUPLE, 2, 0],
        &[7, 3, TUPLE, 3, 0],
        &[3, 3, RESOLVENT, 6, 7],
        &[3, 1, RESOLVENT, 1, 8],
        &[1, 1, RESOLVENT, 5, 9],
    ];
    assert_eq!(answer(&words, &listing, &records), 0);
    // The two rows of the upper half lie in the first one, if it is that long.
    let mut longer = records;
    longer[0] = &[1, 3, GAP, 0, 0];
    assert_eq!(answer(&words, &listing, &longer), CHECK_FAILS);
    // And one, if it goes that far.
    longer[0] = &[6, 3, GAP, 0, 0];
    assert_eq!(answer(&words, &listing, &longer), CHECK_FAILS);
}

/// Units in place of the longest intervals, and gap boxes that are narrower at attributes that the table has not.
#[test]
fn shorter_than_need_be() {
    let words = [1, 2, 1, 1, 0, 1, 2];
    let records: [&[u32]; 7] = [
        &[7, GAP, 0, 0],
        &[4, GAP, 0, 0],
        &[5, GAP, 0, 0],
        &[6, TUPLE, 0, 0],
        &[2, RESOLVENT, 1, 2],
        &[3, RESOLVENT, 3, 0],
        &[1, RESOLVENT, 4, 5],
    ];
    assert_eq!(answer(&words, &[2], &records), 0);
    let words = [2, 1, 1, 2, 1, 0, 1, 0, 1, 1, 2, 0, 1];
    let records: [&[u32]; 7] = [
        &[2, 2, TUPLE, 0, 0],
        &[2, 3, TUPLE, 1, 0],
        &[2, 1, RESOLVENT, 0, 1],
        &[3, 2, GAP, 0, 0],
        &[3, 3, GAP, 0, 0],
        &[3, 1, RESOLVENT, 3, 4],
        &[1, 1, RESOLVENT, 2, 5],
    ];
    assert_eq!(answer(&words, &[0, 0, 0, 1], &records), 0);
}

/// A gap box of a table over the first attribute, narrowed at the second. Of the row 0 nothing is said there, so whoever
/// asks at all attributes finds no row in it; at the table's own it lies in it.
#[test]
fn forged_at_another_attribute() {
    let words = [2, 1, 1, 2, 1, 0, 1, 0, 1, 1, 2, 0, 1];
    for (kept, second) in [([0, 0], 3), ([0, 1], 2)] {
        let [lower, upper] = if second == 3 { [0, 1] } else { [1, 0] };
        let tuple = [2, 5 - second, TUPLE, 0, 0];
        let gap = [2, second, GAP, 0, 0];
        let records: [&[u32]; 5] = [
            &tuple,
            &gap,
            &[2, 1, RESOLVENT, lower, upper],
            &[3, 1, GAP, 0, 0],
            &[1, 1, RESOLVENT, 2, 3],
        ];
        assert_eq!(answer(&words, &kept, &records), CHECK_FAILS);
    }
    // Both left out.
    let records: [&[u32]; 5] = [
        &[2, 2, GAP, 0, 0],
        &[2, 3, GAP, 0, 0],
        &[2, 1, RESOLVENT, 0, 1],
        &[3, 1, GAP, 0, 0],
        &[1, 1, RESOLVENT, 2, 3],
    ];
    assert_eq!(answer(&words, &[], &records), CHECK_FAILS);
    // Three attributes, a table over the first and the last: the one between isn't asked.
    let words = [3, 1, 1, 1, 2, 2, 0, 2, 1, 0, 0, 1, 1, 2, 0, 1];
    for between in 1..4 {
        let gap = [2, between, 2, GAP, 0, 0];
        let records: [&[u32]; 2] = [&gap, &[1, 1, 1, GAP, 0, 0]];
        assert_eq!(answer(&words, &[], &records), CHECK_FAILS);
    }
}

/// Which boxes resolve, and into what.
#[test]
fn resolvents() {
    // Two tables without rows, so that any box is a gap box, and the whole space too.
    let words = [2, 2, 2, 2, 1, 0, 0, 1, 1, 0];
    let due = |one: [u32; 2], two: [u32; 2], of: [u32; 2]| {
        let gap = |of: [u32; 2]| [of[0], of[1], GAP, 0, 0];
        let resolvent = [of[0], of[1], RESOLVENT, 0, 1];
        let records: [&[u32]; 4] = [&gap(one), &gap(two), &resolvent, &[1, 1, GAP, 1, 0]];
        answer(&words, &[], &records)
    };
    // K10, and with the longer interval elsewhere.
    assert_eq!(due([1, 2], [2, 3], [2, 1]), 0);
    assert_eq!(due([1, 2], [2, 3], [1, 1]), CHECK_FAILS);
    assert_eq!(due([2, 2], [1, 3], [2, 1]), 0);
    assert_eq!(due([2, 3], [1, 2], [2, 1]), CHECK_FAILS);
    assert_eq!(due([4, 6], [1, 7], [4, 3]), 0);
    assert_eq!(due([4, 6], [1, 7], [2, 3]), CHECK_FAILS);
    assert_eq!(due([4, 6], [1, 7], [1, 3]), CHECK_FAILS);
    assert_eq!(due([4, 6], [1, 7], [8, 3]), CHECK_FAILS);
    // Two halves at both attributes, or at none.
    assert_eq!(due([2, 2], [3, 3], [1, 1]), CHECK_FAILS);
    assert_eq!(due([2, 3], [3, 2], [1, 1]), CHECK_FAILS);
    assert_eq!(due([2, 2], [2, 2], [2, 2]), CHECK_FAILS);
    assert_eq!(due([1, 1], [2, 2], [2, 2]), CHECK_FAILS);
    assert_eq!(due([1, 1], [1, 1], [1, 1]), CHECK_FAILS);
    // Neighbours that aren't the halves of one interval, and others that are apart.
    assert_eq!(due([5, 1], [6, 1], [2, 1]), CHECK_FAILS);
    assert_eq!(due([5, 1], [6, 1], [3, 1]), CHECK_FAILS);
    assert_eq!(due([4, 1], [7, 1], [1, 1]), CHECK_FAILS);
    assert_eq!(due([2, 2], [6, 3], [1, 1]), CHECK_FAILS);
    assert_eq!(due([4, 2], [5, 3], [2, 1]), CHECK_FAILS);
    assert_eq!(due([4, 2], [5, 6], [2, 1]), CHECK_FAILS);
    assert_eq!(due([4, 2], [5, 4], [2, 4]), 0);
    assert_eq!(due([4, 2], [5, 4], [2, 2]), CHECK_FAILS);
    // An interval and its own half.
    assert_eq!(due([1, 2], [1, 1], [1, 1]), CHECK_FAILS);
    assert_eq!(due([2, 1], [1, 1], [1, 1]), CHECK_FAILS);
}

/// The whole space as gap box of a table without rows or pairs, beside those of one with rows, with pairs, and of an open
/// one, whose numbers are given instead.
#[test]
fn the_whole_space_as_gap_box() {
    for (n, width) in [(1, 1), (2, 3), (11, 16), (12, 16)] {
        let mut tables = vec![
            Table::with_rows((0..n).collect(), vec![vec![0; n]]),
            Table::with_rows(vec![n - 1], vec![]),
            Table::open((0..n).collect()),
            Table::with_pairs(0, vec![(0, 1)]),
            Table::with_pairs(0, vec![]),
        ];
        let mut numbers = [CHECK_FAILS, 0, CHECK_FAILS, CHECK_FAILS, 0].to_vec();
        for _ in 0..tables.len() {
            tables.rotate_left(1);
            numbers.rotate_left(1);
            let widths = vec![width; n];
            let words = Question {
                widths,
                tables: tables.clone(),
            };
            let words = words.words();
            let whole = vec![1; n];
            let due = |table: usize| {
                let rest = [GAP, table as u32, 0];
                answer(&words, &[], &[&[&whole[..], &rest[..]].concat()])
            };
            for (table, &number) in numbers.iter().enumerate() {
                assert_eq!(due(table), number, "{words:?}, table {table}");
            }
            assert_eq!(due(numbers.len()), CHECK_FAILS, "no such table");
        }
    }
}

/// Intervals at the ends of each width, at each attribute, and those beyond the attributes.
#[test]
fn within_the_width() {
    for width in 1..=16 {
        for n in [1, 2, MOST_ATTRIBUTES - 1, MOST_ATTRIBUTES] {
            let mut question = Question {
                widths: vec![16; n],
                tables: vec![Table::with_rows((0..n).collect(), vec![])],
            };
            for attribute in 0..MOST_ATTRIBUTES {
                if attribute < n {
                    question.widths = vec![16; n];
                    question.widths[attribute] = width;
                }
                let words = question.words();
                let last = (2 << width) - 1;
                for interval in [
                    0,
                    1,
                    2,
                    last - 1,
                    last,
                    last + 1,
                    last + 2,
                    131_072,
                    u32::MAX,
                ] {
                    let mut gap = record(&[], GAP, [0, 0]);
                    gap[attribute] = interval;
                    let within = 1..=if attribute < n { last } else { 1 };
                    let due = if within.contains(&interval) {
                        0
                    } else {
                        CHECK_FAILS
                    };
                    let whole = record(&[], GAP, [0, 0]);
                    let certificate = Certificate {
                        listing: Vec::new(),
                        records: [gap, whole].concat(),
                    };
                    let Certificate { listing, records } = &certificate;
                    let what = format!("{interval} at {attribute} of {n}, width {width}");
                    let number = boxjoin::check_listing(&words, listing, records);
                    assert_eq!(number, due, "{what}");
                    let number = plain::check_listing(&words, listing, records);
                    assert_eq!(number, due, "the plain check: {what}");
                }
            }
        }
    }
}

/// Pairs, and every interval of three bits as their gap box: only one that meets no pair will do.
#[test]
fn intervals_and_pairs() {
    let mut random = Random::new(94_000_000);
    let mut tally = Tally::new();
    for pairs in common::lists_of_pairs(3, 0) {
        let question = Question {
            widths: vec![3],
            tables: vec![Table::with_pairs(0, pairs.clone())],
        };
        let asked = Asked::of(&question.words());
        let (_, left) = run(&asked.words, AMPLE, None);
        for interval in 1..16 {
            let mut more = left.clone();
            more.put_in(0, &record(&[interval], GAP, [0, 0]));
            let number = asked.check("intervals and pairs", &mut random, &more);
            // Its values, of which one is in a pair or none.
            let mut values = (0..8).filter(|&value| interval_holds(interval, unit(3, value)));
            let met = values.any(|value| pairs.iter().any(|p| p.0 <= value && value <= p.1));
            let due = if met { CHECK_FAILS } else { 0 };
            assert_eq!(number, due, "{interval} and {pairs:?}");
            tally.count(number);
        }
    }
    tally.finish("intervals and pairs", &[0, 22], 1_000);
}

/// All lists of up to so many of these.
fn lists<T: Clone>(of: &[T], most: usize) -> Vec<Vec<T>> {
    let mut all = vec![Vec::new()];
    let mut last = all.clone();
    for _ in 0..most {
        let mut longer = Vec::new();
        for list in &last {
            for one in of {
                let mut list: Vec<T> = list.clone();
                list.push(one.clone());
                longer.push(list);
            }
        }
        last = longer;
        all.extend(last.clone());
    }
    all
}

/// All records with one of these intervals at the first attribute, these kinds and these origins.
fn all_records(intervals: &[u32], kinds: &[u32], origins: [&[u32]; 2]) -> Vec<Vec<u32>> {
    let mut all = Vec::new();
    for &interval in intervals {
        for &kind in kinds {
            for &first in origins[0] {
                all.extend(
                    origins[1]
                        .iter()
                        .map(|&second| record(&[interval], kind, [first, second])),
                );
            }
        }
    }
    all
}

/// One attribute of one bit, one or two tables with anything: all listings of up to two words, with all lists of up to two
/// records over some words, and of three over fewer.
#[test]
fn all_of_a_tiny_shape() {
    let any = all_records(&[0, 1, 2, 3, 4], &[0, 1, 2, 3], [&[0, 1, 2], &[0, 1]]);
    let right = all_records(&[1, 2, 3], &[0, 1, 2], [&[0, 1], &[0, 1]]);
    let (two, three) = (lists(&any, 2), lists(&right, 3));
    let (listings, few) = (lists(&[0, 1, 2], 2), lists(&[0, 1], 2));
    let mut tally = Tally::new();
    // How many are accepted, by counting. Without rows the last record is the whole space as a gap box, alone, behind one
    // of the three gap boxes (both of these are counted twice), or behind two of them; or it is the resolvent of the two
    // halves, which come in either order. Else it is their resolvent in any case.
    let without = 2 * (1 + 3) + 9 + 2;
    let cases: [(&[u16], usize); 9] = [
        (&[1, 1, 1, 1, 0, 0], without),
        (&[1, 1, 1, 1, 0, 1, 0], 2),
        (&[1, 1, 1, 1, 0, 1, 1], 2),
        (&[1, 1, 1, 1, 0, 2, 0, 1], 2),
        (&[1, 1, 1, RANGE, 0, 0], without),
        (&[1, 1, 1, RANGE, 0, 1, 1, 1], 2),
        (&[1, 1, 1, RANGE, 0, 1, 0, 1], 2),
        (&[1, 1, 2, 1, 0, 1, 0, 1, 0, OPEN], 2),
        (&[1, 1, 2, 1, 0, 1, 0, RANGE, 0, 1, 1, 1], 2),
    ];
    for (words, due) in cases {
        let asked = Asked::of(words);
        let mut accepted = 0;
        let mut see = |listing: &[u16], records: &[Vec<u32>]| {
            let records = records.concat();
            let number = boxjoin::check_listing(words, listing, &records);
            let plain = plain::check_listing(words, listing, &records);
            assert_eq!(number, plain, "{words:?}, {listing:?}, {records:?}");
            assert!(number != 0 || asked.join.as_deref() == Some(listing));
            accepted += usize::from(number == 0);
            tally.count(number);
        };
        for listing in &listings {
            two.iter().for_each(|records| see(listing, records));
        }
        for listing in &few {
            three.iter().for_each(|records| see(listing, records));
        }
        assert_eq!(accepted, due, "{words:?}");
    }
    tally.finish("all of a tiny shape", &[22], 1_000_000);
    assert_eq!(tally.0[0], 2 * without + 7 * 2);
}
