//! Which numbers words with range tables get: what is asked of each word, and in which order.

mod common;

use boxjoin::plain::{self, OPEN, RANGE, RECORD};
use boxjoin::random::{add_range, question, Random};
use common::{check, compare, Buffer, Lengths, Tally, Trial, AMPLE};

/// Question 6 lets the mark pass and no other number above n; question 8 the open mark and no other above 4,096.
#[test]
fn every_number_of_attributes_and_of_pairs() {
    for number in 0..=u16::MAX {
        let of_one = match number {
            // The row 0, and one word more.
            1 => 11,
            // The pair 0, 9.
            65_535 => 0,
            _ => 6,
        };
        check("one attribute", &[1, 16, 1, number, 0, 1, 0, 9], of_one);
        let of_two = match number {
            1 => 11,
            // Seven rows, of which there is half of one.
            2 => 3,
            // The second attribute stands in none.
            65_535 => 12,
            _ => 6,
        };
        check("two", &[2, 16, 16, 1, number, 0, 1, 7, 9], of_two);
        let last = match number {
            0 => 0,
            1..=4_096 => 3,
            65_535 => 12,
            _ => 8,
        };
        check("a range table", &[1, 16, 1, RANGE, 0, number], last);
        let front = match number {
            // No pair, and the words behind it are a table of one row; so are those behind the open mark.
            0 | 65_535 => 0,
            // The pair 1, 0, whatever follows.
            1..=4_096 => 28,
            _ => 8,
        };
        check("in front", &[1, 16, 2, RANGE, 0, number, 1, 0, 1, 9], front);
    }
    println!("every number of attributes and of pairs: 65,536 tried, four times");
}

/// All words that two pairs can have, of narrow widths, up to one value beyond: the number is that of the first question
/// answered no, in the order of the request.
#[test]
fn every_two_pairs() {
    let mut tally = Tally::new();
    for width in 1..=3 {
        let limit: u16 = 1 << width;
        let of_one = |lowest: u16, highest: u16| {
            if lowest >= limit || highest >= limit {
                9
            } else if lowest > highest {
                28
            } else {
                0
            }
        };
        let then = |number: u8, next: u8| if number == 0 { next } else { number };
        let numbers = usize::from(limit) + 1;
        for number in 0..numbers.pow(4) {
            let digit = |place: u32| (number / numbers.pow(place) % numbers) as u16;
            let [a, b, c, d] = [0, 1, 2, 3].map(digit);
            let first = of_one(a, b);
            let second = match of_one(c, d) {
                0 if c <= b => 10,
                number => number,
            };
            let words = [1, width, 1, RANGE, 0, 2, a, b, c, d];
            check("two pairs", &words, then(first, second));
            tally.count(then(first, second));
            // Cut short: what is asked before is still asked before.
            let half = if c >= limit { 9 } else { 3 };
            check("one and a half", &words[..9], then(first, half));
            check("one of two", &words[..8], then(first, 3));
            // The first pair is not asked 10.
            check("one", &[1, width, 1, RANGE, 0, 1, a, b], first);
        }
    }
    tally.finish("every two pairs", &[0, 9, 10, 28], 200);
}

/// Words that end with a range table, cut short at every word of it.
#[test]
fn cut_short() {
    let mut tally = Tally::new();
    let mut pairs = 0;
    for seed in 0..600 {
        let mut random = Random::new(71_000_000 + seed);
        let mut question = question(&mut random);
        let Some(at) = add_range(&mut random, &mut question) else {
            continue;
        };
        let range = question.tables.remove(at);
        let count = range.pairs().unwrap().len();
        if count > 60 {
            continue;
        }
        pairs += count;
        question.tables.push(range);
        let words = question.words();
        check("uncut", &words, 0);
        for behind in 1..=3 + 2 * count {
            let what = format!("{behind} words less of seed {seed}");
            let cut = &words[..words.len() - behind];
            check(&what, cut, 3);
            let lengths = Lengths {
                listing: random.below(40),
                store: random.below(20 * RECORD),
                counts: random.below(5),
            };
            let trial = Trial::new(&what, cut, lengths);
            trial.compare(&mut random, None);
            let mut scratch = Buffer::new(&mut random, 40, |r| r as u32);
            trial.compare(&mut random, Some(&mut scratch));
            tally.count(trial.run.number);
        }
    }
    tally.finish("cut short", &[3], 3_000);
    println!("cut short: {pairs} pairs");
    assert!(pairs >= 1_000);
}

/// The numbers that the request names, alone and before one another. A refusal, 28 as the others, has zero counts and
/// changes no word, also none of a scratch.
#[test]
fn named_numbers() {
    let cases: &[(&str, &[u16], u8)] = &[
        // Accepted.
        ("one pair", &[1, 3, 1, RANGE, 0, 1, 2, 5], 0),
        ("touching pairs", &[1, 3, 1, RANGE, 0, 2, 1, 3, 4, 5], 0),
        ("pairs apart", &[1, 3, 1, RANGE, 0, 2, 1, 3, 5, 6], 0),
        ("one value", &[1, 3, 1, RANGE, 0, 1, 4, 4], 0),
        ("the whole range", &[1, 3, 1, RANGE, 0, 1, 0, 7], 0),
        ("of 16 bits", &[1, 16, 1, RANGE, 0, 1, 65_530, 65_535], 0),
        ("no pair", &[1, 3, 1, RANGE, 0, 0], 0),
        (
            "over the second attribute",
            &[2, 1, 3, 2, 1, 0, 1, 1, RANGE, 1, 1, 2, 5],
            0,
        ),
        (
            "two range tables",
            &[1, 3, 2, RANGE, 0, 1, 0, 4, RANGE, 0, 1, 3, 7],
            0,
        ),
        (
            "the open mark beside",
            &[1, 3, 2, RANGE, 0, OPEN, RANGE, 0, 1, 2, 5],
            0,
        ),
        (
            "the open mark as the last word",
            &[1, 3, 2, 1, 0, 1, 2, RANGE, 0, OPEN],
            0,
        ),
        // 3, at each word.
        ("the attribute is missing", &[1, 3, 1, RANGE], 3),
        ("the number is missing", &[1, 3, 1, RANGE, 0], 3),
        ("the lowest is missing", &[1, 3, 1, RANGE, 0, 1], 3),
        ("the highest is missing", &[1, 3, 1, RANGE, 0, 1, 2], 3),
        ("the second is missing", &[1, 3, 1, RANGE, 0, 2, 2, 5], 3),
        (
            "its highest is missing, and it is not above",
            &[1, 3, 1, RANGE, 0, 2, 2, 5, 1],
            3,
        ),
        // 6.
        (
            "one less than the mark",
            &[1, 3, 1, RANGE - 1, 0, 1, 2, 5],
            6,
        ),
        ("one less, and no more", &[1, 3, 1, RANGE - 1], 6),
        ("no attribute", &[1, 3, 1, 0, 0, 1, 2, 5], 6),
        // 7.
        ("not below n", &[1, 3, 1, RANGE, 1, 1, 2, 5], 7),
        ("not below two", &[2, 3, 3, 1, RANGE, 2], 7),
        ("the mark twice", &[1, 3, 1, RANGE, RANGE, 1, 2, 5], 7),
        ("7 before 8", &[1, 3, 1, RANGE, 1, 4_097], 7),
        // 8.
        ("one more than pairs may be", &[1, 3, 1, RANGE, 0, 4_097], 8),
        (
            "one less than the open mark",
            &[1, 3, 1, RANGE, 0, OPEN - 1],
            8,
        ),
        ("8 before 9", &[1, 3, 1, RANGE, 0, 4_097, 8, 8], 8),
        // 9.
        ("the lowest too large", &[1, 3, 1, RANGE, 0, 1, 8, 8], 9),
        ("the highest too large", &[1, 3, 1, RANGE, 0, 1, 2, 8], 9),
        ("9 before 3", &[1, 3, 1, RANGE, 0, 1, 8], 9),
        ("9 before 28", &[1, 3, 1, RANGE, 0, 1, 8, 2], 9),
        ("9 before 10", &[1, 3, 1, RANGE, 0, 2, 2, 5, 4, 8], 9),
        ("the mark as a value", &[1, 15, 1, RANGE, 0, 1, 0, RANGE], 9),
        // 28.
        ("above", &[1, 3, 1, RANGE, 0, 1, 5, 2], 28),
        ("above by one", &[1, 3, 1, RANGE, 0, 1, 5, 4], 28),
        (
            "above, of 16 bits",
            &[1, 16, 1, RANGE, 0, 1, 65_535, 65_534],
            28,
        ),
        ("28 at the second", &[1, 3, 1, RANGE, 0, 2, 0, 1, 5, 4], 28),
        ("28 before 10", &[1, 3, 1, RANGE, 0, 2, 2, 5, 4, 3], 28),
        (
            "28 before 10, below all",
            &[1, 3, 1, RANGE, 0, 2, 2, 5, 1, 0],
            28,
        ),
        (
            "28 before 10, at the end",
            &[1, 3, 1, RANGE, 0, 2, 2, 5, 5, 4],
            28,
        ),
        ("28 before 3", &[1, 3, 1, RANGE, 0, 2, 5, 2], 28),
        ("28 before 9", &[1, 3, 1, RANGE, 0, 2, 5, 2, 8, 8], 28),
        ("28 before 11", &[1, 3, 1, RANGE, 0, 1, 5, 2, 0], 28),
        ("28 before 12", &[2, 3, 3, 1, RANGE, 0, 1, 5, 2], 28),
        ("28 before 6", &[1, 3, 2, RANGE, 0, 1, 5, 2, 0], 28),
        (
            "28 behind rows",
            &[1, 3, 2, 1, 0, 1, 5, RANGE, 0, 1, 5, 2],
            28,
        ),
        // 10.
        ("common values", &[1, 3, 1, RANGE, 0, 2, 3, 5, 4, 7], 10),
        ("one common value", &[1, 3, 1, RANGE, 0, 2, 3, 5, 5, 7], 10),
        ("twice", &[1, 3, 1, RANGE, 0, 2, 3, 5, 3, 5], 10),
        ("inside", &[1, 3, 1, RANGE, 0, 2, 3, 7, 4, 5], 10),
        ("around", &[1, 3, 1, RANGE, 0, 2, 3, 5, 2, 7], 10),
        ("below", &[1, 3, 1, RANGE, 0, 2, 3, 5, 0, 1], 10),
        (
            "single values twice",
            &[1, 3, 1, RANGE, 0, 2, 4, 4, 4, 4],
            10,
        ),
        (
            "10 at the third",
            &[1, 3, 1, RANGE, 0, 3, 0, 1, 2, 5, 5, 7],
            10,
        ),
        (
            "10 before 28",
            &[1, 3, 1, RANGE, 0, 3, 3, 5, 4, 7, 2, 1],
            10,
        ),
        ("10 before 3", &[1, 3, 1, RANGE, 0, 3, 3, 5, 4, 7], 10),
        // 11 and 12.
        ("a pair behind", &[1, 3, 1, RANGE, 0, 1, 2, 5, 6, 7], 11),
        ("a word behind", &[1, 3, 1, RANGE, 0, 0, 0], 11),
        (
            "a pair behind the open mark",
            &[1, 3, 1, RANGE, 0, OPEN, 2, 5],
            11,
        ),
        ("only the open mark", &[1, 3, 1, RANGE, 0, OPEN], 12),
        (
            "only the open mark, in both forms",
            &[1, 3, 2, RANGE, 0, OPEN, 1, 0, OPEN],
            12,
        ),
        (
            "the second in the open mark alone",
            &[2, 3, 3, 2, RANGE, 0, 1, 2, 5, RANGE, 1, OPEN],
            12,
        ),
        ("the second in none", &[2, 3, 3, 1, RANGE, 0, 1, 2, 5], 12),
    ];
    let mut tally = Tally::new();
    for (what, words, number) in cases {
        check(what, words, *number);
        let mut random = Random::new(1);
        let run = compare(what, &mut random, words, AMPLE);
        assert_eq!(run.number, *number, "{what}");
        let trial = Trial::new(what, words, AMPLE);
        let mut scratch = Buffer::new(&mut random, 200, |r| r as u32);
        trial.compare(&mut random, Some(&mut scratch));
        if plain::is_refusal(*number) {
            let (mut listing, mut store, mut counts) = ([7; 9], [7; 40], [7; 3]);
            let told = boxjoin::run_into(words, &mut listing, &mut store, &mut counts);
            assert_eq!((told, counts), (*number, [0; 3]), "{what}");
            assert_eq!((listing, store), ([7; 9], [7; 40]), "{what}");
        }
        tally.count(run.number);
    }
    tally.finish("named numbers", &[0, 3, 6, 7, 8, 9, 10, 11, 12, 28], 3);
}
