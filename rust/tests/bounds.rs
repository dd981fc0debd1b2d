//! How many resolutions a run has beside its other boxes. Over one attribute they are fewer than gap boxes and listed
//! tuples together, in every run that stored a box, complete or stopped: a resolvent has two origins, no record is an
//! origin of two resolvents, and the last record is an origin of none. Over two attributes and more it need not be so,
//! since there a gap box may be resolved more than once.
//!
//! Only the library is judged here: the plain steps choose rooms and questions, and what is expected follows from the
//! question by counting.

mod common;

use boxjoin::plain::{top, Contents, Question, Table, GAP, REFUSALS, RESOLVENT, TUPLE};
use boxjoin::random::{any_words, open_some, range_some, with_tables, Random};
use boxjoin::{check_question, Counts, MAX_ATTRIBUTES, RECORD_WORDS};
use common::{every_room, show, small_questions, Lengths, Opens, Ranges, Tally};

/// No interval, kind or origin is so large.
const UNWRITTEN: u32 = u32::MAX;

/// What a run left, counted twice: as it says itself, and by the words of the store.
struct Left {
    counts: Counts,
    listing: Vec<u16>,
    /// The records that were written, however many it says there are.
    records: Vec<Vec<u32>>,
}

impl Left {
    /// Runs the words with buffers of these lengths, and one time in two with a scratch.
    fn new(random: &mut Random, words: &[u16], listing: usize, store: usize) -> Left {
        let mut listing = vec![0; listing];
        let mut store = vec![UNWRITTEN; store];
        let counts = if random.one_in(2) {
            boxjoin::run(words, &mut listing, &mut store)
        } else {
            let mut scratch = vec![0; random.below(2_000)];
            boxjoin::run_with(words, &mut listing, &mut store, &mut scratch)
        };
        Left::of(words, counts, listing, &store)
    }

    fn of(words: &[u16], counts: Counts, mut listing: Vec<u16>, store: &[u32]) -> Left {
        let written = store.iter().take_while(|&&word| word != UNWRITTEN).count();
        let rest = &store[written..];
        let whole = written % RECORD_WORDS == 0 && rest.iter().all(|&word| word == UNWRITTEN);
        assert!(whole, "whole records at the front, {}", show(words));
        listing.truncate(counts.tuples as usize * words.first().map_or(0, |&n| n as usize));
        let records = store[..written].chunks_exact(RECORD_WORDS);
        Left {
            counts,
            listing,
            records: records.map(<[u32]>::to_vec).collect(),
        }
    }

    /// How many records are of this kind.
    fn of_kind(&self, kind: u32) -> usize {
        let records = self.records.iter();
        records.filter(|r| r[MAX_ATTRIBUTES] == kind).count()
    }

    /// How often each record is an origin of a resolvent.
    fn uses(&self) -> Vec<usize> {
        let mut uses = vec![0; self.records.len()];
        for record in &self.records {
            if let [RESOLVENT, lower, upper] = record[MAX_ATTRIBUTES..] {
                uses[lower as usize] += 1;
                uses[upper as usize] += 1;
            }
        }
        uses
    }

    /// Gap boxes and listed tuples together, by the counts.
    fn others(&self) -> u32 {
        self.counts.boxes - self.counts.resolutions
    }

    /// The number, the tuples, the resolutions, and the other boxes.
    fn summary(&self) -> (u8, u32, u32, u32) {
        let Counts {
            number,
            tuples,
            resolutions,
            ..
        } = self.counts;
        (number, tuples, resolutions, self.others())
    }

    /// Sees that the counts are those of the records. The last listed tuple has no box where the store had no room for
    /// it.
    fn see_counts(&self, what: &str) {
        let Counts {
            number,
            tuples,
            boxes,
            resolutions,
        } = self.counts;
        let kinds = [GAP, TUPLE, RESOLVENT].map(|kind| self.of_kind(kind));
        assert_eq!(kinds.iter().sum::<usize>(), self.records.len(), "{what}");
        assert_eq!(boxes as usize, self.records.len(), "{what}");
        assert_eq!(resolutions as usize, kinds[2], "{what}");
        let missing = tuples as usize - kinds[1];
        assert!(missing == 0 || missing == 1 && number == 14, "{what}");
    }

    /// Sees that resolutions are fewer than the other boxes, if there is a box: by the counts, and by the kinds of the
    /// records. No record is an origin twice.
    fn see_bound(&self, what: &str) {
        let resolvents = self.of_kind(RESOLVENT);
        let others = self.of_kind(GAP) + self.of_kind(TUPLE);
        if self.counts.boxes > 0 {
            let counts = self.counts;
            assert!(counts.resolutions < self.others(), "{what}: {counts:?}");
        }
        if !self.records.is_empty() {
            let so = format!("{resolvents} resolvents beside {others} others");
            assert!(resolvents < others, "{what}: {so}");
        }
        let often = self.uses().into_iter().max();
        assert!(often <= Some(1), "{what}: resolved {often:?} times");
    }
}

/// How often each number came up in runs over one attribute.
struct Seen {
    /// With a box; with a resolution too.
    boxes: Tally,
    resolved: Tally,
    /// With just one resolution less than other boxes; with fewer.
    sharp: Tally,
    fewer: Tally,
}

impl Seen {
    fn new() -> Seen {
        Seen {
            boxes: Tally::new(),
            resolved: Tally::new(),
            sharp: Tally::new(),
            fewer: Tally::new(),
        }
    }

    /// Runs words over one attribute that are accepted, and sees that the bound holds.
    fn run(
        &mut self,
        what: &str,
        random: &mut Random,
        words: &[u16],
        listing: usize,
        store: usize,
    ) -> Left {
        let what = format!("{what}, room {listing} and {store}: {}", show(words));
        let left = Left::new(random, words, listing, store);
        left.see_counts(&what);
        left.see_bound(&what);
        let number = left.counts.number;
        assert!([0, 13, 14].contains(&number), "{what}: {number}");
        if left.counts.boxes > 0 {
            self.boxes.count(number);
            if left.counts.resolutions > 0 {
                self.resolved.count(number);
            }
            if left.counts.resolutions + 1 == left.others() {
                self.sharp.count(number);
            } else {
                self.fewer.count(number);
            }
        }
        left
    }

    /// Prints what came up, and sees that each number came up at least so often: with a box, with a resolution, with
    /// just one resolution less than other boxes, and with fewer.
    fn finish(&self, what: &str, least: usize) {
        for (tally, which) in [
            (&self.boxes, "with a box"),
            (&self.resolved, "with a resolution"),
            (&self.sharp, "one less than others"),
            (&self.fewer, "fewer than that"),
        ] {
            tally.finish(&format!("{what}, {which}"), &[0, 13, 14], least);
        }
    }
}

/// Room for most of the runs here.
const TUPLES: usize = 200;
const BOXES: usize = 300;

/// An accepted question over one attribute of any width, with one to sixteen tables: with rows, with pairs and open.
fn one_attribute(random: &mut Random) -> Question {
    let tables = match random.below(3) {
        0 => random.from_to(1, 16),
        _ => random.from_to(1, 3),
    };
    let mut question = with_tables(random, 1, vec![vec![0]; tables]);
    if random.one_in(2) {
        let width = question.widths[0] as usize;
        question.widths[0] = random.from_to(width, 16) as u32;
    }
    if random.one_in(2) {
        range_some(random, &mut question);
    }
    if random.one_in(3) {
        open_some(random, &mut question);
    }
    question
}

/// The words that so many records take, and some that are too few for one more.
fn about(random: &mut Random, records: usize) -> usize {
    RECORD_WORDS * records + random.below(RECORD_WORDS)
}

/// Random questions over one attribute: with ample room, with each small room of the store and of the listing, with
/// those just before the end, and with small rooms of both.
#[test]
fn one_attribute_in_every_room() {
    let mut seen = Seen::new();
    let (mut opens, mut ranges) = (Opens::new(), Ranges::new());
    let mut widths = [0; 17];
    let mut tables = [0; 17];
    for seed in 0..3_000 {
        let mut random = Random::new(70_000_000 + seed);
        let question = one_attribute(&mut random);
        let words = any_words(&mut random, &question);
        assert_eq!(check_question(&words), 0, "seed {seed}");
        let what = format!("one attribute, seed {seed}");
        let left = seen.run(&what, &mut random, &words, TUPLES, RECORD_WORDS * BOXES);
        opens.count(&question);
        ranges.count(&question);
        if left.counts.resolutions > 0 {
            widths[question.widths[0] as usize] += 1;
            tables[question.tables.len()] += 1;
        }
        let tuples = left.counts.tuples as usize;
        let boxes = left.counts.boxes as usize;
        let mut rooms = Vec::new();
        rooms.extend((0..=boxes.min(16)).map(|boxes| (TUPLES, boxes)));
        rooms.extend((boxes.saturating_sub(6)..=boxes).map(|boxes| (TUPLES, boxes)));
        rooms.extend((0..=tuples.min(8)).map(|tuples| (tuples, BOXES)));
        rooms.extend((tuples.saturating_sub(3)..=tuples).map(|tuples| (tuples, boxes)));
        rooms.extend((0..6).map(|_| (random.below(tuples + 1), random.below(boxes + 1))));
        for (tuples, boxes) in rooms {
            let store = about(&mut random, boxes);
            seen.run(&what, &mut random, &words, tuples, store);
        }
    }
    seen.finish("one attribute", 1_000);
    opens.finish("one attribute", 100, 50);
    ranges.finish("one attribute", 100, 100);
    println!("one attribute: with a resolution, by widths {widths:?}, by tables {tables:?}");
    assert!(widths[1..].iter().all(|&count| count >= 50));
    assert!(tables[1..].iter().all(|&count| count >= 10));
}

/// All questions over one attribute of a few small shapes, in each room for boxes and each for tuples.
#[test]
fn small_questions_in_every_room() {
    let mut seen = Seen::new();
    let mut random = Random::new(71_000_000);
    let mut tried = 0;
    small_questions(|question| {
        if question.widths.len() > 1 {
            return;
        }
        tried += 1;
        let words = question.words();
        for Lengths { listing, store, .. } in every_room(&mut random, question) {
            seen.run("a small one", &mut random, &words, listing, store);
        }
    });
    println!("small questions: {tried} questions");
    // Of three bits any rows or pairs; of two bits two tables, of one bit three, each any or open, but not all open.
    assert_eq!(tried, (256 + 1_597) + (51 * 51 - 1) + (10 * 10 * 10 - 1));
    seen.finish("small questions", 500);
}

/// One word changed, a word more, some words less, or every table open: what is refused has no counts, and writes no
/// record.
#[test]
fn refused_runs() {
    let mut seen = Seen::new();
    let mut refused = Tally::new();
    for seed in 0..6_000 {
        let mut random = Random::new(72_000_000 + seed);
        let mut question = one_attribute(&mut random);
        let change = random.below(8);
        if change == 0 {
            let tables = question.tables.iter_mut();
            tables.for_each(|table| table.contents = Contents::Open);
        }
        let mut words = any_words(&mut random, &question);
        let at = random.below(words.len());
        match change {
            0 => {}
            1 => words.truncate(at),
            2 => words.push(random.below(3) as u16),
            3 => words[at] = random.word(),
            _ => words[at] = random.below(20) as u16,
        }
        let number = check_question(&words);
        let what = format!("a changed one, seed {seed}");
        let (listing, boxes) = (random.below(20), random.below(40));
        let store = about(&mut random, boxes);
        if number == 0 && words[0] == 1 {
            seen.run(&what, &mut random, &words, listing, store);
        } else if number != 0 {
            let left = Left::new(&mut random, &words, listing, store);
            let none = Counts {
                number,
                tuples: 0,
                boxes: 0,
                resolutions: 0,
            };
            assert_eq!(left.counts, none, "{what}: {}", show(&words));
            assert!(left.records.is_empty(), "{what}: {}", show(&words));
            refused.count(number);
        }
    }
    let numbers = REFUSALS.map(usize::from);
    refused.finish("changed ones, refused", &numbers, 20);
    let accepted = "changed ones, accepted, with a box";
    seen.boxes.finish(accepted, &[0, 13, 14], 20);
}

/// The gap boxes and the tuples of one table have no value in common, and together they have all: so a complete run has
/// just one resolution less than these.
#[test]
fn one_table_alone() {
    let mut seen = Seen::new();
    let mut random = Random::new(73_000_000);
    let mut resolved = 0;
    for _ in 0..3_000 {
        let mut question = one_attribute(&mut random);
        question.tables.retain(|table| !table.is_open());
        question.tables.truncate(1);
        let words = question.words();
        let left = seen.run("alone", &mut random, &words, TUPLES, RECORD_WORDS * BOXES);
        if left.counts.number == 0 {
            assert_eq!(left.counts.resolutions + 1, left.others(), "{words:?}");
            resolved += usize::from(left.counts.resolutions > 0);
        }
    }
    seen.sharp.finish("one table alone, one less", &[0], 2_000);
    assert!(resolved >= 1_500, "{resolved} with a resolution");
}

/// No smaller bound holds, at any width: a single row has a gap box for each bit and a tuple, and a resolution for each
/// bit; the whole range as one pair has every value as a tuple and no gap box.
#[test]
fn sharp_at_every_width() {
    let mut random = Random::new(74_000_000);
    for width in 1..=16 {
        let values = [0, 1, top(width) / 2, top(width), random.word() & top(width)];
        for value in values {
            let question = Question {
                widths: vec![width],
                tables: vec![Table::with_rows(vec![0], vec![vec![value]])],
            };
            let what = format!("the row {value} of {width} bits");
            let store = about(&mut random, 2 * width as usize + 1);
            let left = Left::new(&mut random, &question.words(), 1, store);
            left.see_counts(&what);
            left.see_bound(&what);
            assert_eq!(left.summary(), (0, 1, width, width + 1), "{what}");
            assert_eq!(left.listing, [value], "{what}");
        }
    }
    for width in 1..=16 {
        let question = Question {
            widths: vec![width],
            tables: vec![Table::with_pairs(0, vec![(0, top(width))])],
        };
        let words = question.words();
        let what = format!("the whole range of {width} bits");
        let mut listing = vec![0; 1 << width];
        let mut store = vec![UNWRITTEN; RECORD_WORDS << width << 1];
        let mut scratch = vec![0; 12 << width << 1];
        let counts = boxjoin::run_with(&words, &mut listing, &mut store, &mut scratch);
        let left = Left::of(&words, counts, listing, &store);
        left.see_counts(&what);
        left.see_bound(&what);
        let all = 1 << width;
        if width < 16 {
            assert_eq!(left.summary(), (0, all, all - 1, all), "{what}");
        } else {
            // It would take 131,071 boxes. With 65,536 of them the lower half is resolved, its 32,768 tuples in 32,767
            // steps, and the box of one tuple more is stored; that of the next, which is listed, has no place.
            assert_eq!(left.summary(), (14, 32_770, 32_767, 32_769), "{what}");
        }
        let mut listed = left.listing.iter().zip(0..);
        assert!(listed.all(|(&value, nth)| value == nth), "{what}");
    }
}

/// The first attribute has both its values, the second one: a question of two attributes with as many resolutions as
/// other boxes. The gap box of the second table is resolved for each value of the first attribute.
#[test]
fn two_attributes() {
    let words = [2, 1, 1, 2, 1, 0, 2, 0, 1, 1, 1, 1, 0];
    // The two intervals, the kind and the origins of each record, by the paper's steps:
    let due: [[u32; 5]; 6] = [
        // At (0, 0) no table has a gap box: it is listed.
        [2, 2, TUPLE, 0, 0],
        // At (0, 1) the second table has one.
        [1, 3, GAP, 1, 0],
        // Now 0 is covered: its lower half by the tuple, its upper one by the gap box.
        [2, 1, RESOLVENT, 0, 1],
        // At (1, 0) none has: it is listed.
        [3, 2, TUPLE, 1, 0],
        // (1, 1) lies in the gap box of before, which is resolved once more.
        [3, 1, RESOLVENT, 3, 1],
        [1, 1, RESOLVENT, 2, 4],
    ];
    let mut records = Vec::new();
    for [first, second, kind, lower, upper] in due {
        let mut record = vec![1; RECORD_WORDS];
        record[..2].copy_from_slice(&[first, second]);
        record[MAX_ATTRIBUTES..].copy_from_slice(&[kind, lower, upper]);
        records.push(record);
    }
    let mut random = Random::new(75_000_000);
    for _ in 0..20 {
        let store = about(&mut random, 6);
        let left = Left::new(&mut random, &words, 4, store);
        left.see_counts("two attributes");
        assert_eq!(left.summary(), (0, 2, 3, 3));
        assert_eq!(left.listing, [0, 0, 1, 0]);
        assert_eq!(left.records, records);
        assert_eq!(left.uses(), [1, 2, 1, 1, 1, 0]);
    }
}

/// With a first attribute that has all its values, and a single one of each other, there are ever more resolutions:
/// each gap box of these is resolved for each value of the first.
#[test]
fn more_values_and_attributes() {
    let mut random = Random::new(76_000_000);
    let mut most = 0;
    let two = (1..=16).map(|width| (2, width));
    let more = (3..=MAX_ATTRIBUTES).map(|n| (n, 16));
    for (n, width) in two.chain(more) {
        for bits in 1..=5 {
            let values = 1 << bits;
            let all = (0..values as u16).map(|value| vec![value]).collect();
            let mut tables = vec![Table::with_rows(vec![0], all)];
            let mut single = |a| Table::with_rows(vec![a], vec![vec![random.word() & top(width)]]);
            tables.extend((1..n).map(&mut single));
            let mut widths = vec![bits];
            widths.resize(n, width);
            let question = Question { widths, tables };
            let words = question.words();
            let what = format!("{values} values, {n} attributes of {width} bits");
            let mut listing = vec![0; n * values as usize];
            let mut store = vec![UNWRITTEN; RECORD_WORDS * 6_000];
            let mut scratch = vec![0; 72_000];
            let counts = boxjoin::run_with(&words, &mut listing, &mut store, &mut scratch);
            let left = Left::of(&words, counts, listing, &store);
            left.see_counts(&what);
            // A gap box for each bit of the other attributes.
            let gaps = width * (n as u32 - 1);
            let resolutions = values * gaps + values - 1;
            let due = (0, values, resolutions, values + gaps);
            assert_eq!(left.summary(), due, "{what}");
            for (record, uses) in left.records.iter().zip(left.uses()) {
                if record[MAX_ATTRIBUTES] == GAP {
                    assert_eq!(uses, values as usize, "{what}");
                }
            }
            most = most.max(left.counts.resolutions / left.others());
        }
    }
    println!("more values and attributes: up to {most} times as many");
    assert_eq!(most, 27);
}
