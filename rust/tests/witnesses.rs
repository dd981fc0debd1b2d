//! The choice of a witness: of the stored boxes that hold a target, the one with the fewest bits, the earliest among
//! equals. Another choice leaves the same listing and other records. So the records of some small questions stand here
//! word by word, and of random ones those are counted that would have betrayed another choice.

mod common;

use boxjoin::plain::{bits, box_holds, gap_box, run_by, Look, Question, Run, Table};
use boxjoin::plain::{GAP, RESOLVENT, TUPLE};
use boxjoin::random::{any_words, question, Random};
use boxjoin::{Counts, MAX_ATTRIBUTES, RECORD_WORDS};
use common::{compare, Buffer, Lengths, Tally, Trial, AMPLE};

/// A stored box that holds the target: its number and its bits.
#[derive(Clone, Copy)]
struct Holding {
    number: usize,
    bits: u32,
}

/// A scan with another choice: whether the next box that holds the target is taken in place of the one so far.
struct Other<F>(F);

impl<F: Fn(Holding, Holding) -> bool> Look for Other<F> {
    fn keep(&mut self, _: &[u32]) {}

    fn witness(&self, store: &[u32], held: &[u32]) -> Option<usize> {
        let mut taken: Option<Holding> = None;
        for (number, holder) in store.chunks_exact(held.len()).enumerate() {
            let bits = bits(holder);
            let next = Holding { number, bits };
            if box_holds(holder, held) && taken.is_none_or(|so_far| (self.0)(so_far, next)) {
                taken = Some(next);
            }
        }
        taken.map(|taken| taken.number)
    }

    fn gap(&self, question: &Question, table: usize, point: &[u16]) -> Option<Vec<u32>> {
        gap_box(question, table, point)
    }
}

/// The run in which the earliest box that holds the target is its witness, however narrow.
fn earliest(words: &[u16], lengths: Lengths) -> Run {
    let never = |_, _| false;
    run_by(Other(never), words, lengths.listing, lengths.store)
}

/// The run in which the latest of the widest is the witness.
fn latest(words: &[u16], lengths: Lengths) -> Run {
    let no_narrower = |so_far: Holding, next: Holding| next.bits <= so_far.bits;
    run_by(Other(no_narrower), words, lengths.listing, lengths.store)
}

/// The run in which the widest of the first so many boxes is the witness if any of them holds the target, however wide
/// the others are: that of a tree which holds just these, and is believed.
fn of_the_first(first: usize, words: &[u16], lengths: Lengths) -> Run {
    let choice = |so_far: Holding, next: Holding| {
        next.bits < so_far.bits && (so_far.number >= first || next.number < first)
    };
    run_by(Other(choice), words, lengths.listing, lengths.store)
}

/// A question, the listing and the records of its run, and what other choices would leave.
struct Case {
    what: &'static str,
    words: &'static [u16],
    listing: &'static [u16],
    /// For each record an interval for each attribute, the kind and the origins.
    records: &'static [&'static [u32]],
    /// The counts with the earliest box as witness, and the first record that is another then, if there is one.
    earliest: ([u32; 3], Option<usize>),
    /// The first record that is another with the latest of the widest, if there is one.
    latest: Option<usize>,
}

/// Found by a program apart from this one and from the library, which follows the paper's sentences.
const CASES: [Case; 6] = [
    // Both tables have a gap box at (0, 0). They are records 0 and 1, of 2 bits and of 1, and both hold the lower half of
    // the target (2, 1): its witness is 1, and 0 would be the earliest.
    Case {
        what: "the paper's sample text",
        words: &[2, 1, 1, 2, 2, 0, 1, 2, 0, 1, 1, 0, 1, 1, 1, 1],
        listing: &[0, 1],
        records: &[
            &[2, 2, GAP, 0, 0],
            &[1, 2, GAP, 1, 0],
            &[2, 3, TUPLE, 0, 0],
            &[2, 1, RESOLVENT, 1, 2],
            &[3, 3, GAP, 0, 0],
            &[3, 1, RESOLVENT, 1, 4],
            &[1, 1, RESOLVENT, 3, 5],
        ],
        earliest: ([1, 7, 3], Some(3)),
        latest: None,
    },
    Case {
        what: "the same with a row less",
        words: &[2, 1, 1, 2, 2, 0, 1, 1, 0, 1, 1, 1, 1, 1],
        listing: &[0, 1],
        records: &[
            &[2, 2, GAP, 0, 0],
            &[1, 2, GAP, 1, 0],
            &[2, 3, TUPLE, 0, 0],
            &[2, 1, RESOLVENT, 1, 2],
            &[3, 1, GAP, 0, 0],
            &[1, 1, RESOLVENT, 3, 4],
        ],
        earliest: ([1, 6, 2], Some(3)),
        latest: None,
    },
    // Records 4 and 5 both hold the target (3, 3, 2), and both have 2 bits: 4 is the witness, the earlier one.
    Case {
        what: "a tie",
        words: &[3, 1, 1, 1, 2, 2, 1, 2, 2, 0, 1, 1, 1, 2, 0, 2, 1, 1, 1],
        listing: &[1, 0, 1, 1, 1, 1],
        records: &[
            &[1, 2, 2, GAP, 0, 0],
            &[2, 1, 1, GAP, 1, 0],
            &[3, 2, 3, TUPLE, 0, 0],
            &[3, 2, 1, RESOLVENT, 0, 2],
            &[1, 3, 2, GAP, 0, 0],
            &[3, 1, 2, GAP, 1, 0],
            &[3, 3, 3, TUPLE, 1, 0],
            &[3, 3, 1, RESOLVENT, 4, 6],
            &[3, 1, 1, RESOLVENT, 3, 7],
            &[1, 1, 1, RESOLVENT, 1, 8],
        ],
        earliest: ([2, 10, 4], None),
        latest: Some(7),
    },
    // Records 1 and 2, of 2 bits and of 1, both hold (2, 2, 3). With the wider one the resolvent is (2, 1, 1) at once; with
    // the earlier one it is (2, 2, 1), and a further one follows.
    Case {
        what: "a box less than with the earliest",
        words: &[
            3, 1, 1, 1, 4, 2, 0, 2, 1, 0, 1, 2, 1, 2, 2, 0, 0, 1, 1, 1, 2, 1, 0, 2, 0, 1, 2, 0, 0,
            1, 0,
        ],
        listing: &[],
        records: &[
            &[2, 1, 2, GAP, 0, 0],
            &[1, 2, 3, GAP, 1, 0],
            &[1, 1, 3, GAP, 2, 0],
            &[2, 1, 1, RESOLVENT, 0, 2],
            &[3, 1, 1, GAP, 0, 0],
            &[1, 1, 1, RESOLVENT, 3, 4],
        ],
        earliest: ([0, 7, 3], Some(3)),
        latest: None,
    },
    // Records 3 and 4, of 2 bits and of 1, both hold (2, 3, 1). `examples/unconnected.txt` is its text.
    Case {
        what: "the example's lines that are not connected",
        words: &[
            3, 1, 1, 1, 3, 2, 0, 1, 2, 0, 0, 1, 1, 2, 1, 2, 1, 0, 0, 1, 2, 1, 1,
        ],
        listing: &[],
        records: &[
            &[1, 1, 2, GAP, 2, 0],
            &[1, 2, 3, GAP, 1, 0],
            &[1, 2, 1, RESOLVENT, 0, 1],
            &[2, 3, 1, GAP, 0, 0],
            &[1, 3, 1, GAP, 1, 0],
            &[1, 1, 1, RESOLVENT, 2, 4],
        ],
        earliest: ([0, 7, 3], Some(5)),
        latest: None,
    },
    // Fewer boxes are not promised. Records 4 and 5, of 4 bits and of 2, both hold (15, 2, 3). The wider one is the narrower
    // at the second attribute: its resolvent with record 3 is (15, 2, 1), and (15, 1, 1) is one more.
    Case {
        what: "a box more than with the earliest",
        words: &[
            3, 3, 1, 1, 3, 2, 0, 2, 1, 7, 0, 2, 0, 2, 1, 7, 1, 2, 1, 2, 1, 0, 0,
        ],
        listing: &[],
        records: &[
            &[2, 1, 1, GAP, 0, 0],
            &[6, 1, 1, GAP, 0, 0],
            &[14, 1, 1, GAP, 0, 0],
            &[15, 1, 2, GAP, 1, 0],
            &[15, 1, 3, GAP, 0, 0],
            &[1, 2, 3, GAP, 2, 0],
            &[15, 2, 1, RESOLVENT, 3, 5],
            &[15, 1, 1, RESOLVENT, 3, 4],
            &[7, 1, 1, RESOLVENT, 2, 7],
            &[3, 1, 1, RESOLVENT, 1, 8],
            &[1, 1, 1, RESOLVENT, 0, 9],
        ],
        earliest: ([0, 10, 4], Some(6)),
        latest: None,
    },
];

impl Case {
    fn attributes(&self) -> usize {
        self.words[0] as usize
    }

    /// The records' words.
    fn store(&self) -> Vec<u32> {
        let mut store = Vec::new();
        for record in self.records {
            let (intervals, rest) = record.split_at(self.attributes());
            store.extend(intervals);
            store.resize(store.len() + MAX_ATTRIBUTES - intervals.len(), 1);
            store.extend(rest);
        }
        store
    }

    /// The answer with room for so many boxes. A tuple whose box has no place is listed.
    fn counts(&self, boxes: usize) -> Counts {
        let of_kind = |kind: u32, records: &[&[u32]]| {
            let is_so = |record: &&&[u32]| record[self.attributes()] == kind;
            records.iter().filter(is_so).count() as u32
        };
        let all = self.records.len();
        Counts {
            number: if boxes < all { 14 } else { 0 },
            tuples: of_kind(TUPLE, &self.records[..all.min(boxes + 1)]),
            boxes: all.min(boxes) as u32,
            resolutions: of_kind(RESOLVENT, &self.records[..all.min(boxes)]),
        }
    }

    /// Sees what the library writes with room for so many boxes, with a scratch of this length if there is one.
    fn see(&self, boxes: usize, scratch: Option<usize>) {
        let what = format!("{}, {boxes} boxes, scratch {scratch:?}", self.what);
        let mut listing = vec![77; self.listing.len() + 2];
        let mut store = vec![77; RECORD_WORDS * boxes + 4];
        let counts = match scratch {
            None => boxjoin::run(self.words, &mut listing, &mut store),
            Some(len) => {
                boxjoin::run_with(self.words, &mut listing, &mut store, &mut vec![77; len])
            }
        };
        let due = self.counts(boxes);
        assert_eq!(counts, due, "{what}");
        let words = due.tuples as usize * self.attributes();
        let (listed, kept) = listing.split_at(words);
        assert_eq!(listed, &self.listing[..words], "{what}");
        assert!(kept.iter().all(|&word| word == 77), "{what}");
        let words = due.boxes as usize * RECORD_WORDS;
        let (stored, kept) = store.split_at(words);
        assert_eq!(stored, &self.store()[..words], "{what}");
        assert!(kept.iter().all(|&word| word == 77), "{what}");
    }

    /// The first record that is another in this run, if there is one.
    fn differs(&self, run: &Run) -> Option<usize> {
        let store = self.store();
        let mut at = 0..store.len().max(run.store.len());
        let at = at.find(|&at| store.get(at) != run.store.get(at));
        at.map(|at| at / RECORD_WORDS)
    }
}

/// With each room for boxes, and each scratch from none to more than enough.
#[test]
fn every_word() {
    for case in &CASES {
        for boxes in 0..=case.records.len() + 1 {
            case.see(boxes, None);
            for scratch in 0..=130 {
                case.see(boxes, Some(scratch));
            }
            case.see(boxes, Some(2_000));
        }
    }
    println!("the choice of a witness: {} questions", CASES.len());
}

/// The plain steps leave these records too, and with other choices what is said of each question.
#[test]
fn other_choices() {
    for case in &CASES {
        let what = case.what;
        for run in [boxjoin::plain::run, boxjoin::plain::run_by_tree] {
            let run = run(case.words, AMPLE.listing, AMPLE.store);
            assert_eq!((run.number, case.differs(&run)), (0, None), "{what}");
            assert_eq!(run.listing, case.listing, "{what}");
        }
        let (counts, differs) = case.earliest;
        let run = earliest(case.words, AMPLE);
        assert_eq!([run.tuples, run.boxes, run.resolutions], counts, "{what}");
        assert_eq!(case.differs(&run), differs, "{what}");
        assert_eq!(run.listing, case.listing, "{what}");
        let run = latest(case.words, AMPLE);
        assert_eq!(case.differs(&run), case.latest, "{what}");
        assert_eq!(run.listing, case.listing, "{what}");
    }
}

/// A question over three to five attributes with these tables, of up to seven random rows each.
fn with_rows(random: &mut Random, tables: impl Fn(usize) -> Vec<Vec<usize>>) -> Question {
    let n = random.from_to(3, 5);
    let widths: Vec<u32> = (0..n).map(|_| random.from_to(1, 3) as u32).collect();
    let tables = tables(n).into_iter().map(|attributes| {
        let rows = (0..random.from_to(1, 7)).map(|_| {
            let value = |&a: &usize| random.below(1 << widths[a]) as u16;
            attributes.iter().map(value).collect()
        });
        let mut rows: Vec<Vec<u16>> = rows.collect();
        rows.sort();
        rows.dedup();
        Table::with_rows(attributes, rows)
    });
    let tables = tables.collect();
    Question { widths, tables }
}

/// Each attribute with the next, and the last one alone, as lines that are connected are: there the choice often changes
/// the number of boxes.
fn chain(n: usize) -> Vec<Vec<usize>> {
    let next = (1..n).map(|a| vec![a - 1, a]);
    next.chain([vec![n - 1]]).collect()
}

/// Each attribute with the last one, as all that a centre can be reached by is: there boxes are often equally wide.
fn star(n: usize) -> Vec<Vec<usize>> {
    (0..n - 1).rev().map(|a| vec![a, n - 1]).collect()
}

/// How many of the questions would have betrayed another choice.
#[derive(Debug, Default)]
struct Betrayed {
    questions: usize,
    /// By other records: with the earliest box as witness, with the latest of the widest, and where a tree is believed that
    /// holds some of the boxes only.
    earliest: usize,
    latest: usize,
    of_the_first: usize,
    /// By more boxes with the earliest; by fewer. With room for the fewer ones just one of the two choices is complete.
    more: usize,
    fewer: usize,
}

impl Betrayed {
    /// Runs the question in the library without a scratch and with several, and counts what other choices leave.
    fn count(&mut self, what: &str, random: &mut Random, words: &[u16], tally: &mut Tally) {
        let trial = Trial::new(what, words, AMPLE);
        trial.compare(random, None);
        // Too short for the tree of most runs; and so long that it holds nearly all boxes.
        for most in [40, 400, 4_000] {
            let len = random.below(most);
            let mut scratch = Buffer::new(random, len, |r| r as u32);
            trial.compare(random, Some(&mut scratch));
        }
        let run = &trial.run;
        tally.count(run.number);
        let other = earliest(words, AMPLE);
        let first = random.below(run.boxes as usize + 1);
        self.questions += 1;
        self.earliest += usize::from(other.store != run.store);
        self.latest += usize::from(latest(words, AMPLE).store != run.store);
        self.of_the_first += usize::from(of_the_first(first, words, AMPLE).store != run.store);
        if (run.number, other.number) == (0, 0) && run.boxes != other.boxes {
            assert_eq!(run.listing, other.listing, "{what}");
            let lengths = Lengths {
                store: run.store.len().min(other.store.len()),
                ..AMPLE
            };
            let due = if run.boxes < other.boxes { 0 } else { 14 };
            assert_eq!(compare(what, random, words, lengths).number, due, "{what}");
            tally.count(due);
            self.more += usize::from(other.boxes > run.boxes);
            self.fewer += usize::from(other.boxes < run.boxes);
        }
    }

    /// Prints one line, and sees that each choice was betrayed at least so often.
    fn finish(&self, what: &str, least: [usize; 5]) {
        println!("{what}: {self:?}");
        let records = [self.earliest, self.latest, self.of_the_first];
        let had = [records.as_slice(), &[self.more, self.fewer]].concat();
        assert!(
            had.iter().zip(least).all(|(&had, least)| had >= least),
            "{what}: too few"
        );
    }
}

#[test]
fn random_questions() {
    let (mut tally, mut betrayed) = (Tally::new(), Betrayed::default());
    for seed in 0..3_000 {
        let mut random = Random::new(77_000_000 + seed);
        let question = question(&mut random);
        let words = any_words(&mut random, &question);
        let what = format!("question of seed {seed}");
        betrayed.count(&what, &mut random, &words, &mut tally);
    }
    tally.finish("witnesses in random questions", &[0, 14], 500);
    betrayed.finish("witnesses in random questions", [300, 30, 30, 10, 0]);
}

#[test]
fn chains_and_stars() {
    let (mut tally, mut betrayed) = (Tally::new(), Betrayed::default());
    for seed in 0..3_000 {
        let mut random = Random::new(78_000_000 + seed);
        let tables = random.pick(&[chain, star]);
        let words = with_rows(&mut random, tables).words();
        let what = format!("chain or star of seed {seed}");
        betrayed.count(&what, &mut random, &words, &mut tally);
    }
    tally.finish("witnesses in chains and stars", &[0], 2_000);
    betrayed.finish("witnesses in chains and stars", [1_000, 300, 100, 200, 40]);
}
