//! What several test files use.
#![allow(dead_code)]

pub mod certificates;
pub mod csv_calls;
pub mod join_calls;

use boxjoin::plain::{self, Contents, Question, Table, GAP, MOST_ATTRIBUTES, MOST_BOXES, RECORD};
use boxjoin::random::{all_but_one, Random};

/// One more than the highest number of all.
const NUMBERS: usize = 29;

/// How often each number was the outcome.
pub struct Tally(pub [usize; NUMBERS]);

impl Tally {
    pub fn new() -> Tally {
        Tally([0; NUMBERS])
    }

    pub fn count(&mut self, number: u8) {
        self.0[number as usize] += 1;
    }

    /// Prints one line, and sees that each of the numbers came up at least so often.
    pub fn finish(&self, what: &str, numbers: &[usize], least: usize) {
        println!("{}", self.line(what));
        self.had(what, numbers, least);
    }

    fn line(&self, what: &str) -> String {
        let mut line = format!("{what}: {} tried;", self.0.iter().sum::<usize>());
        for (number, count) in self.0.iter().enumerate() {
            if *count > 0 {
                line += &format!(" {number}: {count},");
            }
        }
        line.trim_end_matches(',').to_string()
    }

    /// Sees that each of the numbers came up at least so often.
    pub fn had(&self, what: &str, numbers: &[usize], least: usize) {
        for &number in numbers {
            assert!(self.0[number] >= least, "{what}: too few with {number}");
        }
    }
}

/// How many questions had open tables, and which.
#[derive(Debug, Default)]
pub struct Opens {
    questions: usize,
    /// With an open table; with several.
    one: usize,
    several: usize,
    /// In which all but one of an attribute's tables are open.
    all_but_one: usize,
    /// Whose last word is the mark.
    last: usize,
    /// Which have a table without rows beside open ones.
    beside_empty: usize,
}

impl Opens {
    pub fn new() -> Opens {
        Opens::default()
    }

    pub fn count(&mut self, question: &Question) {
        let open = question.tables.iter().filter(|table| table.is_open());
        let open = open.count();
        let empty = |table: &Table| table.rows().is_some_and(Vec::is_empty);
        let attributes = 0..question.widths.len();
        let last = question.tables.last().is_some_and(Table::is_open);
        self.questions += 1;
        self.one += usize::from(open > 0);
        self.several += usize::from(open > 1);
        self.all_but_one += usize::from(attributes.into_iter().any(|a| all_but_one(question, a)));
        self.last += usize::from(last);
        self.beside_empty += usize::from(open > 0 && question.tables.iter().any(empty));
    }

    /// Prints one line, and sees that each kind came up at least so often, tables without rows beside open ones at
    /// least `beside_empty` times.
    pub fn finish(&self, what: &str, least: usize, beside_empty: usize) {
        println!(
            "{what}: of {} questions {} have open tables, {} several, {} all but one of an attribute's, {} as the last word, {} beside one without rows",
            self.questions, self.one, self.several, self.all_but_one, self.last, self.beside_empty
        );
        let kinds = [self.one, self.several, self.all_but_one, self.last];
        let enough = kinds.iter().all(|&count| count >= least);
        assert!(
            enough && self.beside_empty >= beside_empty,
            "{what}: too few open tables"
        );
    }
}

/// How many questions had range tables, and which.
#[derive(Debug, Default)]
pub struct Ranges {
    questions: usize,
    /// With a range table; with several; with an open table too.
    one: usize,
    several: usize,
    beside_open: usize,
    /// In which an attribute stands in range tables alone, or in those and open ones.
    alone: usize,
    /// With a range table without pairs; with the whole range as one pair; with a pair of one value; with two pairs that
    /// touch; with a pair at each end of the width.
    none: usize,
    whole: usize,
    single: usize,
    touching: usize,
    ends: usize,
    /// With a hundred pairs or more in a table.
    pub many: usize,
}

impl Ranges {
    pub fn new() -> Ranges {
        Ranges::default()
    }

    pub fn count(&mut self, question: &Question) {
        let ranges = question.tables.iter().filter(|table| table.is_range());
        let ranges = ranges.count();
        let filled = question.tables.iter().filter(|t| t.rows().is_some());
        let filled: Vec<usize> = filled.flat_map(|table| table.attributes.clone()).collect();
        let has = |so: fn(&[(u16, u16)], u16) -> bool| {
            let is_so = |table: &Table| {
                let top = plain::top(question.widths[table.attributes[0]]);
                table.pairs().is_some_and(|pairs| so(pairs, top))
            };
            usize::from(question.tables.iter().any(is_so))
        };
        self.questions += 1;
        self.one += usize::from(ranges > 0);
        self.several += usize::from(ranges > 1);
        self.beside_open += usize::from(ranges > 0 && question.tables.iter().any(Table::is_open));
        self.alone += usize::from((0..question.widths.len()).any(|a| !filled.contains(&a)));
        self.none += has(|pairs, _| pairs.is_empty());
        self.whole += has(|pairs, top| *pairs == [(0, top)]);
        self.single += has(|pairs, _| pairs.iter().any(|pair| pair.0 == pair.1));
        self.touching += has(|pairs, _| pairs.windows(2).any(|two| two[0].1 + 1 == two[1].0));
        self.ends += has(|pairs, top| match pairs {
            [(lowest, _), .., (_, highest)] => (*lowest, *highest) == (0, top),
            _ => false,
        });
        self.many += has(|pairs, _| pairs.len() >= 100);
    }

    /// Prints one line, and sees that each kind came up at least so often, range tables without pairs and attributes in
    /// range tables alone at least `rare` times.
    pub fn finish(&self, what: &str, least: usize, rare: usize) {
        println!(
            "{what}: of {} questions {} have range tables, {} several, {} beside open ones, {} alone over an attribute, {} without pairs, {} the whole range, {} single values, {} touching pairs, {} pairs at both ends, {} a hundred pairs or more",
            self.questions, self.one, self.several, self.beside_open, self.alone, self.none, self.whole, self.single,
            self.touching, self.ends, self.many
        );
        let of_pairs = [self.whole, self.single, self.touching, self.ends];
        let of_tables = [self.one, self.several, self.beside_open];
        let mut kinds = of_pairs.iter().chain(&of_tables);
        assert!(
            kinds.all(|&count| count >= least) && self.alone >= rare && self.none >= rare,
            "{what}: too few range tables"
        );
    }
}

/// A buffer of random words, with random words before and after the part that is lent.
pub struct Buffer<T> {
    words: Vec<T>,
    front: usize,
    len: usize,
}

impl<T: Copy + PartialEq + std::fmt::Debug> Buffer<T> {
    pub fn new(random: &mut Random, len: usize, word: impl Fn(u64) -> T) -> Buffer<T> {
        let front = random.below(6);
        let words = (0..front + len + 5).map(|_| word(random.number() >> 16));
        Buffer {
            words: words.collect(),
            front,
            len,
        }
    }

    /// A buffer whose lent part has these words.
    pub fn of(random: &mut Random, lent: &[T], word: impl Fn(u64) -> T) -> Buffer<T> {
        let mut buffer = Buffer::new(random, lent.len(), word);
        buffer.lent().copy_from_slice(lent);
        buffer
    }

    pub fn lent(&mut self) -> &mut [T] {
        &mut self.words[self.front..self.front + self.len]
    }

    /// The words before and after the lent part.
    pub fn beside(&self) -> Vec<T> {
        let (before, from) = self.words.split_at(self.front);
        [before, &from[self.len..]].concat()
    }

    /// All words if these are written at the front of the lent part.
    pub fn expected(&self, written: &[T]) -> Vec<T> {
        assert!(written.len() <= self.len);
        let mut words = self.words.clone();
        words[self.front..self.front + written.len()].copy_from_slice(written);
        words
    }

    /// Says the first difference, if any.
    pub fn differs(&self, expected: &[T]) -> Option<String> {
        let at = (0..expected.len()).find(|&i| self.words[i] != expected[i])?;
        Some(format!(
            "word {} of {} is {:?}, not {:?}",
            at as isize - self.front as isize,
            self.len,
            self.words[at],
            expected[at]
        ))
    }
}

/// The lengths of the buffers of one run.
#[derive(Clone, Copy, Debug)]
pub struct Lengths {
    pub listing: usize,
    pub store: usize,
    pub counts: usize,
}

/// Sees that the check of these words says this number, in the library and in the plain model.
pub fn check(what: &str, words: &[u16], number: u8) {
    let read = plain::read(words).err().unwrap_or(0);
    assert_eq!(read, number, "the plain model on {what}: {}", show(words));
    let told = boxjoin::check_question(words);
    assert_eq!(told, number, "{what}: {}", show(words));
}

/// Runs a question with the library and with the plain model, compares every word of every buffer, and
/// hands back the model's run.
pub fn compare(what: &str, random: &mut Random, question: &[u16], lengths: Lengths) -> plain::Run {
    let trial = Trial::new(what, question, lengths);
    trial.compare(random, None);
    trial.run
}

/// A question, the lengths of its buffers, and the model's run with them.
pub struct Trial<'a> {
    what: &'a str,
    question: &'a [u16],
    lengths: Lengths,
    pub run: plain::Run,
}

impl<'a> Trial<'a> {
    pub fn new(what: &'a str, question: &'a [u16], lengths: Lengths) -> Trial<'a> {
        Trial {
            what,
            question,
            lengths,
            run: plain::run(question, lengths.listing, lengths.store),
        }
    }

    /// The same, sooner where there are very many boxes.
    pub fn by_tree(what: &'a str, question: &'a [u16], lengths: Lengths) -> Trial<'a> {
        Trial {
            what,
            question,
            lengths,
            run: plain::run_by_tree(question, lengths.listing, lengths.store),
        }
    }

    /// Runs the question with the library, with a scratch if there is one, and compares every word of every
    /// buffer with what the model's run says. The scratch may have any words after a run, but beside it
    /// nothing may change, and a refused question leaves every word of it.
    pub fn compare(&self, random: &mut Random, mut scratch: Option<&mut Buffer<u32>>) {
        let (run, lengths) = (&self.run, self.lengths);
        let mut words = Buffer::of(random, self.question, |r| r as u16);
        let mut listing = Buffer::new(random, lengths.listing, |r| r as u16);
        let mut store = Buffer::new(random, lengths.store, |r| r as u32);
        let mut counts = Buffer::new(random, lengths.counts, |r| r as u32);
        let expected_words = words.expected(&[]);
        let expected_listing = listing.expected(&run.listing);
        let expected_store = store.expected(&run.store);
        let three = [run.tuples, run.boxes, run.resolutions];
        let expected_counts = counts.expected(&three[..lengths.counts.min(3)]);
        let beside = scratch.as_ref().map(|s| s.beside());
        let before = scratch.as_ref().map(|s| s.expected(&[]));

        let (q, l, s, c) = (words.lent(), listing.lent(), store.lent(), counts.lent());
        let number = match &mut scratch {
            None => boxjoin::run_into(q, l, s, c),
            Some(scratch) => boxjoin::run_with_into(q, l, s, scratch.lent(), c),
        };

        let mut trouble = Vec::new();
        if number != run.number {
            trouble.push(format!("the number is {number}, not {}", run.number));
        }
        let buffers = [
            ("question", words.differs(&expected_words)),
            ("counts", counts.differs(&expected_counts)),
            ("listing", listing.differs(&expected_listing)),
            ("store", store.differs(&expected_store)),
        ];
        for (name, differs) in buffers {
            if let Some(differs) = differs {
                trouble.push(format!("{name}: {differs}"));
            }
        }
        if scratch.as_ref().map(|s| s.beside()) != beside {
            trouble.push("a word beside the scratch is changed".to_string());
        }
        if plain::is_refusal(run.number) {
            let differs = scratch
                .as_ref()
                .zip(before)
                .and_then(|(s, b)| s.differs(&b));
            trouble.extend(differs.map(|differs| format!("scratch: {differs}")));
        }
        if !trouble.is_empty() {
            panic!(
                "{}: {}\nlengths {lengths:?}, scratch {:?}\ncounts should be {three:?}\nquestion {}",
                self.what,
                trouble.join("; "),
                scratch.map(|s| s.lent().len()),
                show(self.question)
            );
        }
    }
}

/// The words of a question, cut short if there are very many.
pub fn show(question: &[u16]) -> String {
    if question.len() <= 2_000 {
        format!("{question:?}")
    } else {
        format!("{:?}... of {} words", &question[..200], question.len())
    }
}

/// The number that the print of a text says.
pub fn outcome(printed: &[u8]) -> u8 {
    let printed = String::from_utf8(printed.to_vec()).unwrap();
    let fields: Vec<&str> = printed.lines().last().unwrap().split(' ').collect();
    match fields[0] {
        "complete" => 0,
        _ => fields[1].parse().unwrap(),
    }
}

/// Lengths of a listing around every limit: `exact` words are needed.
pub fn listing_lengths(n: usize, exact: usize) -> Vec<usize> {
    let mut lengths = vec![0, 1, n - 1, n, n + 1, 2 * n];
    lengths.extend([exact.saturating_sub(1), exact.saturating_sub(n)]);
    lengths.extend([exact, exact + 1, exact + n, exact + 100]);
    lengths
}

/// Lengths of a store around every limit: `exact` words are needed.
pub fn store_lengths(exact: usize) -> Vec<usize> {
    let mut lengths = vec![0, 1, RECORD - 1, RECORD, RECORD + 1];
    lengths.extend([2 * RECORD - 1, 2 * RECORD, 3 * RECORD]);
    lengths.extend([exact.saturating_sub(1), exact.saturating_sub(RECORD)]);
    lengths.extend([exact / 2, exact, exact + 1, exact + RECORD, exact + 500]);
    lengths
}

/// Lengths of a store with no record, with one, and with some.
pub const STORES: [usize; 7] = [0, 1, RECORD - 1, RECORD, RECORD + 1, 40, 20 * RECORD + 3];

pub const COUNTS: [usize; 6] = [0, 1, 2, 3, 4, 7];

/// The words of the rows that the bits of `set` choose among all rows of these widths, in order.
fn chosen(widths: &[u32], set: u32) -> Vec<Vec<u16>> {
    let bits: u32 = widths.iter().sum();
    let row = |number: u32| {
        let mut left = bits;
        let values = widths.iter().map(|w| {
            left -= w;
            (number >> left & ((1 << w) - 1)) as u16
        });
        values.collect()
    };
    (0..1u32 << bits)
        .filter(|r| set >> r & 1 == 1)
        .map(row)
        .collect()
}

/// All lists of pairs of this width, from those that begin at this value on.
pub fn lists_of_pairs(width: u32, from: u32) -> Vec<Vec<(u16, u16)>> {
    let mut lists = vec![Vec::new()];
    for lowest in from..1 << width {
        for highest in lowest..1 << width {
            for mut rest in lists_of_pairs(width, highest + 1) {
                rest.insert(0, (lowest as u16, highest as u16));
                lists.push(rest);
            }
        }
    }
    lists
}

/// All that a table over attributes of these widths can have: any rows, or nothing yet, or over one attribute any pairs.
fn all_contents(widths: &[u32]) -> Vec<Contents> {
    let sets = 1 << (1 << widths.iter().sum::<u32>());
    let rows = (0..sets).map(|set| Contents::Rows(chosen(widths, set)));
    let mut all: Vec<Contents> = rows.collect();
    all.push(Contents::Open);
    if let [width] = *widths {
        all.extend(lists_of_pairs(width, 0).into_iter().map(Contents::Pairs));
    }
    all
}

/// Names as long as they may be, as many as there may be.
pub fn longest_names() -> Vec<String> {
    let letters = (b'a'..).take(MOST_ATTRIBUTES);
    letters
        .map(|c| (c as char).to_string().repeat(12))
        .collect()
}

/// Hands on all accepted questions of a few shapes, in which any tables are open, and any over one attribute range
/// tables.
pub fn small_questions(mut see: impl FnMut(&Question)) {
    let shapes: [(&[u32], &[&[usize]]); 8] = [
        (&[3], &[&[0]]),
        (&[2], &[&[0], &[0]]),
        (&[1], &[&[0], &[0], &[0]]),
        (&[1, 1], &[&[0, 1], &[1], &[0]]),
        (&[2, 1], &[&[0, 1], &[1]]),
        (&[1, 2], &[&[0, 1], &[0]]),
        (&[1, 1, 1], &[&[0, 1], &[1, 2], &[0, 2]]),
        (&[1, 1, 1], &[&[0, 1, 2]]),
    ];
    for (widths, attributes) in shapes {
        // For each table all that it can have; all of these are counted through.
        let of = |table: &[usize]| table.iter().map(|&a| widths[a]).collect::<Vec<u32>>();
        let all: Vec<Vec<Contents>> = attributes.iter().map(|t| all_contents(&of(t))).collect();
        for number in 0..all.iter().map(Vec::len).product() {
            let mut rest = number;
            let mut tables = Vec::new();
            for (table, all) in attributes.iter().zip(&all) {
                tables.push(Table {
                    attributes: table.to_vec(),
                    contents: all[rest % all.len()].clone(),
                });
                rest /= all.len();
            }
            let question = Question {
                widths: widths.to_vec(),
                tables,
            };
            if plain::read(&question.words()).is_ok() {
                see(&question);
            }
        }
    }
}

/// A question with more boxes than a store holds, and lengths that are more than enough for those.
pub fn largest_store() -> (Vec<u16>, Lengths) {
    let all = |attribute| Table::with_rows(vec![attribute], (0..256).map(|v| vec![v]).collect());
    let question = Question {
        widths: vec![8, 8],
        tables: vec![all(0), all(1)],
    };
    let lengths = Lengths {
        listing: 200_000,
        store: RECORD * MOST_BOXES + 300,
        counts: 3,
    };
    (question.words(), lengths)
}

/// A run is looked at up to this many boxes where [`AMPLE`] is its room.
pub const BOXES: usize = 160;

pub const AMPLE: Lengths = Lengths {
    listing: MOST_ATTRIBUTES * BOXES,
    store: RECORD * BOXES,
    counts: 3,
};

/// The run, if its tables had these numbers.
pub fn renumbered(mut run: plain::Run, numbers: &[u32]) -> plain::Run {
    for record in run.store.chunks_exact_mut(RECORD) {
        let [kind, first, _] = &mut record[MOST_ATTRIBUTES..] else {
            unreachable!("a kind and two origins");
        };
        if *kind == GAP {
            *first = numbers[*first as usize];
        }
    }
    run
}

/// The room that the run had; then just enough for what it wrote; then a word less of each.
pub fn rooms(run: &plain::Run, had: Lengths) -> Vec<Lengths> {
    let exact = Lengths {
        listing: run.listing.len(),
        store: run.store.len(),
        counts: 3,
    };
    let shorter = Lengths {
        listing: exact.listing.saturating_sub(1),
        ..had
    };
    let smaller = Lengths {
        store: exact.store.saturating_sub(1),
        ..exact
    };
    vec![had, exact, shorter, smaller]
}

/// Sees that a table without rows or pairs emptied the join: at the first found point the whole space is a gap box, and
/// is stored as the last.
pub fn see_emptied(what: &str, run: &plain::Run) {
    let counts = (run.number, run.tuples, run.resolutions);
    assert_eq!(counts, (0, 0, 0), "{what}");
    let last = run.store.chunks_exact(RECORD).last().unwrap();
    assert_eq!(
        last[..=MOST_ATTRIBUTES],
        [[1; MOST_ATTRIBUTES].as_slice(), &[GAP]].concat(),
        "{what}"
    );
}

/// Room for all that a small question writes; then each room for its boxes and each for its tuples.
pub fn every_room(random: &mut Random, question: &Question) -> Vec<Lengths> {
    let n = question.widths.len();
    let long = Lengths {
        listing: 100,
        store: RECORD * 45 + 5,
        counts: 3,
    };
    let whole = plain::run(&question.words(), long.listing, long.store);
    assert_eq!(whole.number, 0);
    let mut all = vec![long];
    all.extend((0..=whole.boxes as usize).map(|boxes| Lengths {
        store: RECORD * boxes + random.below(RECORD),
        ..long
    }));
    all.extend((0..=whole.tuples as usize).map(|tuples| Lengths {
        listing: n * tuples + random.below(n),
        store: random.pick(&[long.store, RECORD * whole.boxes as usize]),
        counts: 3,
    }));
    all
}
