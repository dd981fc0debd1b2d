//! Records that no run of ours writes: random gap boxes, those of another question, and those of somebody who cuts the space
//! in another way. The plain check has to say the same of each, and what is accepted has to be the join.

mod common;

use boxjoin::plain::{self, box_holds, interval_holds, resolve, unit, Contents, Question};
use boxjoin::plain::{GAP, MOST_ATTRIBUTES, RESOLVENT, TUPLE};
use boxjoin::random::{any_words, question, Random};
use common::certificates::{interval, narrowed, record, run, Asked, Certificate};
use common::{Tally, AMPLE};

/// A box of any shape for a table: any intervals, or about where a row is, or a gap box made narrower or longer.
fn any_box(random: &mut Random, asked: &Asked, table: usize) -> Vec<u32> {
    let widths = &asked.question.widths;
    let of = &asked.question.tables[table];
    let mut intervals: Vec<u32> = widths.iter().map(|&w| interval(random, w)).collect();
    let point: Vec<u16> = intervals
        .iter()
        .zip(widths)
        .map(|(_, &w)| random.word() & plain::top(w))
        .collect();
    match (random.below(4), &of.contents) {
        (0, _) => {}
        (1, Contents::Rows(rows)) if !rows.is_empty() => {
            // Around a row, at one attribute perhaps beside it.
            let row = &rows[random.below(rows.len())];
            for (&a, &value) in of.attributes.iter().zip(row) {
                intervals[a] = unit(widths[a], value) >> random.below(widths[a] as usize + 1);
            }
            let beside = random.pick(&of.attributes);
            if intervals[beside] > 1 && random.one_in(2) {
                intervals[beside] ^= 1;
            }
        }
        _ => {
            if let Some(gap) = plain::gap_box(&asked.question, table, &point) {
                intervals = narrowed(random, &asked.question, &gap);
                if random.one_in(2) {
                    let longer = random.below(widths.len());
                    intervals[longer] = (intervals[longer] / 2).max(1);
                }
            }
        }
    }
    intervals
}

/// Random boxes as gap boxes of random tables, put before the records of a run.
#[test]
fn gap_boxes_of_any_shape() {
    let [mut of_rows, mut of_pairs, mut of_open] = [(); 3].map(|_| Tally::new());
    // Accepted ones that no run would write: an earlier interval of the table's that is no unit.
    let mut early = 0;
    for seed in 0..3_000 {
        let mut random = Random::new(95_000_000 + seed);
        let question = question(&mut random);
        let words = any_words(&mut random, &question);
        let asked = Asked::new(question, words);
        let (number, left) = run(&asked.words, AMPLE, None);
        let wide = asked.question.widths.iter().any(|&width| width > 10);
        if number != 0 || left.count() > 60 || wide && !random.one_in(4) {
            continue;
        }
        for _ in 0..12 {
            let table = random.below(asked.question.tables.len());
            let intervals = any_box(&mut random, &asked, table);
            let mut more = left.clone();
            more.put_in(0, &record(&intervals, GAP, [table as u32, 0]));
            let number = asked.check("a box of any shape", &mut random, &more);
            let of = &asked.question.tables[table];
            match of.contents {
                Contents::Rows(_) => of_rows.count(number),
                Contents::Pairs(_) => of_pairs.count(number),
                Contents::Open => of_open.count(number),
            }
            let mut two = of.attributes.windows(2);
            let is_early = two.any(|two| {
                let no_unit = intervals[two[0]] < 1 << asked.question.widths[two[0]];
                no_unit && intervals[two[1]] > 1
            });
            early += usize::from(number == 0 && is_early);
        }
    }
    of_rows.finish("boxes for tables with rows", &[0, 22], 2_000);
    of_pairs.finish("boxes for range tables", &[0, 22], 200);
    of_open.finish("boxes for open tables", &[22], 500);
    assert_eq!(of_open.0[0], 0);
    println!("boxes that no run would write: {early}");
    assert!(early >= 300);
}

/// A question with one thing changed in its tables: a row less or more, another value in a pair, a table opened.
fn neighbour(random: &mut Random, question: &Question) -> Question {
    let mut other = question.clone();
    let widths = question.widths.clone();
    let at = random.below(other.tables.len());
    let table = &mut other.tables[at];
    let attributes = table.attributes.clone();
    let open = random.one_in(6);
    match &mut table.contents {
        contents if open => *contents = Contents::Open,
        Contents::Rows(rows) if random.one_in(2) && !rows.is_empty() => {
            rows.remove(random.below(rows.len()));
        }
        Contents::Rows(rows) => {
            let value = |&a: &usize| random.word() & plain::top(widths[a]);
            rows.push(attributes.iter().map(value).collect());
            rows.sort();
            rows.dedup();
        }
        Contents::Pairs(pairs) if !pairs.is_empty() => {
            let at = random.below(pairs.len());
            let pair = &mut pairs[at];
            if random.one_in(2) {
                pair.0 = pair.0.saturating_sub(1);
            } else {
                pair.1 = pair.1.saturating_sub(1);
            }
        }
        Contents::Pairs(_) | Contents::Open => {}
    }
    other
}

/// What a run left of a question, checked for another one that differs in a row or a pair. Where a row is less, its join
/// may lack a tuple; where it is more, its gap boxes may hold it.
#[test]
fn of_another_question() {
    let mut tally = Tally::new();
    let mut same_join = 0;
    for seed in 0..4_000 {
        let mut random = Random::new(96_000_000 + seed);
        let question = question(&mut random);
        if question.widths.iter().any(|&width| width > 8) {
            continue;
        }
        let asked = Asked::of(&question.words());
        for _ in 0..6 {
            let other = neighbour(&mut random, &question);
            let words = other.words();
            if other == question || plain::read(&words).is_err() {
                continue;
            }
            let (number, left) = run(&words, AMPLE, None);
            if number != 0 {
                continue;
            }
            let number = asked.check("of another question", &mut random, &left);
            tally.count(number);
            let same = asked.join.as_ref() == Some(&left.listing);
            same_join += usize::from(same && number != 0);
        }
    }
    tally.finish("of another question", &[0, 22], 500);
    println!("of another question: {same_join} have the join, but not the records for it");
    assert!(same_join >= 100);
}

/// Somebody else's way: the space is cut at any attribute, in any order, and gap boxes have any length and shape.
struct Elsewhere<'a> {
    random: &'a mut Random,
    asked: &'a Asked,
    left: Certificate,
}

impl Elsewhere<'_> {
    fn intervals(&self, number: usize) -> &[u32] {
        &self.left.record(number)[..self.asked.n()]
    }

    fn keep(&mut self, intervals: &[u32], kind: u32, origins: [usize; 2]) -> usize {
        let record = record(intervals, kind, origins.map(|origin| origin as u32));
        self.left.records.extend(record);
        self.left.count() - 1
    }

    /// Does the table have no row in the box, by its own attributes?
    fn is_gap(&self, table: usize, intervals: &[u32]) -> bool {
        let table = &self.asked.question.tables[table];
        let lies = |attribute: usize, value: u16| {
            let width = self.asked.question.widths[attribute];
            interval_holds(intervals[attribute], unit(width, value))
        };
        match &table.contents {
            Contents::Rows(rows) => !rows.iter().any(|row| {
                let mut cells = table.attributes.iter().zip(row);
                cells.all(|(&attribute, &value)| lies(attribute, value))
            }),
            Contents::Open => false,
            Contents::Pairs(pairs) => {
                let mut values = pairs.iter().flat_map(|pair| pair.0..=pair.1);
                !values.any(|value| lies(table.attributes[0], value))
            }
        }
    }

    /// The number of a record that holds the target.
    fn cover(&mut self, target: &[u32]) -> usize {
        let holding = (0..self.left.count()).filter(|&of| box_holds(self.intervals(of), target));
        let holding: Vec<usize> = holding.collect();
        if !holding.is_empty() && !self.random.one_in(4) {
            return self.random.pick(&holding);
        }
        let tables = 0..self.asked.question.tables.len();
        let gaps = tables.filter(|&table| self.is_gap(table, target));
        let gaps: Vec<usize> = gaps.collect();
        if !gaps.is_empty() {
            let table = self.random.pick(&gaps);
            // Longer at some attributes, as far as it goes.
            let mut longer = target.to_vec();
            for _ in 0..self.random.below(12) {
                let before = longer.clone();
                let attribute = self.random.below(longer.len());
                longer[attribute] = (longer[attribute] / 2).max(1);
                if !self.is_gap(table, &longer) {
                    longer = before;
                }
            }
            return self.keep(&longer, GAP, [table, 0]);
        }
        let widths = &self.asked.question.widths;
        let cuts = (0..target.len()).filter(|&a| target[a] < 1 << widths[a]);
        let cuts: Vec<usize> = cuts.collect();
        if cuts.is_empty() {
            let units = target.iter().zip(widths);
            let tuple: Vec<u16> = units.map(|(&v, &w)| (v - (1 << w)) as u16).collect();
            let mut tuples = self.left.listing.chunks_exact(tuple.len());
            let place = tuples.position(|listed| listed == tuple);
            let place = place.expect("a point that is no gap is of the join");
            return self.keep(target, TUPLE, [place, 0]);
        }
        let cut = self.random.pick(&cuts);
        let mut half = target.to_vec();
        half[cut] = 2 * target[cut];
        let lower = self.cover(&half);
        if box_holds(self.intervals(lower), target) {
            return lower;
        }
        half[cut] = 2 * target[cut] + 1;
        let upper = self.cover(&half);
        if box_holds(self.intervals(upper), target) {
            return upper;
        }
        let resolvent = resolve(self.intervals(lower), self.intervals(upper));
        self.keep(&resolvent.expect("they resolve"), RESOLVENT, [lower, upper])
    }
}

/// Whoever made it: the join by nested loops, with records that somebody else found. Accepted; and with a word changed, as
/// the plain check says.
#[test]
fn by_somebody_else() {
    let (mut whole, mut changed) = (Tally::new(), Tally::new());
    let (mut as_ours, mut tuples) = (0, 0);
    for seed in 0..3_000 {
        let mut random = Random::new(97_000_000 + seed);
        let question = question(&mut random);
        let bits: u32 = question.widths.iter().sum();
        if bits > 11 {
            continue;
        }
        let words = any_words(&mut random, &question);
        let asked = Asked::new(question, words);
        let Some(join) = asked.join.clone() else {
            continue;
        };
        let left = Certificate {
            listing: join,
            records: Vec::new(),
        };
        let mut elsewhere = Elsewhere {
            random: &mut random,
            asked: &asked,
            left,
        };
        let space = vec![1; asked.n()];
        let last = elsewhere.cover(&space);
        // A record of the whole space may be there before others.
        let mut left = elsewhere.left;
        let again = left.record(last).to_vec();
        if last + 1 < left.count() {
            left.records.extend(again);
        }
        let what = format!("by somebody else, seed {seed}");
        let number = asked.check(&what, &mut random, &left);
        assert_eq!(number, 0, "{what}: {:?}", asked.words);
        whole.count(number);
        as_ours += usize::from(run(&asked.words, AMPLE, None).1 == left);
        tuples += usize::from(!left.listing.is_empty());
        for _ in 0..20 {
            let mut other = left.clone();
            let [to, from] = [(); 2].map(|_| random.below(left.count()));
            let places = [random.below(asked.n()), MOST_ATTRIBUTES + random.below(3)];
            let place = random.pick(&places);
            other.record_mut(to)[place] = left.record(from)[place];
            if other != left {
                asked.count(&what, &mut random, &other, &mut changed);
            }
        }
    }
    whole.finish("by somebody else", &[0], 1_000);
    println!("by somebody else: {tuples} with tuples, {as_ours} as ours");
    assert!(tuples >= 500 && as_ours < whole.0[0] / 2);
    changed.finish("by somebody else, a word changed", &[22], 3_000);
    changed.had("by somebody else, a word changed", &[0], 300);
}
