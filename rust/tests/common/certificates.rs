//! Listings with the records that show that no tuple is missing: asked of the library and of the plain check, and changed.

use super::{show, Buffer, Lengths, Tally};
use boxjoin::nested::{join_by_rows, most_turns};
use boxjoin::plain::{self, Question, Run, CHECK_FAILS, MOST_ATTRIBUTES, RECORD, RESOLVENT, TUPLE};
use boxjoin::random::Random;
use std::fmt::Display;

/// A listing, and the records that show that it is the join.
#[derive(Clone, Debug, PartialEq, Eq)]
pub struct Certificate {
    pub listing: Vec<u16>,
    pub records: Vec<u32>,
}

/// The words of a record with these intervals, kind and origins.
pub fn record(intervals: &[u32], kind: u32, origins: [u32; 2]) -> Vec<u32> {
    let mut words = intervals.to_vec();
    words.resize(MOST_ATTRIBUTES, 1);
    words.push(kind);
    words.extend(origins);
    words
}

impl Certificate {
    /// That of records over the first attributes, each with its intervals, kind and origins.
    pub fn of(listing: &[u16], records: &[&[u32]]) -> Certificate {
        let words = records.iter().flat_map(|of| {
            let (intervals, rest) = of.split_at(of.len() - 3);
            record(intervals, rest[0], [rest[1], rest[2]])
        });
        Certificate {
            listing: listing.to_vec(),
            records: words.collect(),
        }
    }

    /// What a run of the model left.
    pub fn left(run: &Run) -> Certificate {
        Certificate {
            listing: run.listing.clone(),
            records: run.store.clone(),
        }
    }

    /// How many records there are.
    pub fn count(&self) -> usize {
        self.records.len() / RECORD
    }

    pub fn record(&self, number: usize) -> &[u32] {
        &self.records[RECORD * number..RECORD * (number + 1)]
    }

    pub fn record_mut(&mut self, number: usize) -> &mut [u32] {
        &mut self.records[RECORD * number..RECORD * (number + 1)]
    }

    pub fn kind(&self, number: usize) -> u32 {
        self.record(number)[MOST_ATTRIBUTES]
    }

    /// Puts a record before that of this number; no origin is changed.
    pub fn put(&mut self, number: usize, record: &[u32]) {
        let at = RECORD * number;
        self.records.splice(at..at, record.iter().copied());
    }

    /// Takes a record out; no origin is changed.
    pub fn take(&mut self, number: usize) -> Vec<u32> {
        let at = RECORD * number;
        self.records.drain(at..at + RECORD).collect()
    }

    /// Gives each origin of a resolvent another number.
    pub fn renumber(&mut self, number: impl Fn(u32) -> u32) {
        for record in self.records.chunks_exact_mut(RECORD) {
            if let [RESOLVENT, lower, upper] = &mut record[MOST_ATTRIBUTES..] {
                [*lower, *upper] = [number(*lower), number(*upper)];
            }
        }
    }

    /// Puts a record before that of this number, and lets all resolvents keep their origins. The record itself is no
    /// resolvent, or one of records before it.
    pub fn put_in(&mut self, number: usize, record: &[u32]) {
        let at = number as u32;
        self.renumber(|origin| origin + u32::from(origin >= at));
        self.put(number, record);
    }

    /// Takes a tuple out of the listing; the records of those behind it keep their tuples.
    pub fn take_tuple(&mut self, n: usize, place: usize) {
        self.listing.drain(n * place..n * (place + 1));
        for record in self.records.chunks_exact_mut(RECORD) {
            if let [TUPLE, at, _] = &mut record[MOST_ATTRIBUTES..] {
                *at -= u32::from(*at as usize > place);
            }
        }
    }
}

/// What the library answers for these words: the plain check has to answer the same, and no word may be changed.
pub fn agreed(
    what: impl Display,
    random: &mut Random,
    words: &[u16],
    certificate: &Certificate,
) -> u8 {
    let Certificate { listing, records } = certificate;
    let mut lent_words = Buffer::of(random, words, |r| r as u16);
    let mut lent_listing = Buffer::of(random, listing, |r| r as u16);
    let mut lent_records = Buffer::of(random, records, |r| r as u32);
    let before = [&lent_words, &lent_listing].map(|lent| lent.expected(&[]));
    let records_before = lent_records.expected(&[]);
    let (question, of) = (lent_words.lent(), lent_listing.lent());
    let number = boxjoin::check_listing(question, of, lent_records.lent());
    let differs = [
        lent_words.differs(&before[0]),
        lent_listing.differs(&before[1]),
        lent_records.differs(&records_before),
    ];
    let due = plain::check_listing(words, listing, records);
    if number != due || differs.iter().any(Option::is_some) {
        let shown: Vec<&[u32]> = records.chunks(RECORD).take(100).collect();
        panic!(
            "{what}: {number}, and not {due}; changed: {differs:?}\nquestion {}\nlisting {}\nrecords {shown:?}",
            show(words),
            show(listing)
        );
    }
    number
}

/// A question, the words that say it, and its join by nested loops, where these don't take too long.
pub struct Asked {
    pub question: Question,
    pub words: Vec<u16>,
    pub join: Option<Vec<u16>>,
}

impl Asked {
    pub fn new(question: Question, words: Vec<u16>) -> Asked {
        let join = (most_turns(&question) <= 1e5).then(|| join_by_rows(&question).concat());
        Asked {
            question,
            words,
            join,
        }
    }

    pub fn of(words: &[u16]) -> Asked {
        let question = plain::read(words).expect("an accepted question");
        Asked::new(question, words.to_vec())
    }

    /// How many attributes there are.
    pub fn n(&self) -> usize {
        self.question.widths.len()
    }

    /// What the library and the plain check answer: 0 or 22, and 0 only if the listing is the join.
    pub fn check(&self, what: impl Display, random: &mut Random, certificate: &Certificate) -> u8 {
        let number = agreed(&what, random, &self.words, certificate);
        self.see(what, number, certificate);
        number
    }

    /// Sees that it is the number of an accepted question, and that an accepted listing is the join.
    pub fn see(&self, what: impl Display, number: u8, certificate: &Certificate) {
        assert!([0, CHECK_FAILS].contains(&number), "{what}: {number}");
        let join = self.join.as_ref();
        if number == 0 && join.is_some_and(|join| *join != certificate.listing) {
            let (words, listing) = (show(&self.words), show(&certificate.listing));
            panic!("{what}: accepted, but not the join\nquestion {words}\nlisting {listing}");
        }
    }

    /// The same, and counts the answer.
    pub fn count(
        &self,
        what: impl Display,
        random: &mut Random,
        certificate: &Certificate,
        tally: &mut Tally,
    ) {
        tally.count(self.check(what, random, certificate));
    }
}

/// The number of a run of the library with this room, with a scratch of so many words if there is one, and what it left,
/// cut to its counts.
pub fn run(words: &[u16], lengths: Lengths, scratch: Option<usize>) -> (u8, Certificate) {
    let mut listing = vec![0; lengths.listing];
    let mut records = vec![0; lengths.store];
    let counts = match scratch {
        None => boxjoin::run(words, &mut listing, &mut records),
        Some(len) => boxjoin::run_with(words, &mut listing, &mut records, &mut vec![0; len]),
    };
    listing.truncate(counts.tuples as usize * usize::from(words[0]));
    records.truncate(counts.boxes as usize * RECORD);
    (counts.number, Certificate { listing, records })
}

/// Some interval of this width, of any length.
pub fn interval(random: &mut Random, width: u32) -> u32 {
    let bits = random.below(width as usize + 1);
    ((1 << bits) + random.below(1 << bits)) as u32
}

/// The same, but a half of it, or a half of that and so on, at some of the attributes.
pub fn narrowed(random: &mut Random, question: &Question, intervals: &[u32]) -> Vec<u32> {
    let mut narrow = intervals.to_vec();
    for (interval, &width) in narrow.iter_mut().zip(&question.widths) {
        while *interval < 1 << width && random.one_in(2) {
            *interval = 2 * *interval + random.below(2) as u32;
        }
    }
    narrow
}
