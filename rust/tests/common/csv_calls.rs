//! Calls with comma-separated files, compared with the plain model: the number, the count and every word or
//! byte of every buffer.

use super::{Buffer, Tally};
use boxjoin::random::Random;
use boxjoin::Csv;

/// A function that reads names and `R`, and writes `W` and counts.
type Into<R, W> = fn(&[u8], &[R], &mut [W], &mut [u32]) -> u8;

/// A call of the library: what it reads, what the plain model makes of it, and how it is called.
pub struct Call<'a, R, W> {
    names: &'a [u8],
    reads: &'a [R],
    pub made: Result<Vec<W>, u8>,
    into: Into<R, W>,
    safe: fn(&[u8], &[R], &mut [W]) -> Csv,
    random_read: fn(u64) -> R,
    random_write: fn(u64) -> W,
}

pub fn import<'a>(names: &'a [u8], file: &'a [u8]) -> Call<'a, u8, u16> {
    Call {
        names,
        reads: file,
        made: boxjoin::csv::import(names, file),
        into: boxjoin::import_csv_into,
        safe: boxjoin::import_csv,
        random_read: |r| r as u8,
        random_write: |r| r as u16,
    }
}

pub fn export<'a>(names: &'a [u8], listing: &'a [u16]) -> Call<'a, u16, u8> {
    Call {
        names,
        reads: listing,
        made: boxjoin::csv::export(names, listing),
        into: boxjoin::export_csv_into,
        safe: boxjoin::export_csv,
        random_read: |r| r as u16,
        random_write: |r| r as u8,
    }
}

impl<R, W> Call<'_, R, W>
where
    R: Copy + PartialEq + std::fmt::Debug,
    W: Copy + PartialEq + std::fmt::Debug,
{
    /// What the call answers where there is room.
    pub fn number(&self) -> u8 {
        self.made.as_ref().map_or_else(|&number| number, |_| 0)
    }

    /// Calls with a place and counts of these lengths, and compares every word of every buffer.
    pub fn compare(&self, what: &str, random: &mut Random, room: usize, counts: usize) -> u8 {
        let answer = boxjoin::csv::answer(&self.made, room);
        let mut names = Buffer::of(random, self.names, |r| r as u8);
        let mut reads = Buffer::of(random, self.reads, self.random_read);
        let mut place = Buffer::new(random, room, self.random_write);
        let mut told = Buffer::new(random, counts, |r| r as u32);
        let expected_names = names.expected(&[]);
        let expected_reads = reads.expected(&[]);
        let expected_place = place.expected(answer.written);
        let expected_told = told.expected(&[answer.count][..counts.min(1)]);

        let (n, r, p, t) = (names.lent(), reads.lent(), place.lent(), told.lent());
        let number = (self.into)(n, r, p, t);

        let mut trouble = Vec::new();
        if number != answer.number {
            trouble.push(format!("the number is {number}, not {}", answer.number));
        }
        let buffers = [
            ("names", names.differs(&expected_names)),
            ("what is read", reads.differs(&expected_reads)),
            ("what is written", place.differs(&expected_place)),
            ("counts", told.differs(&expected_told)),
        ];
        for (name, differs) in buffers {
            if let Some(differs) = differs {
                trouble.push(format!("{name}: {differs}"));
            }
        }
        if !trouble.is_empty() {
            panic!(
                "{what}: {}\nroom {room}, counts {counts}\ncount should be {}\nnames {:?}\nreads {:?}",
                trouble.join("; "),
                answer.count,
                String::from_utf8_lossy(self.names),
                &self.reads[..self.reads.len().min(2_000)]
            );
        }
        number
    }

    /// Calls with places just long enough, one short, empty and of other lengths, with counts of 0, 1 and 3
    /// words, and once without counts of the caller's. Counts each answer, and says what there was room for.
    pub fn compare_rooms(&self, what: &str, random: &mut Random, tally: &mut Tally) -> u8 {
        let mut calls = match &self.made {
            Ok(made) => {
                let exact = made.len();
                let more = random.pick(&[exact + 1, exact + 9, 2 * exact + 50, exact / 2]);
                vec![(exact, 3), (exact, 1), (exact - 1, 1), (0, 3), (more, 0)]
            }
            // Room for whatever could have been read before the refusal.
            Err(_) => vec![(self.reads.len() + 12, 3), (0, 1)],
        };
        if random.one_in(4) {
            calls.push((random.below(40), random.pick(&[0, 2, 4])));
        }
        for &(room, counts) in &calls {
            tally.count(self.compare(what, random, room, counts));
        }
        let room = calls[0].0;
        let answer = boxjoin::csv::answer(&self.made, room);
        let mut place = vec![(self.random_write)(0); room];
        let told = (self.safe)(self.names, self.reads, &mut place);
        let expected = (answer.number, answer.count, answer.written);
        let written = if told.number == 0 {
            told.count as usize
        } else {
            0
        };
        let got = (told.number, told.count, &place[..written]);
        assert!(got == expected, "{what}: {told:?} without counts");
        self.number()
    }
}
