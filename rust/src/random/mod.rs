//! A small seeded generator; its parts make random questions, texts and comma-separated files, good and
//! damaged.

mod alike;
mod benchmarks;
mod causes;
mod csv;
mod damage;
mod damaged_csv;
mod damaged_texts;
mod files;
mod hidden;
mod messy_csv;
mod open_tables;
mod open_texts;
mod questions;
mod range_tables;
mod range_words;
mod texts;
mod wrong_files;

pub use alike::{alike, other_values, Alike};
pub use benchmarks::{cables, call_log, columns, connected_call_log, triangle, wide_call_log};
pub use causes::Cause;
pub use csv::{csv, csv_of, names_line};
pub use damage::{damaged, parts, Part};
pub use damaged_csv::{damaged_csv, damaged_names, twice_damaged_csv};
pub use damaged_texts::damaged_text;
pub use files::{files_of, messy_files, Files};
pub use hidden::{hidden, hidden_so};
pub use messy_csv::messy_csv;
pub use open_tables::{add_open, all_but_one, open_some, open_words, OpenWords};
pub use open_texts::{open_text, OpenText};
pub use questions::{filled_question, long_question, question, stopping_question, text_question};
pub use questions::{with_tables, TRIALS};
pub use range_tables::{add_range, any_words, range_some};
pub use range_words::{range_words, RangeWords};
pub use texts::{names, text_of};
pub use wrong_files::{wrong_files, Wrong};

/// xorshift64*: the same seed gives the same numbers on every machine.
pub struct Random(u64);

impl Random {
    pub fn new(seed: u64) -> Random {
        // Neighbouring seeds are spread first, and the state must not be 0.
        let mut state = seed.wrapping_add(0x9e37_79b9_7f4a_7c15);
        state = (state ^ (state >> 30)).wrapping_mul(0xbf58_476d_1ce4_e5b9);
        state = (state ^ (state >> 27)).wrapping_mul(0x94d0_49bb_1331_11eb);
        Random((state ^ (state >> 31)) | 1)
    }

    pub fn number(&mut self) -> u64 {
        self.0 ^= self.0 >> 12;
        self.0 ^= self.0 << 25;
        self.0 ^= self.0 >> 27;
        self.0.wrapping_mul(0x2545_f491_4f6c_dd1d)
    }

    /// A number below `end`.
    pub fn below(&mut self, end: usize) -> usize {
        ((self.number() >> 32) as usize) % end
    }

    /// A number from `first` to `last`.
    pub fn from_to(&mut self, first: usize, last: usize) -> usize {
        first + self.below(last - first + 1)
    }

    pub fn one_in(&mut self, count: usize) -> bool {
        self.below(count) == 0
    }

    pub fn pick<T: Copy>(&mut self, of: &[T]) -> T {
        of[self.below(of.len())]
    }

    pub fn word(&mut self) -> u16 {
        (self.number() >> 40) as u16
    }

    pub fn shuffle<T>(&mut self, of: &mut [T]) {
        for i in (1..of.len()).rev() {
            let j = self.below(i + 1);
            of.swap(i, j);
        }
    }
}
