//! A plain model of filing questions: which of two the archive files before the other, and the beginning they share.

use crate::plain;
use std::cmp::Ordering;

/// What a comparison of two questions says.
#[derive(Clone, Copy, Debug, PartialEq, Eq)]
pub struct Filed<'a> {
    /// 0, or the number of a refusal.
    pub number: u8,
    /// Is the first question before the second, the same, or after it? None if one is refused.
    pub order: Option<Ordering>,
    /// The longest shared beginning, a part of the first question.
    pub shared: &'a [u16],
}

impl Filed<'_> {
    /// The two words that a call writes.
    pub fn counts(&self) -> [u32; 2] {
        let order = match self.order {
            None => 0,
            Some(Ordering::Less) => 1,
            Some(Ordering::Equal) => 2,
            Some(Ordering::Greater) => 3,
        };
        [order, self.shared.len() as u32]
    }
}

/// Compares two questions by their words.
pub fn compare<'a>(first: &'a [u16], second: &[u16]) -> Filed<'a> {
    // If a question is refused, the first one's number is given, else the second's, with the first question's empty
    // beginning.
    for question in [first, second] {
        if let Err(number) = plain::read(question) {
            return Filed {
                number,
                order: None,
                shared: &first[..0],
            };
        }
    }
    // The first differing word decides.
    let mut at = 0;
    while at < first.len() && at < second.len() {
        if first[at] != second[at] {
            let before = first[at] < second[at];
            let order = if before {
                Ordering::Less
            } else {
                Ordering::Greater
            };
            return Filed {
                number: 0,
                order: Some(order),
                shared: &first[..at],
            };
        }
        at += 1;
    }
    // No accepted question is the beginning of a longer one.
    assert_eq!(first.len(), second.len(), "an accepted question goes on");
    Filed {
        number: 0,
        order: Some(Ordering::Equal),
        shared: first,
    }
}
