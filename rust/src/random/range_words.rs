//! The ways in which words with range tables are accepted or refused.

use super::open_tables::{mark, pick_table};
use super::range_tables::{both_ends, cut_one, first, has_two_forms, pairs, single_values};
use super::range_tables::{MOST_PAIRS, MOST_WORDS};
use super::{add_open, add_range, filled_question, range_some, Random};
use crate::plain::{top, Contents, Question, Table, OPEN, RANGE};

/// What is special in words with a range table.
#[derive(Clone, Copy, Debug, PartialEq, Eq)]
pub enum RangeWords {
    // Accepted.
    Some,
    NoPairs,
    /// The whole range as one pair.
    Whole,
    /// Lowest and highest value are the same in each pair.
    Single,
    /// As many pairs as there may be, of a single value each.
    Most,
    Touching,
    /// Pairs at both ends of the width.
    BothEnds,
    /// An attribute in range tables alone.
    Alone,
    /// As many tables as there may be, all of them range tables.
    Sixteen,
    /// The open mark, and no pairs.
    Open,
    // Refused.
    /// One less than the mark.
    BelowMark,
    NoAttribute,
    /// A number of pairs that is one less than the open mark.
    BelowOpenMark,
    TooManyPairs,
    LowestTooLarge,
    HighestTooLarge,
    /// The lowest value is too large, and above the highest.
    TooLargeAndAbove,
    /// The lowest value is above the highest, and above all of the pair before.
    Above,
    /// The lowest value is above the highest, and not above all of the pair before.
    AboveAndBack,
    /// The lowest value is not above the highest of the pair before, and not above its own.
    Back,
    /// The lowest value is the highest of the pair before.
    Shared,
    Swapped,
    Twice,
    /// Cut off somewhere in the table.
    Cut,
    /// One pair less than the last table says, or half of one.
    PairMissing,
    /// Something behind the pairs of the last table.
    Behind,
    /// The open mark in the last table; the pairs stay.
    OpenLast,
    /// An attribute in open tables alone, at least one of which has the mark of a range table.
    OpenAlone,
    // As it comes.
    /// The open mark in another table; the pairs stay.
    OpenBefore,
    /// The mark in place of a number of attributes; the rows stay.
    Marked,
    /// One attribute in place of the mark; the pairs stay.
    Unmarked,
    /// The mark in place of a value.
    AsValue,
}

impl RangeWords {
    pub const ALL: [RangeWords; 32] = [
        RangeWords::Some,
        RangeWords::NoPairs,
        RangeWords::Whole,
        RangeWords::Single,
        RangeWords::Most,
        RangeWords::Touching,
        RangeWords::BothEnds,
        RangeWords::Alone,
        RangeWords::Sixteen,
        RangeWords::Open,
        RangeWords::BelowMark,
        RangeWords::NoAttribute,
        RangeWords::BelowOpenMark,
        RangeWords::TooManyPairs,
        RangeWords::LowestTooLarge,
        RangeWords::HighestTooLarge,
        RangeWords::TooLargeAndAbove,
        RangeWords::Above,
        RangeWords::AboveAndBack,
        RangeWords::Back,
        RangeWords::Shared,
        RangeWords::Swapped,
        RangeWords::Twice,
        RangeWords::Cut,
        RangeWords::PairMissing,
        RangeWords::Behind,
        RangeWords::OpenLast,
        RangeWords::OpenAlone,
        RangeWords::OpenBefore,
        RangeWords::Marked,
        RangeWords::Unmarked,
        RangeWords::AsValue,
    ];

    /// 0 for words that are accepted, else the number of their refusal; none where it is as it comes.
    pub fn number(self) -> Option<u8> {
        match self {
            RangeWords::Some | RangeWords::NoPairs | RangeWords::Whole => Some(0),
            RangeWords::Single | RangeWords::Most | RangeWords::Touching => Some(0),
            RangeWords::BothEnds | RangeWords::Alone | RangeWords::Sixteen => Some(0),
            RangeWords::Open => Some(0),
            RangeWords::BelowMark => Some(6),
            RangeWords::NoAttribute => Some(7),
            RangeWords::BelowOpenMark | RangeWords::TooManyPairs => Some(8),
            RangeWords::LowestTooLarge | RangeWords::HighestTooLarge => Some(9),
            RangeWords::TooLargeAndAbove => Some(9),
            RangeWords::Above | RangeWords::AboveAndBack => Some(28),
            RangeWords::Back | RangeWords::Shared => Some(10),
            RangeWords::Swapped | RangeWords::Twice => Some(10),
            RangeWords::Cut | RangeWords::PairMissing => Some(3),
            RangeWords::Behind | RangeWords::OpenLast => Some(11),
            RangeWords::OpenAlone => Some(12),
            RangeWords::OpenBefore | RangeWords::Marked => None,
            RangeWords::Unmarked | RangeWords::AsValue => None,
        }
    }
}

/// Words with this special.
pub fn range_words(random: &mut Random, what: RangeWords) -> Vec<u16> {
    // Not every question can have it.
    loop {
        let mut question = filled_question(random);
        range_some(random, &mut question);
        let changed = change_question(random, &mut question, what);
        if let Some(words) = changed.and_then(|()| changed_words(random, &question, what)) {
            return words;
        }
    }
}

/// Changes the question where this special is one of its tables', if it can have it.
fn change_question(random: &mut Random, question: &mut Question, what: RangeWords) -> Option<()> {
    let n = question.widths.len();
    match what {
        RangeWords::Alone => {
            let alone = |attribute: usize| {
                let has = |table: &&Table| table.attributes.contains(&attribute);
                question.tables.iter().filter(has).all(Table::is_range)
            };
            return (0..n).any(alone).then_some(());
        }
        RangeWords::Sixteen => {
            question.tables.clear();
            for attribute in 0..n {
                let pairs = pairs(random, question, attribute);
                question.tables.push(Table::with_pairs(attribute, pairs));
            }
            while add_range(random, question).is_some() {}
            return (question.words().len() <= MOST_WORDS).then_some(());
        }
        RangeWords::Open => {
            let at = add_open(random, question)?;
            question.tables[at].attributes = vec![random.below(n)];
            return Some(());
        }
        RangeWords::OpenAlone => {
            let attribute = random.below(n);
            for table in &mut question.tables {
                if table.attributes.contains(&attribute) {
                    table.contents = Contents::Open;
                }
            }
            return Some(());
        }
        _ => {}
    }
    let at = pick_table(random, question, Table::is_range)?;
    let attribute = question.tables[at].attributes[0];
    let width = match what {
        RangeWords::Most => question.widths[attribute].max(12),
        // So wide that the mark is a value.
        RangeWords::AsValue if random.one_in(2) => 16,
        _ => question.widths[attribute],
    };
    question.widths[attribute] = width;
    let pairs = question.tables[at].pairs_mut()?;
    change_pairs(random, pairs, width, what)?;
    (question.words().len() <= MOST_WORDS).then_some(())
}

/// Changes the pairs of a range table where this special is one of theirs, if they can have it.
fn change_pairs(
    random: &mut Random,
    pairs: &mut Vec<(u16, u16)>,
    width: u32,
    what: RangeWords,
) -> Option<()> {
    let top = top(width);
    // A pair and the one before it.
    let two = (pairs.len() >= 2).then(|| random.from_to(1, pairs.len() - 1));
    let any = (!pairs.is_empty()).then(|| random.below(pairs.len()));
    match what {
        RangeWords::NoPairs => pairs.clear(),
        RangeWords::Whole => *pairs = vec![(0, top)],
        RangeWords::Single => {
            let count = random.from_to(1, 20);
            *pairs = single_values(random, width, count);
        }
        RangeWords::Most => *pairs = single_values(random, width, MOST_PAIRS),
        RangeWords::Touching => {
            cut_one(random, pairs);
            let touches = |at: usize| pairs[at - 1].1 + 1 == pairs[at].0;
            return (1..pairs.len()).any(touches).then_some(());
        }
        RangeWords::BothEnds => {
            *pairs = both_ends(random, width);
            return (pairs.len() >= 2).then_some(());
        }
        // With all of them there, where the width has so many values; else the number alone is changed.
        RangeWords::TooManyPairs if width > 12 && random.one_in(4) => {
            *pairs = single_values(random, width, MOST_PAIRS + 1);
        }
        RangeWords::LowestTooLarge | RangeWords::HighestTooLarge | RangeWords::TooLargeAndAbove => {
            if width == 16 {
                return None;
            }
            let beyond = random.from_to(top as usize + 1, 65_535) as u16;
            let beyond = random.pick(&[top + 1, top + 1, beyond, 65_535]);
            let (lowest, highest) = &mut pairs[any?];
            match what {
                RangeWords::LowestTooLarge => [*lowest, *highest] = [beyond; 2],
                RangeWords::HighestTooLarge => *highest = beyond,
                _ => *lowest = beyond,
            }
        }
        RangeWords::Above => {
            let at = any?;
            let least = at.checked_sub(1).map_or(0, |before| pairs[before].1 + 1);
            let lowest = random.from_to(least as usize, top as usize) as u16;
            pairs[at] = (lowest, lower(random, lowest)?);
        }
        RangeWords::AboveAndBack => {
            let at = two?;
            let lowest = random.below(pairs[at - 1].1 as usize + 1) as u16;
            pairs[at] = (lowest, lower(random, lowest)?);
        }
        RangeWords::Back => {
            let at = two?;
            pairs[at].0 = random.below(pairs[at - 1].1 as usize + 1) as u16;
        }
        RangeWords::Shared => {
            let at = two?;
            pairs[at].0 = pairs[at - 1].1;
        }
        RangeWords::Swapped => {
            let at = two?;
            pairs.swap(at - 1, at);
        }
        RangeWords::Twice => {
            let at = any?;
            pairs.insert(at, pairs[at]);
            return (pairs.len() <= MOST_PAIRS).then_some(());
        }
        _ => {}
    }
    Some(())
}

/// A lower value, if there is one.
fn lower(random: &mut Random, value: u16) -> Option<u16> {
    let next = value.checked_sub(1)?;
    let any = random.below(value as usize) as u16;
    Some(random.pick(&[next, any]))
}

/// The words of the question, changed where this special is one of theirs, if they can have it.
fn changed_words(random: &mut Random, question: &Question, what: RangeWords) -> Option<Vec<u16>> {
    let mut words = question.words();
    let n = question.widths.len();
    let last = question.tables.len() - 1;
    if matches!(what, RangeWords::Open | RangeWords::OpenAlone) {
        let open = pick_table(random, question, has_two_forms)?;
        words[first(question, open)] = RANGE;
        return Some(words);
    }
    let range = pick_table(random, question, Table::is_range)?;
    let (k, m) = (first(question, range), mark(question, range));
    let pairs = question.tables[range].pairs()?.len();
    let behind = m + 1 + 2 * pairs;
    match what {
        RangeWords::BelowMark => words[k] = RANGE - 1,
        RangeWords::NoAttribute => {
            words[k + 1] = random.pick(&[n as u16, n as u16, n as u16 + 1, 65_534, 65_535]);
        }
        RangeWords::BelowOpenMark => words[m] = OPEN - 1,
        RangeWords::TooManyPairs if pairs <= MOST_PAIRS => words[m] = MOST_PAIRS as u16 + 1,
        RangeWords::Cut => words.truncate(random.from_to(k + 1, behind - 1)),
        RangeWords::PairMissing if range == last && pairs > 0 => {
            words.truncate(behind - random.from_to(1, 2));
        }
        RangeWords::Behind if range == last => {
            let count = random.from_to(1, 3);
            words.extend((0..count).map(|_| random.below(3) as u16));
        }
        RangeWords::OpenLast if range == last && pairs > 0 => words[m] = OPEN,
        RangeWords::OpenBefore if range != last => words[m] = OPEN,
        RangeWords::PairMissing | RangeWords::Behind => return None,
        RangeWords::OpenLast | RangeWords::OpenBefore => return None,
        RangeWords::Marked => {
            let filled = pick_table(random, question, |table| !table.is_range())?;
            words[first(question, filled)] = RANGE;
        }
        RangeWords::Unmarked => words[k] = 1,
        RangeWords::AsValue if pairs > 0 => {
            words[m + random.from_to(1, 2 * pairs)] = RANGE;
        }
        RangeWords::AsValue => return None,
        _ => {}
    }
    Some(words)
}
