//! The check of a listing and of records that anybody may have made: sentence by sentence, every row and every value of a
//! pair walked through.

use super::{interval_holds, read, resolve, unit, Contents, Question, Table};
use super::{CHECK_FAILS, GAP, MOST_ATTRIBUTES, RECORD, RESOLVENT, TUPLE};

/// 0 if the listing and the records are accepted, else the number of the question's refusal, or 22.
pub fn check_listing(words: &[u16], listing: &[u16], records: &[u32]) -> u8 {
    let question = match read(words) {
        Ok(question) => question,
        Err(number) => return number,
    };
    let passes = listing_passes(&question, listing) && records_pass(&question, listing, records);
    if passes {
        0
    } else {
        CHECK_FAILS
    }
}

/// Whole tuples, strictly ascending, each with values within their widths and with its row in every table?
fn listing_passes(question: &Question, listing: &[u16]) -> bool {
    let n = question.widths.len();
    let tuples: Vec<&[u16]> = listing.chunks(n).collect();
    let whole = tuples.iter().all(|tuple| tuple.len() == n);
    // Slices are compared as tuples are: the first value that differs decides.
    let ascends = tuples.windows(2).all(|two| two[0] < two[1]);
    whole && ascends && tuples.iter().all(|tuple| tuple_passes(question, tuple))
}

fn tuple_passes(question: &Question, tuple: &[u16]) -> bool {
    let mut values = tuple.iter().zip(&question.widths);
    let within = values.all(|(&value, &width)| u32::from(value) < 1 << width);
    within && question.tables.iter().all(|table| has_row(table, tuple))
}

/// Are the tuple's values at the table's attributes a row, or do they count as one?
fn has_row(table: &Table, tuple: &[u16]) -> bool {
    match &table.contents {
        Contents::Rows(rows) => rows.iter().any(|row| {
            let mut cells = table.attributes.iter().zip(row);
            cells.all(|(&attribute, &value)| tuple[attribute] == value)
        }),
        Contents::Open => true,
        Contents::Pairs(pairs) => {
            let value = tuple[table.attributes[0]];
            let is_in = |&(lowest, highest): &(u16, u16)| lowest <= value && value <= highest;
            pairs.iter().any(is_in)
        }
    }
}

/// Whole records, each as it should be, and the last one, which has to be there, the whole space?
fn records_pass(question: &Question, listing: &[u16], records: &[u32]) -> bool {
    let records: Vec<&[u32]> = records.chunks(RECORD).collect();
    let Some(last) = records.last() else {
        return false;
    };
    let whole = records.iter().all(|record| record.len() == RECORD);
    let passes = |number| record_passes(question, listing, &records[..number], records[number]);
    whole && (0..records.len()).all(passes) && last[..MOST_ATTRIBUTES] == [1; MOST_ATTRIBUTES]
}

/// Is the record as it should be? The earlier ones are.
fn record_passes(question: &Question, listing: &[u16], earlier: &[&[u32]], record: &[u32]) -> bool {
    let (intervals, rest) = record.split_at(MOST_ATTRIBUTES);
    let (of, beyond) = intervals.split_at(question.widths.len());
    let mut ranges = of.iter().zip(&question.widths);
    let within = ranges.all(|(&interval, &width)| 1 <= interval && interval < 2 * (1 << width));
    if !within || beyond.iter().any(|&interval| interval != 1) {
        return false;
    }
    let &[kind, first, second] = rest else {
        return false;
    };
    let origins = [first, second].map(|origin| origin as usize);
    match kind {
        GAP => {
            let table = question.tables.get(origins[0]);
            second == 0 && table.is_some_and(|table| holds_no_row(question, table, of))
        }
        TUPLE => {
            let tuple = listing.chunks(of.len()).nth(origins[0]);
            second == 0 && tuple.is_some_and(|tuple| is_box_of(question, tuple, of))
        }
        RESOLVENT => {
            let [lower, upper] = origins.map(|origin| earlier.get(origin));
            let boxes = lower.zip(upper).map(|(lower, upper)| {
                let box_of = |record: &[u32]| record[..of.len()].to_vec();
                (box_of(lower), box_of(upper))
            });
            boxes.is_some_and(|(lower, upper)| is_resolvent(&lower, &upper, of))
        }
        _ => false,
    }
}

/// Does no row of the table lie in the box? Only the table's attributes are asked: whatever a box has at the others, a
/// row is a row.
fn holds_no_row(question: &Question, table: &Table, of: &[u32]) -> bool {
    let lies_in = |attribute: usize, value: u16| {
        let width = question.widths[attribute];
        interval_holds(of[attribute], unit(width, value))
    };
    match &table.contents {
        Contents::Rows(rows) => !rows.iter().any(|row| {
            let mut cells = table.attributes.iter().zip(row);
            cells.all(|(&attribute, &value)| lies_in(attribute, value))
        }),
        // Every tuple counts as its row, and every box has one.
        Contents::Open => false,
        Contents::Pairs(pairs) => {
            let attribute = table.attributes[0];
            let mut values = pairs.iter().flat_map(|&(lowest, highest)| lowest..=highest);
            !values.any(|value| lies_in(attribute, value))
        }
    }
}

/// Has the box the tuple's values as units?
fn is_box_of(question: &Question, tuple: &[u16], of: &[u32]) -> bool {
    let mut units = tuple.iter().zip(&question.widths).zip(of);
    units.all(|((&value, &width), &interval)| unit(width, value) == interval)
}

/// Do the two resolve, the lower half's first, and is this their resolvent?
fn is_resolvent(lower: &[u32], upper: &[u32], of: &[u32]) -> bool {
    let is_so = resolve(lower, upper).is_some_and(|resolvent| resolvent == of);
    // Where they have the two halves of one interval, the lower half, 2v, is the first one's.
    let mut halves = lower.iter().zip(upper).zip(of);
    is_so && halves.any(|((&one, &two), &v)| (one, two) == (2 * v, 2 * v + 1))
}

#[cfg(test)]
mod tests {
    use super::*;

    /// The words of records over the first attributes, each with its intervals, kind and origins.
    fn words<const N: usize>(records: &[[u32; N]]) -> Vec<u32> {
        let mut words = Vec::new();
        for record in records {
            let (intervals, rest) = record.split_at(N - 3);
            words.extend(intervals);
            words.extend(vec![1; MOST_ATTRIBUTES - intervals.len()]);
            words.extend(rest);
        }
        words
    }

    /// K1, with the records that the paper gives.
    const K1: &[u16] = &[1, 2, 2, 1, 0, 2, 1, 3, 1, 0, 2, 1, 2];
    const K1_RECORDS: [[u32; 4]; 7] = [
        [4, 0, 0, 0],
        [5, 1, 0, 0],
        [2, 2, 0, 1],
        [6, 0, 0, 0],
        [7, 0, 1, 0],
        [3, 2, 3, 4],
        [1, 2, 2, 5],
    ];

    /// What is answered where one record of K1 is another.
    fn with(number: usize, record: [u32; 4]) -> u8 {
        let mut records = K1_RECORDS;
        records[number] = record;
        check_listing(K1, &[1], &words(&records))
    }

    #[test]
    fn of_the_paper() {
        let records = words(&K1_RECORDS);
        assert_eq!(check_listing(K1, &[1], &records), 0);
        assert_eq!(check_listing(&K1[..12], &[1], &records), 3);
        for listing in [&[][..], &[0], &[2], &[3], &[1, 1], &[1, 2], &[5]] {
            assert_eq!(check_listing(K1, listing, &records), 22, "{listing:?}");
        }
        for cut in 0..records.len() {
            assert_eq!(check_listing(K1, &[1], &records[..cut]), 22, "{cut}");
        }
    }

    #[test]
    fn kinds_and_origins() {
        // 0 is no value of the second table either, and 3 none of that one; 2 is a value of the second.
        assert_eq!(with(0, [4, 0, 1, 0]), 0);
        assert_eq!(with(3, [6, 0, 1, 0]), 22);
        assert_eq!(with(4, [7, 0, 0, 0]), 22);
        assert_eq!(with(0, [4, 0, 2, 0]), 22);
        assert_eq!(with(0, [4, 0, 0, 1]), 22);
        assert_eq!(with(0, [4, 3, 0, 0]), 22);
        assert_eq!(with(1, [5, 1, 1, 0]), 22);
        assert_eq!(with(1, [5, 1, 0, 1]), 22);
        assert_eq!(with(1, [4, 1, 0, 0]), 22);
        assert_eq!(with(2, [2, 2, 1, 0]), 22);
        assert_eq!(with(2, [2, 2, 0, 2]), 22);
        assert_eq!(with(2, [1, 2, 0, 1]), 22);
        assert_eq!(with(6, [1, 2, 2, 6]), 22);
        assert_eq!(with(6, [3, 2, 3, 4]), 22);
        assert_eq!(with(0, [0, 0, 0, 0]), 22);
        assert_eq!(with(4, [8, 0, 1, 0]), 22);
    }

    /// A table over the first attribute has a row wherever that attribute's values are one, whatever the second has.
    #[test]
    fn other_attributes_are_not_asked() {
        let question = [2, 1, 1, 2, 1, 0, 1, 0, 1, 1, 2, 0, 1];
        let right = words(&[
            [2, 2, 1, 0, 0],
            [2, 3, 1, 1, 0],
            [2, 1, 2, 0, 1],
            [3, 1, 0, 0, 0],
            [1, 1, 2, 2, 3],
        ]);
        assert_eq!(check_listing(&question, &[0, 0, 0, 1], &right), 0);
        let forged = words(&[
            [2, 2, 1, 0, 0],
            [2, 3, 0, 0, 0],
            [2, 1, 2, 0, 1],
            [3, 1, 0, 0, 0],
            [1, 1, 2, 2, 3],
        ]);
        assert_eq!(check_listing(&question, &[0, 0], &forged), 22);
        // Where the first attribute's values are none, any interval of the second will do.
        let narrowed = words(&[
            [2, 2, 1, 0, 0],
            [2, 3, 1, 1, 0],
            [2, 1, 2, 0, 1],
            [3, 2, 0, 0, 0],
            [3, 3, 0, 0, 0],
            [3, 1, 2, 3, 4],
            [1, 1, 2, 2, 5],
        ]);
        assert_eq!(check_listing(&question, &[0, 0, 0, 1], &narrowed), 0);
    }

    /// The whole space as the gap box of a table without rows, of one with a row, of one without pairs, of one with a
    /// pair, and of an open one.
    #[test]
    fn the_whole_space() {
        let whole = |table: u32| words(&[[1, 0, table, 0]]);
        let empty = [1, 1, 1, 1, 0, 0];
        assert_eq!(check_listing(&empty, &[], &whole(0)), 0);
        assert_eq!(check_listing(&empty, &[0], &whole(0)), 22);
        assert_eq!(check_listing(&[1, 1, 1, 1, 0, 1, 0], &[0], &whole(0)), 22);
        let (mark, open) = (65_535, 65_535);
        assert_eq!(check_listing(&[1, 1, 1, mark, 0, 0], &[], &whole(0)), 0);
        let pair = [1, 1, 1, mark, 0, 1, 1, 1];
        assert_eq!(check_listing(&pair, &[1], &whole(0)), 22);
        let two = [1, 1, 2, 1, 0, 0, 1, 0, open];
        assert_eq!(check_listing(&two, &[], &whole(0)), 0);
        assert_eq!(check_listing(&two, &[], &whole(1)), 22);
    }

    /// Of a pair every value is asked, not only its ends.
    #[test]
    fn values_of_a_pair() {
        let question = [1, 2, 1, 65_535, 0, 1, 0, 3];
        let all = [0, 1, 2, 3];
        for interval in 1..8 {
            let gap = words(&[[interval, 0, 0, 0], [1, 0, 0, 0]]);
            assert_eq!(check_listing(&question, &all, &gap), 22, "{interval}");
        }
        let mut records = vec![[4, 1, 0, 0], [5, 1, 1, 0], [6, 1, 2, 0], [7, 1, 3, 0]];
        records.extend([[2, 2, 0, 1], [3, 2, 2, 3], [1, 2, 4, 5]]);
        assert_eq!(check_listing(&question, &all, &words(&records)), 0);
        // 1 and 2 alone are no interval; 0 and 3 are gaps then.
        let between = [1, 2, 1, 65_535, 0, 1, 1, 2];
        let records = [
            [4, 0, 0, 0],
            [5, 1, 0, 0],
            [6, 1, 1, 0],
            [7, 0, 0, 0],
            [2, 2, 0, 1],
            [3, 2, 2, 3],
            [1, 2, 4, 5],
        ];
        assert_eq!(check_listing(&between, &[1, 2], &words(&records)), 0);
    }
}
