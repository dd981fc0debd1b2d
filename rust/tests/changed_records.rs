//! Small listings and records that are accepted, with one thing changed: a word, a record, a tuple. The plain check has to
//! say the same of each, and what is still accepted has to be the join.

mod common;

use boxjoin::plain::{self, resolve, CHECK_FAILS, GAP, MOST_ATTRIBUTES, RECORD, RESOLVENT, TUPLE};
use boxjoin::random::{any_words, question, Random, TRIALS};
use common::certificates::{narrowed, record, Asked, Certificate};
use common::{Tally, AMPLE};

/// A question and what its run left: some records, and few enough to change every word of them.
struct Small {
    asked: Asked,
    left: Certificate,
}

/// So many random ones, of at most so many records, and those of the trial questions.
fn small_ones(seed: u64, count: usize, most: usize) -> Vec<Small> {
    let mut random = Random::new(seed);
    let trials = TRIALS.map(|words| plain::read(words).unwrap());
    let mut questions = Vec::from(trials);
    let mut all = Vec::new();
    while all.len() < count {
        let question = questions
            .pop()
            .unwrap_or_else(|| self::question(&mut random));
        let words = any_words(&mut random, &question);
        let run = plain::run(&words, AMPLE.listing, AMPLE.store);
        let records = run.boxes as usize;
        // Those of a single gap box would be many, and of wide pairs slow.
        let plenty = records > 2 || random.one_in(20);
        let narrow = question.widths.iter().all(|&width| width <= 8);
        if run.number != 0 || records > most || !plenty || !narrow {
            continue;
        }
        let asked = Asked::new(question, words);
        if asked.join.is_some() {
            let left = Certificate::left(&run);
            all.push(Small { asked, left });
        }
    }
    let tables = |so: fn(&plain::Table) -> bool| {
        let has = |small: &&Small| small.asked.question.tables.iter().any(so);
        all.iter().filter(has).count()
    };
    let (open, range) = (tables(plain::Table::is_open), tables(|t| t.is_range()));
    let tuples = all.iter().filter(|small| !small.left.listing.is_empty());
    let tuples = tuples.count();
    println!("{count} small ones: {open} with open tables, {range} with range tables, {tuples} with tuples");
    assert!(open >= count / 5 && range >= count / 10 && tuples >= count / 2);
    all
}

/// Every word of the listing and of the records: one more, one less, 0, 1, 65,535, of a record also 2, 4,294,967,295, with
/// a high bit changed, and what any other record has at that place.
#[test]
fn single_words() {
    let mut random = Random::new(86_000_000);
    let (mut of_listing, mut of_intervals, mut of_rest) =
        (Tally::new(), Tally::new(), Tally::new());
    for Small { asked, left } in small_ones(86_000_001, 400, 14) {
        for at in 0..left.listing.len() {
            let word = left.listing[at];
            for other in [word.wrapping_add(1), word.wrapping_sub(1), 0, 1, 65_535] {
                if other == word {
                    continue;
                }
                let mut changed = left.clone();
                changed.listing[at] = other;
                let what = format_args!("word {at} of the listing is {other}");
                asked.count(what, &mut random, &changed, &mut of_listing);
            }
        }
        for at in 0..left.records.len() {
            let word = left.records[at];
            let mut others = vec![word.wrapping_add(1), word.wrapping_sub(1)];
            others.extend([0, 1, 2, 65_535, 4_294_967_295]);
            others.extend([16, 29, 30, 31].map(|bit| word ^ 1 << bit));
            let beside = left.records.iter().skip(at % RECORD).step_by(RECORD);
            others.extend(beside);
            others.sort();
            others.dedup();
            for other in others {
                if other == word {
                    continue;
                }
                let mut changed = left.clone();
                changed.records[at] = other;
                let tally = if at % RECORD < MOST_ATTRIBUTES {
                    &mut of_intervals
                } else {
                    &mut of_rest
                };
                let (number, place) = (at / RECORD, at % RECORD);
                let what = format_args!("word {place} of record {number} is {other}");
                asked.count(what, &mut random, &changed, tally);
            }
        }
    }
    // No listing but the join is accepted, while an interval that no resolvent needs may be another.
    of_listing.finish("single words of listings", &[22], 5_000);
    assert_eq!(of_listing.0[0], 0);
    of_intervals.finish("single intervals", &[22], 100_000);
    of_intervals.had("single intervals", &[0], 50);
    of_rest.finish("single kinds and origins", &[22], 20_000);
    of_rest.had("single kinds and origins", &[0], 200);
}

/// Several words at a time, at any places of listing and records.
#[test]
fn several_words() {
    let mut random = Random::new(87_000_000);
    let mut tally = Tally::new();
    for Small { asked, left } in small_ones(87_000_001, 300, 40) {
        for _ in 0..100 {
            let mut changed = left.clone();
            for _ in 0..random.from_to(2, 4) {
                if random.one_in(8) && !left.listing.is_empty() {
                    let at = random.below(left.listing.len());
                    changed.listing[at] ^= 1 << random.below(3);
                    continue;
                }
                // Mostly origins, of which a resolvent has two.
                let number = random.below(left.count());
                let at = RECORD * number
                    + match random.below(4) {
                        0 => random.below(asked.n()),
                        1 => MOST_ATTRIBUTES,
                        _ => MOST_ATTRIBUTES + random.from_to(1, 2),
                    };
                let from = RECORD * random.below(left.count()) + at % RECORD;
                changed.records[at] = left.records[from];
            }
            if changed != left {
                asked.count("several words", &mut random, &changed, &mut tally);
            }
        }
    }
    tally.finish("several words", &[22], 10_000);
    tally.had("several words", &[0], 100);
}

/// Records taken out, doubled and exchanged, with the origins as they were and with the same records as origins.
#[test]
fn records_moved() {
    let mut random = Random::new(88_000_000);
    let [mut out, mut twice, mut exchanged] = [(); 3].map(|_| Tally::new());
    for Small { asked, left } in small_ones(88_000_001, 300, 30) {
        for number in 0..left.count() {
            let mut fewer = left.clone();
            fewer.take(number);
            asked.count("a record taken out", &mut random, &fewer, &mut out);
            let at = number as u32;
            fewer.renumber(|origin| origin - u32::from(origin > at));
            asked.count("taken out, renumbered", &mut random, &fewer, &mut out);
            let mut more = left.clone();
            let again = left.record(number).to_vec();
            more.put(number, &again);
            asked.count("a record twice", &mut random, &more, &mut twice);
            // The same right behind it, with all origins as they were.
            let mut more = left.clone();
            more.put_in(number + 1, &again);
            let check = asked.check("twice, renumbered", &mut random, &more);
            assert_eq!(check, 0, "record {number} twice: {:?}", asked.words);
            twice.count(check);
            for other in 0..number {
                let mut swapped = left.clone();
                let [one, two] = [number, other].map(|of| left.record(of).to_vec());
                swapped.record_mut(other).copy_from_slice(&one);
                swapped.record_mut(number).copy_from_slice(&two);
                asked.count("two records", &mut random, &swapped, &mut exchanged);
                let to = |origin: u32| match origin as usize {
                    origin if origin == number => other as u32,
                    origin if origin == other => number as u32,
                    _ => origin,
                };
                swapped.renumber(to);
                asked.count("two, renumbered", &mut random, &swapped, &mut exchanged);
            }
        }
    }
    out.finish("records taken out", &[22], 1_000);
    out.had("records taken out", &[0], 20);
    twice.finish("records twice", &[0, 22], 1_000);
    exchanged.finish("records exchanged", &[0, 22], 1_000);
}

/// Cut short by any number of words, and with words more.
#[test]
fn cut_short_and_longer() {
    let mut random = Random::new(89_000_000);
    let [mut cut, mut longer, mut listings] = [(); 3].map(|_| Tally::new());
    for Small { asked, left } in small_ones(89_000_001, 200, 20) {
        for words in 0..left.records.len() {
            let mut shorter = left.clone();
            shorter.records.truncate(words);
            asked.count("cut short", &mut random, &shorter, &mut cut);
        }
        let last = left.record(left.count() - 1).to_vec();
        for words in 1..=2 * RECORD {
            let mut more = left.clone();
            more.records.extend(last.iter().cycle().take(words));
            asked.count("the last again", &mut random, &more, &mut longer);
            let len = left.records.len();
            more.records[len..].fill(random.below(2) as u32);
            asked.count("zeros or ones", &mut random, &more, &mut longer);
        }
        for words in 0..left.listing.len() {
            let mut shorter = left.clone();
            shorter.listing.truncate(words);
            asked.count("tuples cut", &mut random, &shorter, &mut listings);
        }
        for words in 1..=2 * asked.n() {
            let mut more = left.clone();
            more.listing.extend((0..words).map(|_| random.word()));
            asked.count("words more", &mut random, &more, &mut listings);
            let len = left.listing.len();
            more.listing[len..].fill(0);
            asked.count("zeros more", &mut random, &more, &mut listings);
        }
        // Neither listing nor records, and one of the two.
        let none = Certificate::of(&[], &[]);
        assert_eq!(asked.check("nothing", &mut random, &none), CHECK_FAILS);
        let mut empty = left.clone();
        empty.records.clear();
        assert_eq!(asked.check("no records", &mut random, &empty), CHECK_FAILS);
        let mut empty = left.clone();
        empty.listing.clear();
        let due = if left.listing.is_empty() {
            0
        } else {
            CHECK_FAILS
        };
        assert_eq!(asked.check("no tuples", &mut random, &empty), due);
    }
    cut.finish("records cut short", &[22], 5_000);
    // The whole space may stand there again.
    longer.finish("records with words more", &[0, 22], 300);
    listings.finish("listings cut short and longer", &[22], 1_000);
    assert_eq!(listings.0[0], 0);
}

/// Tuples taken out, doubled and exchanged, with the places as they were and renumbered: never accepted.
#[test]
fn tuples_moved() {
    let mut random = Random::new(90_000_000);
    let mut tally = Tally::new();
    for Small { asked, left } in small_ones(90_000_001, 400, 60) {
        let n = asked.n();
        let tuples = left.listing.len() / n;
        for place in 0..tuples {
            let tuple = left.listing[n * place..n * (place + 1)].to_vec();
            let mut fewer = left.clone();
            fewer.listing.drain(n * place..n * (place + 1));
            asked.count("a tuple taken out", &mut random, &fewer, &mut tally);
            let mut fewer = left.clone();
            fewer.take_tuple(n, place);
            asked.count("taken out, renumbered", &mut random, &fewer, &mut tally);
            // Its record is said to be a gap box of any table then.
            for table in 0..asked.question.tables.len() as u32 {
                let mut forged = fewer.clone();
                for number in 0..left.count() {
                    if left.record(number)[MOST_ATTRIBUTES..] == [TUPLE, place as u32, 0] {
                        let origins = &mut forged.record_mut(number)[MOST_ATTRIBUTES..];
                        origins.copy_from_slice(&[GAP, table, 0]);
                    }
                }
                asked.count("a tuple as a gap", &mut random, &forged, &mut tally);
            }
            let mut more = left.clone();
            more.listing.splice(n * place..n * place, tuple.clone());
            asked.count("a tuple twice", &mut random, &more, &mut tally);
            if place > 0 {
                let mut swapped = left.clone();
                swapped.listing[n * (place - 1)..n * (place + 1)].rotate_left(n);
                asked.count("two tuples", &mut random, &swapped, &mut tally);
                for number in 0..left.count() {
                    if let [TUPLE, at, _] = &mut swapped.record_mut(number)[MOST_ATTRIBUTES..] {
                        let [one, two] = [place as u32 - 1, place as u32];
                        *at = match *at {
                            at if at == one => two,
                            at if at == two => one,
                            at => at,
                        };
                    }
                }
                asked.count("two, renumbered", &mut random, &swapped, &mut tally);
            }
        }
    }
    tally.finish("tuples moved", &[22], 5_000);
    assert_eq!(tally.0[0], 0);
}

/// The origins of a resolvent exchanged: the lower half's has to be the first. And each record with each other kind.
#[test]
fn origins_exchanged_and_kinds() {
    let mut random = Random::new(91_000_000);
    let (mut origins, mut kinds) = (Tally::new(), Tally::new());
    for Small { asked, left } in small_ones(91_000_001, 400, 40) {
        for number in 0..left.count() {
            if left.kind(number) == RESOLVENT {
                let mut swapped = left.clone();
                swapped.record_mut(number)[MOST_ATTRIBUTES + 1..].reverse();
                asked.count("origins exchanged", &mut random, &swapped, &mut origins);
            }
            for kind in [0, 1, 2, 3, 4, 256, 65_536, 65_537, 1 << 31, u32::MAX] {
                if kind != left.kind(number) {
                    let mut changed = left.clone();
                    changed.record_mut(number)[MOST_ATTRIBUTES] = kind;
                    asked.count("another kind", &mut random, &changed, &mut kinds);
                }
            }
        }
    }
    origins.finish("origins exchanged", &[22], 1_000);
    kinds.finish("other kinds", &[22], 10_000);
    assert_eq!((origins.0[0], kinds.0[0]), (0, 0));
}

/// A record that no other needs, for this place of the records: a gap box made narrower, a record again, or any resolvent
/// of records before it.
fn useless(random: &mut Random, asked: &Asked, of: &Certificate, number: usize) -> Vec<u32> {
    let n = asked.n();
    let earlier = |random: &mut Random| random.below(number.max(1));
    match random.below(3) {
        0 => {
            // Of any record: a gap box needs none before it.
            let gaps: Vec<usize> = (0..of.count()).filter(|&at| of.kind(at) == GAP).collect();
            if !gaps.is_empty() {
                let gap = of.record(random.pick(&gaps));
                let narrow = narrowed(random, &asked.question, &gap[..n]);
                return record(&narrow, GAP, [gap[MOST_ATTRIBUTES + 1], 0]);
            }
        }
        1 if number > 0 => {
            for _ in 0..20 {
                let [lower, upper] = [earlier(random), earlier(random)];
                let [one, two] = [lower, upper].map(|at| &of.record(at)[..n]);
                // The lower half's has to be the first.
                let lower_first = one.iter().zip(two).any(|(a, b)| a % 2 == 0 && *b == a + 1);
                if let (Some(resolvent), true) = (resolve(one, two), lower_first) {
                    return record(&resolvent, RESOLVENT, [lower as u32, upper as u32]);
                }
            }
        }
        _ => {}
    }
    if number > 0 {
        return of.record(earlier(random)).to_vec();
    }
    let first = of.record(0).to_vec();
    assert_ne!(
        first[MOST_ATTRIBUTES], RESOLVENT,
        "the first is no resolvent"
    );
    first
}

/// Records that no other needs, put in anywhere but at the end, with all other origins as they were: still accepted.
#[test]
fn useless_records() {
    let mut random = Random::new(92_000_000);
    let mut tally = Tally::new();
    let mut kinds = [0; 3];
    for Small { asked, left } in small_ones(92_000_001, 500, 60) {
        let mut more = left.clone();
        for _ in 0..random.from_to(1, 30) {
            let number = random.below(more.count());
            let record = useless(&mut random, &asked, &more, number);
            kinds[record[MOST_ATTRIBUTES] as usize] += 1;
            more.put_in(number, &record);
            let check = asked.check("useless records", &mut random, &more);
            assert_eq!(
                check, 0,
                "useless {record:?} at {number}: {:?}",
                asked.words
            );
            tally.count(check);
        }
    }
    tally.finish("useless records", &[0], 5_000);
    println!("useless records: {kinds:?} gap boxes, tuples and resolvents");
    assert!(kinds.iter().all(|&count| count >= 300));
}
