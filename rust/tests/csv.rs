//! Comma-separated files at random, good and damaged: the library against the plain model.

mod common;

use boxjoin::nested::{join_by_rows, most_turns};
use boxjoin::plain::{Question, Table, MOST_ATTRIBUTES, RECORD};
use boxjoin::random::{
    csv, csv_of, damaged_csv, damaged_names, filled_question, messy_csv, names, names_line,
    twice_damaged_csv, Cause, Random,
};
use common::csv_calls::{export, import};
use common::Tally;

/// Files of the tables of random questions say these tables, whatever their order and their quotes; put
/// together again they are the question, which is accepted, unless a width is too small for a value.
#[test]
fn questions_from_files() {
    let (mut tally, mut checked) = (Tally::new(), Tally::new());
    let mut joined = 0;
    for seed in 0..3_000 {
        let mut random = Random::new(5_000_000 + seed);
        let question = filled_question(&mut random);
        let n = question.widths.len();
        let names = names(&mut random, n);
        let line = names_line(&names);
        let mut words = vec![n as u16];
        words.extend(question.widths.iter().map(|&w| w as u16));
        words.push(question.tables.len() as u16);
        for (number, table) in question.tables.iter().enumerate() {
            let file = csv_of(&mut random, &names, table);
            let what = format!("table {number} of seed {seed}");
            let call = import(&line, &file);
            let says = table.words();
            assert_eq!(call.made, Ok(says.clone()), "the plain model on {what}");
            call.compare_rooms(&what, &mut random, &mut tally);
            // With what stands behind it still there, into the middle of the question's words.
            let front = words.len();
            words.resize(front + says.len() + 3, 7);
            let told = boxjoin::import_csv(&line, &file, &mut words[front..]);
            assert_eq!((told.number, told.count), (0, says.len() as u32), "{what}");
            assert_eq!(words[front + says.len()..], [7; 3], "{what}");
            words.truncate(front + says.len());
        }
        assert!(words == question.words(), "seed {seed}: the question");
        checked.count(boxjoin::check_question(&words));
        // The least widths will do, and with one bit less a value doesn't fit.
        let least = least_widths(&question);
        for (attribute, &width) in least.iter().enumerate() {
            words[1 + attribute] = width as u16;
        }
        assert_eq!(boxjoin::check_question(&words), 0, "seed {seed}");
        if let Some(attribute) = (0..n).find(|&a| least[a] > 1) {
            words[1 + attribute] -= 1;
            let number = boxjoin::check_question(&words);
            assert_eq!(number, 9, "seed {seed}: width of {attribute}");
            checked.count(number);
        }
        joined += usize::from(join(&mut random, &line, &question));
    }
    tally.finish("tables of questions", &[0, 13], 3_000);
    checked.finish("questions of files", &[0, 9], 1_000);
    println!("questions of files: {joined} joins exported");
    assert!(joined > 500);
}

/// The widths that the values of the question's tables need.
fn least_widths(question: &Question) -> Vec<u32> {
    let mut widths = vec![1; question.widths.len()];
    for table in &question.tables {
        for row in table.rows().expect("no table is open") {
            for (&attribute, value) in table.attributes.iter().zip(row) {
                widths[attribute] = widths[attribute].max(16 - value.leading_zeros());
            }
        }
    }
    widths
}

/// Runs the question and exports its listing, which has to be nested loops' join as lines; imports that again.
/// Says whether the join was small enough.
fn join(random: &mut Random, line: &[u8], question: &Question) -> bool {
    if most_turns(question) > 1e4 {
        return false;
    }
    let n = question.widths.len();
    let (mut listing, mut store) = (vec![0; 60_000], vec![0; RECORD * 400]);
    let counts = boxjoin::run(&question.words(), &mut listing, &mut store);
    if counts.number != 0 {
        return false;
    }
    listing.truncate(counts.tuples as usize * n);
    let mut lines = String::from_utf8(line.to_vec()).unwrap().replace(' ', ",") + "\r\n";
    let tuples = join_by_rows(question);
    for tuple in &tuples {
        let values: Vec<String> = tuple.iter().map(|v| v.to_string()).collect();
        lines += &(values.join(",") + "\r\n");
    }
    let mut out = vec![0; lines.len() + random.below(3)];
    let told = boxjoin::export_csv(line, &listing, &mut out);
    assert_eq!((told.number, told.count as usize), (0, lines.len()));
    assert!(out[..lines.len()] == *lines.as_bytes());
    if tuples.len() <= 4_096 && lines.len() <= 60_000 {
        let table = Table::with_rows((0..n).collect(), tuples);
        let mut words = vec![0; table.words().len()];
        let told = boxjoin::import_csv(line, lines.as_bytes(), &mut words);
        assert_eq!((told.number, told.count as usize), (0, words.len()));
        assert!(words == table.words());
    }
    true
}

/// Each thing that can be wrong, alone: it has its number.
#[test]
fn every_cause() {
    let mut tally = Tally::new();
    let mut causes: Vec<(Cause, bool)> = Vec::new();
    causes.extend(Cause::OF_NAMES.map(|cause| (cause, false)));
    causes.extend(Cause::OF_FILE.map(|cause| (cause, false)));
    causes.extend(Cause::OF_HEADER.map(|cause| (cause, true)));
    causes.extend(Cause::OF_RECORD.map(|cause| (cause, false)));
    for (kind, &(cause, in_header)) in causes.iter().enumerate() {
        // These files are long.
        let long = [Cause::TooLong, Cause::TooManyRows].contains(&cause);
        for seed in 0..if long { 30 } else { 300 } {
            let mut random = Random::new(6_000_000 + 1_000 * kind as u64 + seed);
            let (names, file) = damaged_csv(&mut random, cause, in_header);
            let what = format!("{cause:?} of seed {seed}, in the header: {in_header}");
            let call = import(&names, &file);
            assert_eq!(call.number(), cause.number(), "the plain model on {what}");
            call.compare_rooms(&what, &mut random, &mut tally);
            if Cause::OF_NAMES.contains(&cause) {
                let listing: Vec<u16> = (0..random.below(MOST_ATTRIBUTES + 1))
                    .map(|_| random.word())
                    .collect();
                let call = export(&names, &listing);
                assert_eq!(call.number(), cause.number(), "the plain model on {what}");
                call.compare_rooms(&what, &mut random, &mut tally);
            }
        }
    }
    tally.finish("every cause", &[8, 15, 16, 17, 18, 19], 60);
}

/// Of two things that are wrong the first decides.
#[test]
fn the_first_cause_decides() {
    let mut tally = Tally::new();
    for seed in 0..4_000 {
        let mut random = Random::new(7_000_000 + seed);
        let (names, file, number) = twice_damaged_csv(&mut random);
        let what = format!("two causes of seed {seed}");
        let call = import(&names, &file);
        assert_eq!(call.number(), number, "the plain model on {what}");
        call.compare_rooms(&what, &mut random, &mut tally);
    }
    tally.finish("two causes", &[15, 16, 17, 18, 19], 50);
}

#[test]
fn random_files() {
    let mut tally = Tally::new();
    for seed in 0..3_000 {
        let mut random = Random::new(8_000_000 + seed);
        let (names, file) = csv(&mut random);
        let what = format!("file of seed {seed}");
        let number = import(&names, &file).compare_rooms(&what, &mut random, &mut tally);
        assert_eq!(number, 0, "{what}");
    }
    tally.finish("random files", &[0, 13], 3_000);
}

#[test]
fn messy_files() {
    let mut tally = Tally::new();
    for seed in 0..30_000 {
        let mut random = Random::new(9_000_000 + seed);
        let (names, file) = messy_csv(&mut random);
        let what = format!("messy file of seed {seed}");
        import(&names, &file).compare_rooms(&what, &mut random, &mut tally);
    }
    tally.finish("messy files", &[0, 13, 15, 16, 17, 18, 19], 50);
}

/// Random listings: what is exported is imported again, sorted and each tuple once.
#[test]
fn listings_there_and_back() {
    let mut tally = Tally::new();
    let mut back = Tally::new();
    for seed in 0..4_000 {
        let mut random = Random::new(12_000_000 + seed);
        let n = random.from_to(1, MOST_ATTRIBUTES);
        let mut line = names_line(&names(&mut random, n));
        if random.one_in(12) {
            let cause = random.pick(&Cause::OF_NAMES);
            line = damaged_names(&mut random, cause);
        }
        let tuples = match random.below(80) {
            0 | 1 => random.pick(&[7_000, 9_000]),
            2..=5 => random.from_to(100, 600),
            _ => random.below(12),
        };
        let mut length = tuples * n;
        if random.one_in(8) {
            length += random.below(n);
        }
        let end = random.pick(&[2, 10, 100, 1_000, 10_000, 65_536]);
        let listing: Vec<u16> = (0..length).map(|_| random.below(end) as u16).collect();
        let what = format!("listing of seed {seed}");
        let call = export(&line, &listing);
        call.compare_rooms(&what, &mut random, &mut tally);
        let Ok(file) = &call.made else { continue };
        let mut rows: Vec<Vec<u16>> = listing.chunks(n).map(|t| t.to_vec()).collect();
        rows.sort();
        rows.dedup();
        let number = match (file.len(), rows.len()) {
            (60_001.., _) => 17,
            (_, 4_097..) => 8,
            _ => 0,
        };
        let mut out = vec![0; file.len()];
        let told = boxjoin::export_csv(&line, &listing, &mut out);
        assert_eq!(told.number, 0, "{what}");
        let again = import(&line, &out);
        let table = Table::with_rows((0..n).collect(), rows);
        let expected = if number == 0 {
            Ok(table.words())
        } else {
            Err(number)
        };
        assert!(again.made == expected, "the plain model on {what}");
        again.compare_rooms(&what, &mut random, &mut back);
    }
    tally.finish("random listings", &[0, 3, 13, 15, 16], 100);
    back.finish("listings there and back", &[0, 8, 13, 17], 4);
}
