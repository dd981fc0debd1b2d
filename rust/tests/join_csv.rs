//! Joins of comma-separated files: the library against the plain model and against nested loops.

mod common;

use boxjoin::files::{Join, Refusal, Rooms, MOST_FILES};
use boxjoin::nested::{join_by_rows, most_turns};
use boxjoin::plain::{Question, Table, MOST_ATTRIBUTES, MOST_BOXES, RECORD};
use boxjoin::random::{
    call_log, files_of, filled_question, messy_files, wrong_files, Files, Random, Wrong,
};
use common::join_calls::{Call, AMPLE};
use common::{largest_store, longest_names, small_questions, Tally};

/// The file of these tuples under these names.
fn lines(names: &[u8], tuples: &[Vec<u16>]) -> Vec<u8> {
    let names = String::from_utf8(names.to_vec()).unwrap();
    let mut lines = names.replace(' ', ",") + "\r\n";
    for tuple in tuples {
        let values: Vec<String> = tuple.iter().map(|v| v.to_string()).collect();
        lines += &(values.join(",") + "\r\n");
    }
    lines.into_bytes()
}

/// Files of random questions' tables: they are read as these tables, with the widths that these need, and a
/// complete join is that of nested loops.
#[test]
fn random_files() {
    let mut tally = Tally::new();
    let mut joined = 0;
    for seed in 0..1_200 {
        let mut random = Random::new(20_000_000 + seed);
        let question = filled_question(&mut random);
        let files = files_of(&mut random, &question);
        let what = format!("files of seed {seed}");
        let call = Call::new(&what, &files);
        let made = call.made.as_ref().expect("the plain model takes them");
        assert_eq!(made.tables, question.tables, "the plain model on {what}");
        assert_eq!(made.widths, widths_of(&question), "widths of {what}");
        let join = call.compare_rooms(&mut random, AMPLE, &mut tally);
        joined += usize::from(is_join(&what, &files.names, &question, &join));
    }
    tally.finish("random files", &[0, 13, 14], 1_000);
    println!("random files: {joined} joins by nested loops");
    assert!(joined > 500);
}

/// For each attribute the bits of its largest value, and at least one.
fn widths_of(question: &Question) -> Vec<u32> {
    let widest = |attribute| {
        let mut most = 0;
        for table in &question.tables {
            if let Some(column) = table.attributes.iter().position(|&a| a == attribute) {
                let rows = table.rows().expect("no table is open");
                most = rows.iter().fold(most, |most, row| most.max(row[column]));
            }
        }
        most.checked_ilog2().map_or(1, |top| top + 1)
    };
    (0..question.widths.len()).map(widest).collect()
}

/// Sees that what is listed is nested loops' join, and whether `out` is its file; says whether it is, and was
/// small enough for that.
fn is_join(what: &str, names: &[u8], question: &Question, join: &Join) -> bool {
    if most_turns(question) > 1e4 {
        return false;
    }
    let tuples = join_by_rows(question);
    if join.told.number != 0 {
        assert!(
            tuples.concat().starts_with(&join.listing),
            "{what}: listing"
        );
        assert!(join.out.is_empty(), "{what}: out");
        return false;
    }
    assert_eq!(join.listing, tuples.concat(), "{what}: listing");
    assert_eq!(join.out, lines(names, &tuples), "{what}: out");
    true
}

/// Each thing that can be wrong, alone: it has its number, its file and its record.
#[test]
fn every_wrong() {
    let mut tally = Tally::new();
    for (kind, &wrong) in Wrong::all().iter().enumerate() {
        for seed in 0..if wrong.is_long() { 4 } else { 30 } {
            let mut random = Random::new(21_000_000 + 1_000 * kind as u64 + seed);
            let (files, refusal) = wrong_files(&mut random, &[wrong]);
            let what = format!("{wrong:?} of seed {seed}");
            let call = Call::new(&what, &files);
            assert_eq!(call.made, Err(refusal), "the plain model on {what}");
            call.compare_rooms(&mut random, AMPLE, &mut tally);
        }
    }
    tally.finish("every wrong", &[1, 3, 5, 8, 12, 15, 16, 17, 18, 19], 12);
}

/// Each two things that can be wrong: the one that is asked first decides.
#[test]
fn the_first_wrong_decides() {
    let mut tally = Tally::new();
    let all = Wrong::all();
    let pairs = || (0..all.len()).flat_map(|two| (0..two).map(move |one| [one, two]));
    for (number, pair) in pairs().enumerate() {
        let wrongs = pair.map(|at| all[at]);
        // There is one line of names.
        if wrongs.iter().all(|wrong| matches!(wrong, Wrong::Names(_))) {
            continue;
        }
        let long = wrongs.iter().any(|wrong| wrong.is_long());
        for seed in 0..if long { 1 } else { 4 } {
            let mut random = Random::new(22_000_000 + 10 * number as u64 + seed);
            let (files, refusal) = wrong_files(&mut random, &wrongs);
            let what = format!("{wrongs:?} of seed {seed}");
            let call = Call::new(&what, &files);
            assert_eq!(call.made, Err(refusal), "the plain model on {what}");
            call.compare_rooms(&mut random, AMPLE, &mut tally);
        }
    }
    // 12 decides before nothing, and 1 before 12 alone.
    let numbers = [1, 3, 5, 8, 15, 16, 17, 18, 19];
    tally.finish("two wrongs", &numbers, 3);
}

/// Files with any damage or none.
#[test]
fn messy() {
    let mut tally = Tally::new();
    for seed in 0..6_000 {
        let mut random = Random::new(23_000_000 + seed);
        let files = messy_files(&mut random);
        let what = format!("messy files of seed {seed}");
        let call = Call::new(&what, &files);
        let rooms = Rooms {
            listing: random.pick(&[0, 4, 40, 400]),
            store: RECORD * random.pick(&[0, 8, 30, 100]),
            out: random.pick(&[0, 10, 60, 4_000]),
        };
        let (scratch, counts) = (random.below(60), random.below(8));
        let join = call.compare(&mut random, rooms, scratch, counts);
        tally.count(join.told.number);
    }
    let numbers = [0, 3, 5, 12, 13, 14, 15, 16, 18, 19];
    tally.finish("messy files", &numbers, 15);
}

/// Every room for the tuples, for the boxes and for the bytes of some small questions.
#[test]
fn every_room() {
    let mut tally = Tally::new();
    let mut random = Random::new(24_000_000);
    let mut complete = 0;
    small_questions(|question| {
        // No file is an open table's or a range table's.
        if question.tables.iter().any(|t| t.rows().is_none()) || !random.one_in(25) {
            return;
        }
        let files = files_of(&mut random, question);
        let call = Call::new("a small question", &files);
        let whole = call.answer(AMPLE);
        assert_eq!(whole.told.number, 0);
        let exact = Rooms {
            listing: whole.listing.len(),
            store: whole.store.len(),
            out: whole.out.len(),
        };
        let n = question.widths.len();
        let mut rooms = Vec::new();
        rooms.extend((0..=exact.out + 1).map(|out| Rooms { out, ..exact }));
        rooms.extend((0..=whole.told.tuples as usize).map(|tuples| Rooms {
            listing: n * tuples + random.below(n),
            ..exact
        }));
        rooms.extend((0..=whole.told.boxes as usize).map(|boxes| Rooms {
            store: RECORD * boxes + random.below(RECORD),
            ..exact
        }));
        rooms.extend((0..4).map(|_| Rooms {
            listing: random.below(exact.listing + 2),
            store: random.below(exact.store + 2),
            out: random.below(exact.out + 2),
        }));
        for rooms in rooms {
            let (scratch, counts) = (random.below(80), random.below(8));
            let join = call.compare(&mut random, rooms, scratch, counts);
            tally.count(join.told.number);
            complete += usize::from(join.told.number == 13 && join.told.bytes > 0);
        }
    });
    tally.finish("every room", &[0, 13, 14], 300);
    println!("every room: {complete} with an out too short");
    assert!(complete > 300);
}

/// Names, files, and the join's file or the refusal.
type Named = (
    &'static str,
    &'static [&'static str],
    Result<&'static str, Refusal>,
);

const fn refused(number: u8, file: u32, record: u32) -> Result<&'static str, Refusal> {
    Err(Refusal {
        number,
        file,
        record,
    })
}

/// Files by name, each with its join or its refusal.
#[test]
fn named_files() {
    let mut tally = Tally::new();
    let cases: &[Named] = &[
        ("a", &["a"], Ok("a\r\n")),
        ("a", &["a\r\n0"], Ok("a\r\n0\r\n")),
        ("a", &["a\r\n65535\r\n0\r\n"], Ok("a\r\n0\r\n65535\r\n")),
        ("a", &["a\r\n3\r\n1", "a\r\n2\r\n3"], Ok("a\r\n3\r\n")),
        ("a", &["a\r\n3\r\n1", "a"], Ok("a\r\n")),
        (
            "a b",
            &["b\r\n7\r\n", "a\r\n5\r\n4"],
            Ok("a,b\r\n4,7\r\n5,7\r\n"),
        ),
        ("b a", &["a,b\r\n1,2\r\n"], Ok("b,a\r\n2,1\r\n")),
        (
            "shaft unit line",
            &[
                "unit,shaft\r\n2046,3\r\n2001,1\r\n",
                "line,unit\r\n17,2046\r\n\"4\",\"2001\"\r\n4,2001",
            ],
            Ok("shaft,unit,line\r\n1,2001,4\r\n3,2046,17\r\n"),
        ),
        // The names, then the number of files.
        ("", &[], refused(15, 0, 0)),
        ("", &["\n"], refused(15, 0, 0)),
        ("a,b", &["a,b"], refused(15, 0, 0)),
        ("a a", &[], refused(16, 0, 0)),
        ("a a", &["\n"], refused(16, 0, 0)),
        ("a", &[], refused(5, 0, 0)),
        ("a", &["\n"; 17], refused(5, 0, 0)),
        // A file, by its number and the record's.
        ("a", &[""], refused(16, 1, 1)),
        ("a", &["a", "", "\n"], refused(16, 2, 1)),
        ("a", &["a", "a", "b"], refused(16, 3, 1)),
        ("a", &["a\n"], refused(18, 1, 1)),
        ("a", &["a\r\n1\n"], refused(18, 1, 2)),
        ("a", &["a\r\n1\r\n\n"], refused(18, 1, 3)),
        ("a", &["a\r\n1\r\n\r\n"], refused(19, 1, 3)),
        ("a", &["a\r\n1\r\n2,3"], refused(18, 1, 3)),
        ("a", &["a\r\n1\r\n1\r\n1\r\n\"1"], refused(18, 1, 5)),
        ("a", &["a\r\nx\r\n\n"], refused(19, 1, 2)),
        ("a", &["a\r\n65536", "\n"], refused(19, 1, 2)),
        // No file is an open table's, but a column may have that name.
        ("a", &["a\r\nopen"], refused(19, 1, 2)),
        ("a", &["a\r\nopen\r\n"], refused(19, 1, 2)),
        ("a", &["a\r\n1\r\n", "a\r\nopen\r\n"], refused(19, 2, 2)),
        ("a", &["a\r\n1\r\n\"open\"\r\n", "a"], refused(19, 1, 3)),
        ("a b", &["a,b\r\nopen,open\r\n"], refused(19, 1, 2)),
        ("a b", &["a,b\r\nopen\r\n"], refused(18, 1, 2)),
        ("a", &["open"], refused(16, 1, 1)),
        ("open", &["open\r\nopen"], refused(19, 1, 2)),
        ("open", &["open"], Ok("open\r\n")),
        (
            "open",
            &["open\r\n65535", "open\r\n1\r\n65535"],
            Ok("open\r\n65535\r\n"),
        ),
        ("a", &["a\r\n65535", "\n"], refused(18, 2, 1)),
        ("a", &["a\r\n1\r\n\"1\r\n2\"\r\n", "b"], refused(19, 1, 3)),
        (
            "a",
            &["\"a\"\r\n\"1\"\r\n\"\r\n\r\n\"\r\n"],
            refused(19, 1, 3),
        ),
        // All files before the attributes.
        ("a b", &["a\r\n1"], refused(12, 0, 0)),
        ("a b", &["b\r\n1", "b"], refused(12, 0, 0)),
        ("a b", &["a\r\n1", "a\r\nx"], refused(19, 2, 2)),
        (
            "a b c d e f g h i j k l",
            &["a,b,c,d,e,f,g,h,i,j,k\r\n1,2,3,4,5,6,7,8,9,10,11"],
            refused(12, 0, 0),
        ),
        (
            "a b c d e f g h i j k l",
            &[
                "l,k,j,i,h,g,f,e,d,c,b,a\r\n12,11,10,9,8,7,6,5,4,3,2,1",
                "l\r\n12",
            ],
            Ok("a,b,c,d,e,f,g,h,i,j,k,l\r\n1,2,3,4,5,6,7,8,9,10,11,12\r\n"),
        ),
        ("a b c d e f g h i j k l m", &["m\r\n1"], refused(15, 0, 0)),
    ];
    for (names, files, expected) in cases {
        let what = format!("names {names:?}, files {files:?}");
        let files: Vec<Vec<u8>> = files.iter().map(|file| file.as_bytes().to_vec()).collect();
        let files = Files::new(names.as_bytes(), &files);
        let call = Call::new(&what, &files);
        let mut random = Random::new(files.bytes.len() as u64);
        let join = call.compare_rooms(&mut random, AMPLE, &mut tally);
        match expected {
            Ok(out) => assert_eq!(join.out, out.as_bytes(), "the plain model on {what}"),
            Err(refusal) => assert_eq!(call.made, Err(*refusal), "the plain model on {what}"),
        }
    }
    tally.finish("named files", &[0, 5, 12, 13, 14, 15, 16, 18, 19], 4);
}

/// A refusal's number, file and record, or none.
type Refused = Option<(u8, u32, u32)>;

/// Calls, sees that the refusal, if there is one, is this, and hands back the answer.
fn asked(what: &str, files: &Files, refusal: Refused, tally: &mut Tally) -> Join {
    let mut random = Random::new(files.bytes.len() as u64);
    let call = Call::by_tree(what, files);
    let made = call
        .made
        .as_ref()
        .err()
        .map(|r| (r.number, r.file, r.record));
    assert_eq!(made, refusal, "the plain model on {what}");
    call.compare_rooms(&mut random, AMPLE, tally)
}

/// A file of one column `a` with these values.
fn column(values: impl IntoIterator<Item = usize>) -> Vec<u8> {
    let records: String = values.into_iter().map(|v| format!("{v}\r\n")).collect();
    ("a\r\n".to_string() + &records).into_bytes()
}

/// Ends that are equal, that descend, that are beyond all bytes or before the last one.
#[test]
fn ends() {
    let mut tally = Tally::new();
    let bytes = b"a\r\n1\r\na\r\n1\r\n2\r\nb\"\xff";
    let cases: &[(&[u32], Refused)] = &[
        (&[6], None),
        (&[3], None),
        (&[1], None),
        (&[6, 15], None),
        (&[6, 12], None),
        (&[6, 7], None),
        (&[0], Some((16, 1, 1))),
        (&[0, 0], Some((16, 1, 1))),
        (&[6, 6], Some((16, 2, 1))),
        (&[6, 6, 6], Some((16, 2, 1))),
        (&[6, 15, 15], Some((16, 3, 1))),
        (&[2], Some((18, 1, 1))),
        (&[5], Some((18, 1, 2))),
        (&[7], Some((19, 1, 3))),
        (&[6, 16], Some((19, 2, 4))),
        (&[6, 17], Some((18, 2, 4))),
        (&[6, 18], Some((18, 2, 4))),
        (&[6, 15, 18], Some((18, 3, 1))),
        (&[6, 15, 16], Some((16, 3, 1))),
        (&[19], Some((3, 1, 0))),
        (&[u32::MAX], Some((3, 1, 0))),
        (&[6, 19], Some((3, 2, 0))),
        (&[6, u32::MAX], Some((3, 2, 0))),
        (&[6, u32::MAX, 15], Some((3, 2, 0))),
        (&[6, 15, 19], Some((3, 3, 0))),
        (&[6, 5], Some((3, 2, 0))),
        (&[6, 0], Some((3, 2, 0))),
        (&[6, 15, 14], Some((3, 3, 0))),
        (&[6, 15, 6], Some((3, 3, 0))),
        (&[15, 6], Some((19, 1, 3))),
        (&[6, 14, 3], Some((18, 2, 3))),
        (&[6, 6, 3], Some((16, 2, 1))),
        (&[6, 65_536 + 15], Some((3, 2, 0))),
    ];
    for (ends, refusal) in cases {
        let files = Files {
            names: b"a".to_vec(),
            bytes: bytes.to_vec(),
            ends: ends.to_vec(),
        };
        asked(&format!("ends {ends:?}"), &files, *refusal, &mut tally);
    }
    tally.finish("ends", &[0, 3, 13, 14, 16, 18, 19], 8);
}

/// Values that just fit into a width, and those that just don't.
#[test]
fn widths() {
    let mut tally = Tally::new();
    let mut random = Random::new(25_000_000);
    for width in 1..=16u32 {
        let full = (1usize << width) - 1;
        let sets = [
            vec![full],
            vec![0, full],
            vec![full / 2, full],
            vec![full + 1],
            vec![full, full + 1],
        ];
        for values in sets.iter().filter(|values| !values.contains(&65_536)) {
            let least = width_of(*values.iter().max().unwrap());
            // In either table, of either attribute.
            let one = column(values.iter().copied());
            let pairs = values.iter().map(|v| format!("{},{v}\r\n", v / 2));
            let two = "b,a\r\n".to_string() + &pairs.collect::<String>();
            let files = [one.clone(), two.into_bytes(), column(0..2)];
            for files in [&files[..1], &files[..2], &files[1..]] {
                let names: &[u8] = if files.len() == 1 { b"a" } else { b"a b" };
                let files = Files::new(names, files);
                let what = format!("values {values:?}");
                let call = Call::new(&what, &files);
                let made = call.made.as_ref().unwrap();
                assert_eq!(made.widths[0], least, "the plain model on {what}");
                call.compare_rooms(&mut random, AMPLE, &mut tally);
            }
        }
    }
    // Without any value, and with no value but 0.
    for file in ["a", "a\r\n0"] {
        for files in [vec![file], vec![file, "a\r\n0"], vec![file, "a"]] {
            let files: Vec<Vec<u8>> = files.iter().map(|f| f.as_bytes().to_vec()).collect();
            let files = Files::new(b"a", &files);
            let call = Call::new("no value but 0", &files);
            assert_eq!(call.made.as_ref().unwrap().widths, [1]);
            call.compare_rooms(&mut random, AMPLE, &mut tally);
        }
    }
    tally.finish("widths", &[0, 13, 14], 50);
}

fn width_of(value: usize) -> u32 {
    (1..).find(|&width| value < 1 << width).unwrap()
}

/// So many words, so many files, so many bytes.
#[test]
fn limits() {
    let mut tally = Tally::new();
    let mut random = Random::new(26_000_000);
    // Eight tables of one attribute: three words each beside their rows, and three before them.
    let of_words = |words: usize| -> Vec<Vec<u8>> {
        let rows = words - 3 - 8 * 3;
        let count = |table: usize| rows / 8 + usize::from(table < rows % 8);
        (0..8).map(|table| column(0..count(table))).collect()
    };
    let laid = |files: &[Vec<u8>]| Files::new(b"a", files);
    let long = Rooms {
        listing: 4_000,
        store: RECORD * 8_200,
        out: 30_000,
    };
    for words in [31_999, 32_000] {
        let files = laid(&of_words(words));
        let what = format!("{words} words");
        let call = Call::by_tree(&what, &files);
        assert_eq!(call.made.as_ref().unwrap().words().len(), words);
        let join = call.compare(&mut random, long, 12 * 8_200, 6);
        assert_eq!((join.told.number, join.told.tuples), (0, 3_996));
        tally.count(join.told.number);
        let short = Rooms { store: 100, ..long };
        tally.count(call.compare(&mut random, short, 50, 6).told.number);
    }
    for words in [32_001, 32_002, 32_700, 32_768] {
        let mut files = of_words(words);
        let what = format!("{words} words");
        asked(&what, &laid(&files), Some((1, 0, 0)), &mut tally);
        // All files are asked before.
        files.push(b"a\r\n1\r\nx\r\n".to_vec());
        asked(&what, &laid(&files), Some((19, 9, 3)), &mut tally);
        files.pop();
        let none = Files {
            names: b"a b".to_vec(),
            ..laid(&files)
        };
        asked(&what, &none, Some((1, 0, 0)), &mut tally);
    }
    // Words that 16 bits don't count, up to the most that files can have.
    let digits = |v: usize| {
        format!("{v:012}")
            .chars()
            .map(String::from)
            .collect::<Vec<_>>()
            .join(",")
    };
    let wide: String = (0..2_399).map(|v| digits(v) + "\r\n").collect();
    let wide = ("a,b,c,d,e,f,g,h,i,j,k,l\r\n".to_string() + &wide).into_bytes();
    let names = b"a b c d e f g h i j k l";
    for count in [2, 3, 4, MOST_FILES] {
        let mut files = Files::new(names, &vec![wide.clone(); count]);
        let what = format!("{count} wide files");
        asked(&what, &files, Some((1, 0, 0)), &mut tally);
        files.ends[count - 1] -= 1;
        asked(&what, &files, Some((18, count as u32, 2_400)), &mut tally);
    }
    let one = Files::new(names, std::slice::from_ref(&wide));
    assert_eq!(
        asked("one wide file", &one, None, &mut tally).told.number,
        14
    );
    // Names of twelve letters each, and one letter more.
    let longest = longest_names();
    let file = longest.join(",") + "\r\n1,2,3,4,5,6,7,8,9,10,11,12";
    for (line, refusal) in [
        (longest.join(" "), None),
        (longest.join(" ") + "l", Some((15, 0, 0))),
    ] {
        let files = Files::new(line.as_bytes(), &[file.clone().into_bytes()]);
        let join = asked("the longest names", &files, refusal, &mut tally);
        assert_eq!(join.told.tuples, u32::from(refusal.is_none()));
    }
    // So many files, each of so many rows.
    for count in [1, 2, 15, 16] {
        let join = asked(
            "some files",
            &laid(&vec![column(0..3); count]),
            None,
            &mut tally,
        );
        assert_eq!((join.told.number, join.told.tuples), (0, 3));
    }
    for count in [0, 17, 18, 255, 256, 257, 272, 65_536, 65_537] {
        let files = laid(&vec![b"a".to_vec(); count]);
        asked(
            &format!("{count} files"),
            &files,
            Some((5, 0, 0)),
            &mut tally,
        );
    }
    for (rows, refusal) in [(4_096, None), (4_097, Some((8, 2, 0)))] {
        let files = laid(&[column(0..9), column((0..rows).rev())]);
        let join = asked(&format!("{rows} rows"), &files, refusal, &mut tally);
        assert_eq!(join.told.tuples, if refusal.is_none() { 9 } else { 0 });
    }
    // So many bytes of a file, and as many records as it can have.
    let mut full = column((0..19_999).map(|i| i % 10));
    assert_eq!(full.len(), 60_000);
    for (more, refusal) in [
        (0, (16, 3, 1)),
        (1, (17, 2, 0)),
        (5_537, (17, 2, 0)),
        (1_000_000, (17, 2, 0)),
    ] {
        let longer = [&full[..], &vec![b'7'; more]].concat();
        let files = laid(&[full.clone(), longer, b"x".to_vec()]);
        asked(
            &format!("{more} bytes more"),
            &files,
            Some(refusal),
            &mut tally,
        );
    }
    full[59_997] = b'x';
    let files = laid(&[column([1]), full]);
    asked("19,999 records", &files, Some((19, 2, 20_000)), &mut tally);
    tally.finish("limits", &[0, 1, 5, 8, 13, 14, 16, 17, 18, 19], 3);
}

/// Many boxes: rooms for as many as there may be, in which some joins are complete and a larger one stops.
#[test]
fn many_boxes() {
    let mut tally = Tally::new();
    let mut random = Random::new(27_000_000);
    let rooms = Rooms {
        listing: MOST_ATTRIBUTES * MOST_BOXES,
        store: RECORD * MOST_BOXES,
        out: MOST_ATTRIBUTES * 6 * MOST_BOXES,
    };
    let scratch = 12 * MOST_BOXES + 4;
    // Of bytes that 16 bits don't count, and of fewer.
    let column =
        |attribute| Table::with_rows(vec![attribute], (10_000..10_128).map(|v| vec![v]).collect());
    let product = Question {
        widths: vec![14; 2],
        tables: vec![column(0), column(1)],
    };
    for (question, tuples) in [(call_log(1, 1_120, 128, 16, 3), 3_360), (product, 16_384)] {
        let files = files_of(&mut random, &question);
        let call = Call::by_tree("many tuples", &files);
        let join = call.compare(&mut random, rooms, scratch, 6);
        tally.count(join.told.number);
        assert_eq!((join.told.number, join.told.tuples), (0, tuples));
        assert_eq!(join.out, lines(&files.names, &join_by_rows(&question)));
        let short = Rooms {
            out: join.told.bytes as usize - 1,
            ..rooms
        };
        tally.count(call.compare(&mut random, short, scratch, 6).told.number);
    }
    let (words, _) = largest_store();
    let question = boxjoin::plain::read(&words).unwrap();
    let files = files_of(&mut random, &question);
    let longer = Rooms {
        store: rooms.store + 300,
        ..rooms
    };
    for rooms in [rooms, longer] {
        let call = Call::by_tree("the largest store", &files);
        let join = call.compare(&mut random, rooms, scratch, 6);
        assert_eq!((join.told.number, join.told.boxes), (14, MOST_BOXES as u32));
        tally.count(join.told.number);
    }
    tally.finish("many boxes", &[0, 13, 14], 1);
}

/// A table may be there more than once, and tables may have nothing in common.
#[test]
fn joins_of_some_shapes() {
    let mut tally = Tally::new();
    let mut random = Random::new(28_000_000);
    let table = |attributes: &[usize], rows: &[&[u16]]| {
        let rows = rows.iter().map(|row| row.to_vec()).collect();
        Table::with_rows(attributes.to_vec(), rows)
    };
    let questions = [
        (2, vec![table(&[0, 1], &[&[1, 2]]); 2]),
        (
            2,
            vec![table(&[0], &[&[1], &[9]]), table(&[1], &[&[2], &[7]])],
        ),
        (2, vec![table(&[0], &[&[1]]), table(&[1], &[])]),
        (3, vec![table(&[0, 2], &[&[1, 5]]), table(&[1], &[&[300]])]),
        (
            12,
            vec![table(&[0, 1, 2, 3, 4, 5, 6, 7, 8, 9, 10, 11], &[&[1; 12]])],
        ),
        (12, (0..12).map(|a| table(&[a], &[&[3]])).collect()),
        (
            12,
            (1..12)
                .map(|a| table(&[a - 1, a], &[&[3, 3], &[3, 4]]))
                .collect(),
        ),
    ];
    for (n, tables) in questions {
        let widths = vec![16; n];
        let question = Question { widths, tables };
        let files = files_of(&mut random, &question);
        let what = format!("{question:?}");
        let call = Call::new(&what, &files);
        let join = call.compare_rooms(&mut random, AMPLE, &mut tally);
        assert!(is_join(&what, &files.names, &question, &join), "{what}");
    }
    tally.finish("some shapes", &[0, 13, 14], 5);
}
