//! Comma-separated files by name: those that the sentences on the form name, all short ones, and those at the
//! limits.

mod common;

use boxjoin::random::{names, names_line, Random};
use common::csv_calls::{export, import};
use common::{longest_names, Tally};

/// Names, a file, and its words or its number.
type Named = (&'static str, &'static str, Result<&'static [u16], u8>);

/// Files that the sentences on the form name, each with its number, and with its words if it is taken.
#[test]
fn named_imports() {
    let mut tally = Tally::new();
    let cases: &[Named] = &[
        // Taken.
        ("a", "a\r\n1\r\n", Ok(&[1, 0, 1, 1])),
        ("a", "a\r\n1", Ok(&[1, 0, 1, 1])),
        ("a", "a", Ok(&[1, 0, 0])),
        ("a", "a\r\n", Ok(&[1, 0, 0])),
        ("a", "\"a\"", Ok(&[1, 0, 0])),
        ("a", "\"a\"\r\n", Ok(&[1, 0, 0])),
        ("a", "a\r\n\"12\"\r\n", Ok(&[1, 0, 1, 12])),
        ("a", "a\r\n\"12\"", Ok(&[1, 0, 1, 12])),
        ("a", "a\r\n0\r\n65535\r\n", Ok(&[1, 0, 2, 0, 65_535])),
        ("a", "a\r\n3\r\n1\r\n2\r\n1", Ok(&[1, 0, 3, 1, 2, 3])),
        ("a b c", "b\r\n7\r\n", Ok(&[1, 1, 1, 7])),
        ("open", "open", Ok(&[1, 0, 0])),
        ("a open", "open\r\n7\r\n", Ok(&[1, 1, 1, 7])),
        ("a b c", "c,a\r\n7,8\r\n", Ok(&[2, 0, 2, 1, 8, 7])),
        ("b a", "a,b\r\n1,2", Ok(&[2, 0, 1, 1, 2, 1])),
        ("b a", "b,a\r\n1,2", Ok(&[2, 0, 1, 1, 1, 2])),
        (
            "a b",
            "b,a\r\n1,2\r\n2,1\r\n1,1\r\n",
            Ok(&[2, 0, 1, 3, 1, 1, 1, 2, 2, 1]),
        ),
        (
            "a b",
            "\"b\",a\r\n2,\"1\"\r\n\"2\",\"1\"",
            Ok(&[2, 0, 1, 1, 1, 2]),
        ),
        (
            "h g f e d c b a",
            "a,b,c,d,e,f,g,h\r\n1,2,3,4,5,6,7,8",
            Ok(&[8, 0, 1, 2, 3, 4, 5, 6, 7, 1, 8, 7, 6, 5, 4, 3, 2, 1]),
        ),
        (
            "l k j i h g f e d c b a",
            "a,b,c,d,e,f,g,h,i,j,k,l\r\n1,2,3,4,5,6,7,8,9,10,11,12",
            Ok(&[
                12, 0, 1, 2, 3, 4, 5, 6, 7, 8, 9, 10, 11, 1, 12, 11, 10, 9, 8, 7, 6, 5, 4, 3, 2, 1,
            ]),
        ),
        (
            "a b c d e f g h i j k l",
            "l,a\r\n7,8",
            Ok(&[2, 0, 11, 1, 8, 7]),
        ),
        ("abcdefghijkl a", "abcdefghijkl", Ok(&[1, 0, 0])),
        // The line of names comes first.
        ("", "a\r\n1\r\n", Err(15)),
        (" ", "a", Err(15)),
        (" a", "a", Err(15)),
        ("a ", "a", Err(15)),
        ("a  b", "a", Err(15)),
        ("a\n", "a", Err(15)),
        ("a\r\n", "a", Err(15)),
        ("a,b", "a", Err(15)),
        ("A", "A", Err(15)),
        ("a1", "a1", Err(15)),
        ("`", "`", Err(15)),
        ("{", "{", Err(15)),
        ("abcdefghijklm", "abcdefghijklm", Err(15)),
        ("a b c d e f g h i j k l m", "a", Err(15)),
        ("a b c d e f g h i j k l a", "a", Err(15)),
        ("a a b1", "a", Err(15)),
        ("a a", "a", Err(16)),
        ("a b a", "\n", Err(16)),
        // The header.
        ("a", "", Err(16)),
        ("a", "\r\n", Err(16)),
        ("a", "\r\na\r\n1\r\n", Err(16)),
        ("a", "\"\"", Err(16)),
        ("a", "b\r\n1", Err(16)),
        ("a", "a,\r\n1", Err(16)),
        ("a", ",a\r\n1", Err(16)),
        ("a", ",", Err(16)),
        ("a", "a,a\r\n1,1", Err(16)),
        ("a b", "a,b,a\r\n", Err(16)),
        ("a b", "a b\r\n1 2\r\n", Err(16)),
        ("a", "a \r\n1", Err(16)),
        ("a", " a\r\n1", Err(16)),
        ("a", "A\r\n1", Err(16)),
        ("ab", "a\r\n1", Err(16)),
        ("a", "ab\r\n1", Err(16)),
        ("shaft", "\"sh\"\"aft\"\r\n1", Err(16)),
        ("a b", "\"a,b\"\r\n1", Err(16)),
        ("a", "\"a\r\n\"\r\n1", Err(16)),
        ("a", "1\r\n2\r\n", Err(16)),
        (
            "a b c d e f g h i j k l",
            "a,b,c,d,e,f,g,h,i,j,k,l,a",
            Err(16),
        ),
        (
            "a b c d e f g h i j k l",
            "a,b,c,d,e,f,g,h,i,j,k,l,m",
            Err(16),
        ),
        // The form of the header comes before its names.
        ("a", "\n", Err(18)),
        ("a", "\r", Err(18)),
        ("a", "a\n1\n", Err(18)),
        ("a", "a\r1\r", Err(18)),
        ("a", "b\n1\n", Err(18)),
        ("a", "\"", Err(18)),
        ("a", "\"a", Err(18)),
        ("a", "\"a\"\"", Err(18)),
        ("a", "\"a\" \r\n1", Err(18)),
        ("a", "\"a\"b", Err(18)),
        ("a", "a\"b\"", Err(18)),
        ("a", "a\"", Err(18)),
        ("a", "\"a\"\r", Err(18)),
        ("a", "\"a\"\n", Err(18)),
        ("a", "b,b,\t", Err(18)),
        ("a", "\u{e4}\r\n", Err(18)),
        ("a", "\"\u{e4}\"\r\n", Err(18)),
        ("a", "\"\t\"\r\n", Err(18)),
        ("a", "\"\u{7f}\"\r\n", Err(18)),
        ("a", "\u{feff}a\r\n1\r\n", Err(18)),
        // The form of a later record, and its width.
        ("a", "a\r\n1\n", Err(18)),
        ("a", "a\r\n1\r", Err(18)),
        ("a", "a\r\n1\r\r\n", Err(18)),
        ("a", "a\r\n1\r\n\n", Err(18)),
        ("a", "a\r\n\"1\r\n", Err(18)),
        ("a", "a\r\n1\"\r\n", Err(18)),
        ("a", "a\r\n1\"2\"\r\n", Err(18)),
        ("a", "a\r\n \"1\"\r\n", Err(18)),
        ("a", "a\r\n\"1\" \r\n", Err(18)),
        ("a", "a\r\n\"1\"2\r\n", Err(18)),
        ("a", "a\r\n\"1\"\"", Err(18)),
        ("a", "a\r\n1,\r\n", Err(18)),
        ("a", "a\r\n1,2\r\n", Err(18)),
        ("a", "a\r\n,\r\n", Err(18)),
        ("a b", "a,b\r\n1\r\n", Err(18)),
        ("a b", "a,b\r\n\r\n", Err(18)),
        ("a b", "a,b\r\n1,2\r\n\r\n", Err(18)),
        ("a b", "a,b\r\n1,2,3\r\n", Err(18)),
        ("a b", "a,b\r\n\"1,2\"\r\n", Err(18)),
        ("a", "a\r\n\0\r\n", Err(18)),
        // Its values.
        ("a", "a\r\n\r\n", Err(19)),
        ("a", "a\r\n1\r\n\r\n", Err(19)),
        ("a", "a\r\n\r\n1\r\n", Err(19)),
        ("a", "a\r\n\"\"", Err(19)),
        ("a", "a\r\n\"\"\r\n", Err(19)),
        ("a b", "a,b\r\n1,", Err(19)),
        ("a b", "a,b\r\n,1", Err(19)),
        ("a b", "a,b\r\n,", Err(19)),
        ("a", "a\r\n 1", Err(19)),
        ("a", "a\r\n1 ", Err(19)),
        ("a", "a\r\n\" 1\"", Err(19)),
        ("a", "a\r\n+1", Err(19)),
        ("a", "a\r\n-1", Err(19)),
        ("a", "a\r\n01", Err(19)),
        ("a", "a\r\n00", Err(19)),
        ("a", "a\r\n\"01\"", Err(19)),
        ("a", "a\r\nopen", Err(19)),
        ("a", "a\r\nopen\r\n", Err(19)),
        ("a", "a\r\n\"open\"\r\n", Err(19)),
        ("a b", "b,a\r\nopen,open\r\n", Err(19)),
        ("open", "open\r\nopen", Err(19)),
        ("a", "a\r\na", Err(19)),
        ("a", "a\r\n65536", Err(19)),
        ("a", "a\r\n\"65536\"", Err(19)),
        ("a", "a\r\n65546", Err(19)),
        ("a", "a\r\n66000", Err(19)),
        ("a", "a\r\n70000", Err(19)),
        ("a", "a\r\n100000", Err(19)),
        ("a", "a\r\n4294967297", Err(19)),
        ("a", "a\r\n18446744073709551617", Err(19)),
        ("a", "a\r\n\"1\r\n2\"\r\n", Err(19)),
        ("a", "a\r\n\"1,2\"\r\n", Err(19)),
        ("a", "a\r\n\"1\"\"2\"\r\n", Err(19)),
        ("a", "a\r\n\"\r\n\"\r\n", Err(19)),
        ("a", "a\r\n\"1\n\"\r\n", Err(19)),
        ("a", "a\r\n\"\r1\"\r\n", Err(19)),
        // A record is read whole before it is judged, and the first record that is refused decides.
        ("a b", "a,b\r\nopen,1\"", Err(18)),
        ("a b", "a,b\r\nopen", Err(18)),
        ("a b", "a,b\r\n1,2,open,\"", Err(18)),
        ("a b", "a,b\r\n1,open\r\n1\r\n", Err(19)),
        ("a b", "a,b\r\n1,open\r\n\"", Err(19)),
        ("a b", "a,b\r\n1\r\n1,open\r\n", Err(18)),
        ("a", "a\r\nopen\n", Err(18)),
        ("a", "a\r\nopen\r\n\n", Err(19)),
        ("a", "a\r\nopen\r\n\u{e4}", Err(19)),
        ("a", "b\r\nopen\r\n\u{e4}", Err(16)),
    ];
    for (names, file, expected) in cases {
        let what = format!("names {names:?}, file {file:?}");
        let call = import(names.as_bytes(), file.as_bytes());
        let said = call.made.as_deref().map_err(|&number| number);
        assert_eq!(said, *expected, "the plain model on {what}");
        let mut random = Random::new(file.len() as u64);
        call.compare_rooms(&what, &mut random, &mut tally);
    }
    tally.finish("named imports", &[0, 13, 15, 16, 18, 19], 8);
}

#[test]
fn named_exports() {
    let mut tally = Tally::new();
    let cases: &[(&str, &[u16], Result<&str, u8>)] = &[
        ("a", &[], Ok("a\r\n")),
        ("a", &[0], Ok("a\r\n0\r\n")),
        ("a b", &[], Ok("a,b\r\n")),
        ("b a", &[1, 2, 1, 2], Ok("b,a\r\n1,2\r\n1,2\r\n")),
        ("a", &[65_535, 10, 9], Ok("a\r\n65535\r\n10\r\n9\r\n")),
        (
            "a abcdefghijkl",
            &[100, 1_000],
            Ok("a,abcdefghijkl\r\n100,1000\r\n"),
        ),
        (
            "a b c d e f g h i j k l",
            &[10_000, 9_999, 1_000, 999, 101, 100, 99, 11, 10, 9, 1, 0],
            Ok("a,b,c,d,e,f,g,h,i,j,k,l\r\n10000,9999,1000,999,101,100,99,11,10,9,1,0\r\n"),
        ),
        ("", &[], Err(15)),
        ("a ", &[1, 2], Err(15)),
        ("a\n", &[1], Err(15)),
        ("A", &[1], Err(15)),
        ("a,b", &[1], Err(15)),
        ("abcdefghijklm", &[1], Err(15)),
        ("a b c d e f g h i j k l m", &[1; 13], Err(15)),
        ("a a", &[1, 2], Err(16)),
        ("a a", &[1], Err(16)),
        ("a b", &[1], Err(3)),
        ("a b", &[1, 2, 3], Err(3)),
        ("a b c d e f g h i j k l", &[1; 11], Err(3)),
        ("a b c d e f g h i j k l", &[1; 13], Err(3)),
    ];
    for (names, listing, expected) in cases {
        let what = format!("names {names:?}, listing {listing:?}");
        let call = export(names.as_bytes(), listing);
        let said = call.made.as_deref().map_err(|&number| number);
        let expected = expected.map(str::as_bytes);
        assert_eq!(said, expected, "the plain model on {what}");
        let mut random = Random::new(names.len() as u64);
        call.compare_rooms(&what, &mut random, &mut tally);
    }
    tally.finish("named exports", &[0, 3, 13, 15, 16], 4);
}

/// All short files of the bytes that matter, alone and behind a header; all files of two bytes behind one.
#[test]
fn short_files() {
    let mut tally = Tally::new();
    let mut random = Random::new(10_000_000);
    let headers: [(&[u8], &[u8]); 3] = [(b"a", b""), (b"a", b"a\r\n"), (b"b a", b"a,b\r\n")];
    for (names, header) in headers {
        for length in 0..=6u32 {
            for number in 0..6usize.pow(length) {
                let mut file = header.to_vec();
                let mut rest = number;
                for _ in 0..length {
                    file.push(b"a1,\"\r\n"[rest % 6]);
                    rest /= 6;
                }
                let call = import(names, &file);
                let room = call.made.as_ref().map_or(9, |made| made.len());
                let what = format!("{:?}", String::from_utf8_lossy(&file));
                tally.count(call.compare(&what, &mut random, room, 1));
            }
        }
    }
    for first in 0..=255 {
        for second in 0..=255 {
            for inside in [false, true] {
                let mut file = b"a\r\n1".to_vec();
                if inside {
                    file.splice(3.., *b"\"");
                }
                file.extend([first, second]);
                if inside {
                    file.push(b'"');
                }
                let call = import(b"a", &file);
                let what = format!("{file:?}");
                tally.count(call.compare(&what, &mut random, 9, 1));
            }
        }
    }
    tally.finish("short files", &[0, 16, 18, 19], 100);
}

/// A file of these records, which all have their end.
fn lines(records: impl IntoIterator<Item = String>) -> String {
    records.into_iter().map(|r| r + "\r\n").collect()
}

/// A file of one column whose values are these.
fn column(values: impl IntoIterator<Item = usize>) -> String {
    "a\r\n".to_string() + &lines(values.into_iter().map(|v| v.to_string()))
}

/// Files at the limits.
#[test]
fn boundaries() {
    let mut tally = Tally::new();
    let mut random = Random::new(11_000_000);
    let mut shuffled: Vec<usize> = (0..4_096).map(|v| 16 * v).collect();
    random.shuffle(&mut shuffled);
    let long = |bytes: usize, last: &str| {
        let records = (bytes - 3 - last.len()) / 3;
        let left = (bytes - 3 - last.len()) % 3;
        let more = ["", "0", "10"][left];
        column(std::iter::repeat_n(7, records - 1)) + more + "7\r\n" + last
    };
    // Records of 25 bytes each.
    let twelve = |rows: usize| {
        let row = |v: usize| {
            let digits = format!("{v:012}");
            let digits: Vec<&str> = (0..12).map(|i| &digits[i..i + 1]).collect();
            digits.join(",")
        };
        "a,b,c,d,e,f,g,h,i,j,k,l\r\n".to_string() + &lines((0..rows).rev().map(row))
    };
    let cases: Vec<(&str, String, u8, usize)> = vec![
        // So many bytes; with the number, and how many rows there are.
        ("a", long(59_999, ""), 0, 2),
        ("a", long(60_000, ""), 0, 1),
        ("a", long(60_000, "7"), 0, 2),
        ("a", long(60_001, ""), 17, 0),
        ("a", long(60_001, "7"), 17, 0),
        ("a", long(60_000, "x"), 19, 0),
        ("a", long(60_000, "\""), 18, 0),
        ("a", long(60_001, "\""), 17, 0),
        ("a", long(60_000, "\n"), 18, 0),
        ("a", long(60_000, "\r"), 18, 0),
        ("a", "\r\n".repeat(30_000), 16, 0),
        ("a", "\r\n".repeat(30_001), 17, 0),
        ("a", "\"".repeat(60_000), 16, 0),
        ("a", "\"".repeat(59_999), 18, 0),
        ("a", ",".repeat(60_000), 16, 0),
        ("a", "a".repeat(60_000), 16, 0),
        ("a", "\n".repeat(60_001), 17, 0),
        ("a a", "\n".repeat(60_001), 16, 0),
        ("", "\n".repeat(60_001), 15, 0),
        ("a", format!("a\r\n\"{}", "\"".repeat(59_996)), 18, 0),
        ("a", format!("a\r\n\"{}", "\"".repeat(59_995)), 19, 0),
        ("a", format!("a\r\n{}", "\r\n".repeat(29_998)), 19, 0),
        ("a", format!("a\r\n{}", "1".repeat(59_997)), 19, 0),
        ("a", format!("a\r\n{}", ",".repeat(59_997)), 18, 0),
        // As many records as there can be: 19,999.
        (
            "a",
            column((0..19_999).map(|i| i * 7 % 10))[..59_999].into(),
            18,
            0,
        ),
        ("a", column((0..19_999).map(|i| i * 7 % 10)), 0, 10),
        // So many different rows.
        ("a", column(0..4_095), 0, 4_095),
        ("a", column(0..4_096), 0, 4_096),
        ("a", column((0..4_096).chain(0..4_096)), 0, 4_096),
        ("a", column((0..4_096).rev()), 0, 4_096),
        ("a", column((0..4_096).rev().chain(0..4_096)), 0, 4_096),
        ("a", column(shuffled.iter().copied()), 0, 4_096),
        ("a", column(61_440..65_536), 0, 4_096),
        ("a", column(61_440..65_537), 19, 0),
        ("a", column(0..4_097), 8, 0),
        ("a", column((0..4_097).rev()), 8, 0),
        ("a", column((0..4_096).chain(0..4_097)), 8, 0),
        ("a", column(shuffled.iter().copied().chain([1])), 8, 0),
        ("a", column((1_000..10_000).rev()), 8, 0),
        // What is wrong after too many rows comes before them.
        ("a", column(0..4_097) + "x", 19, 0),
        ("a", column(0..4_097) + "1,1", 18, 0),
        ("a", column(0..4_097) + "\n", 18, 0),
        ("a", column(0..9_999) + "\"", 18, 0),
        ("l k j i h g f e d c b a", twelve(2_000), 0, 2_000),
        ("a b c d e f g h i j k l", twelve(2_399), 0, 2_399),
        ("a b c d e f g h i j k l", twelve(2_400), 17, 0),
    ];
    for (at, (names, file, number, rows)) in cases.iter().enumerate() {
        let start: String = file.chars().take(30).collect();
        let what = format!("boundary {at}, {} bytes: {start:?}", file.len());
        let call = import(names.as_bytes(), file.as_bytes());
        assert_eq!(call.number(), *number, "the plain model on {what}");
        if let Ok(words) = &call.made {
            let k = words[0] as usize;
            assert_eq!(words[1 + k] as usize, *rows, "the plain model on {what}");
            assert_eq!(words.len(), 2 + k + rows * k, "the plain model on {what}");
        }
        call.compare_rooms(&what, &mut random, &mut tally);
    }
    assert_eq!(cases[1].1.len(), 60_000);
    // Names of twelve letters each, twelve of them and one letter more.
    let longest = longest_names();
    let line = longest.join(" ");
    assert_eq!(line.len(), 155);
    for (line, number) in [
        (line.clone(), 0),
        (line.clone() + "l", 15),
        (line + " ", 15),
    ] {
        let file = longest[11].clone() + "\r\n7\r\n";
        let call = import(line.as_bytes(), file.as_bytes());
        assert_eq!(call.number(), number, "the plain model on {line:?}");
        call.compare_rooms("the longest names", &mut random, &mut tally);
        let call = export(line.as_bytes(), &[7; 24]);
        assert_eq!(call.number(), number, "the plain model on {line:?}");
        call.compare_rooms("the longest names", &mut random, &mut tally);
    }
    assert_eq!(cases[25].1.len(), 60_000);
    // Lengths that 16 bits don't hold.
    for names in ["a".repeat(65_537), "a ".repeat(32_768) + "a"] {
        let call = import(names.as_bytes(), b"a");
        assert_eq!(
            call.compare_rooms("long names", &mut random, &mut tally),
            15
        );
        let call = export(names.as_bytes(), &[7]);
        assert_eq!(
            call.compare_rooms("long names", &mut random, &mut tally),
            15
        );
    }
    let one = "a\r\n1".to_string();
    for bytes in [65_536, 65_537, 65_540, 131_076, 1_000_000] {
        let file = one.clone() + &"\r\n1".repeat(bytes)[..bytes - one.len()];
        let call = import(b"a", file.as_bytes());
        assert_eq!(call.compare_rooms("long file", &mut random, &mut tally), 17);
    }
    for room in [65_535, 65_536, 65_537, 65_540, 131_073] {
        let number = import(b"a", one.as_bytes()).compare("long place", &mut random, room, 1);
        assert_eq!(number, 0);
        tally.count(number);
    }
    tally.finish("boundaries", &[0, 8, 13, 15, 16, 17, 18, 19], 2);
}

/// A listing may have any number of tuples.
#[test]
fn long_listings() {
    let mut tally = Tally::new();
    let mut random = Random::new(13_000_000);
    for n in [1, 2, 3, 12] {
        let line = names_line(&names(&mut random, n));
        for length in [65_535, 65_536, 65_537, 65_538, 131_072, 200_000] {
            let listing: Vec<u16> = (0..length).map(|_| random.word()).collect();
            let number = if length % n == 0 { 0 } else { 3 };
            let what = format!("{length} words of {n} names");
            let call = export(&line, &listing);
            assert_eq!(call.number(), number, "the plain model on {what}");
            call.compare_rooms(&what, &mut random, &mut tally);
        }
    }
    tally.finish("long listings", &[0, 3, 13], 10);
}
