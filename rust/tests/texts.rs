//! The listing program's print: the library against the plain model, byte for byte.

mod common;

use boxjoin::plain;
use boxjoin::random::{damaged_text, names, open_text, text_of, text_question};
use boxjoin::random::{OpenText, Random};
use common::{outcome, Buffer, Opens, Tally};

/// Lists a text with out buffers of many lengths, and says the outcome.
fn list(what: &str, random: &mut Random, text: &[u8]) -> u8 {
    let printed = boxjoin::text::print(text);
    let count = printed.len();
    let lengths = [0, 1, count / 2, count + 1, count + 2, 2 * count + 50];
    let some = [count - 1, count, random.pick(&lengths)];
    for length in some {
        let mut bytes = Buffer::of(random, text, |r| r as u8);
        let mut out = Buffer::new(random, length, |r| r as u8);
        let expected_bytes = bytes.expected(&[]);
        let written: &[u8] = if count <= length { &printed } else { &[] };
        let expected = out.expected(written);
        let answer = boxjoin::list_text(bytes.lent(), out.lent());
        let mut trouble = Vec::new();
        if answer != count {
            trouble.push(format!("the count is {answer}, not {count}"));
        }
        trouble.extend(out.differs(&expected));
        trouble.extend(bytes.differs(&expected_bytes));
        if !trouble.is_empty() {
            panic!(
                "{what}: {}\nout of {length} bytes\nshould print {:?}\ntext {:?}",
                trouble.join("; "),
                String::from_utf8_lossy(&printed),
                String::from_utf8_lossy(&text[..text.len().min(3_000)])
            );
        }
    }
    outcome(&printed)
}

#[test]
fn random_texts() {
    let mut tally = Tally::new();
    let mut opens = Opens::new();
    let mut named_open = 0;
    for seed in 0..2_000 {
        let mut random = Random::new(3_000_000 + seed);
        let question = text_question(&mut random);
        let names = names(&mut random, question.widths.len());
        let text = text_of(&names, &question);
        let what = format!("text of seed {seed}");
        let read = boxjoin::text::read(&text);
        named_open += usize::from(names.contains(&"open".to_string()));
        assert!(
            read == Ok((names, question.words())),
            "the plain model on {what}"
        );
        tally.count(list(&what, &mut random, &text));
        opens.count(&question);
    }
    tally.finish("random texts", &[0, 14], 20);
    opens.finish("random texts", 100, 40);
    println!("random texts: {named_open} with an attribute that has the name open");
    assert!(named_open >= 50);
}

/// Each way in which the line `open` is right or wrong.
#[test]
fn open_texts() {
    let mut tally = Tally::new();
    for (kind, &case) in OpenText::ALL.iter().enumerate() {
        let mut accepted = 0;
        for seed in 0..60 {
            let mut random = Random::new(51_000_000 + 1_000 * kind as u64 + seed);
            let text = open_text(&mut random, case);
            let what = format!("{case:?} of seed {seed}");
            let number = list(&what, &mut random, &text);
            // What is accepted is complete, or stopped for room.
            let is_due = match case.number() {
                0 => number == 0 || number == 14,
                due => number == due,
            };
            let shown = String::from_utf8_lossy(&text);
            assert!(is_due, "the plain model says {number} of {what}: {shown:?}");
            accepted += usize::from(number == 0);
            tally.count(number);
        }
        assert!(case.number() != 0 || accepted >= 40, "{case:?}: {accepted}");
    }
    tally.finish("texts with open tables", &[0, 12, 15, 16], 100);
}

#[test]
fn damaged_texts() {
    let mut tally = Tally::new();
    let mut opens = Opens::new();
    for seed in 0..12_000 {
        let mut random = Random::new(4_000_000 + seed);
        let text = damaged_text(&mut random);
        let words = boxjoin::text::read(&text).map(|(_, words)| words);
        if let Ok(question) = words.and_then(|words| plain::read(&words)) {
            opens.count(&question);
        }
        tally.count(list(
            &format!("damaged text of seed {seed}"),
            &mut random,
            &text,
        ));
    }
    // 1, 2, 3, 6 and 11 cannot come from a text, whose reader writes as many words as it says. Nor can 28, since a text
    // has no range tables. Nor can 13: 1,000 boxes are at most 1,001 tuples of at most twelve values, and the listing has
    // 30,000 words.
    tally.finish(
        "damaged texts",
        &[0, 4, 5, 7, 8, 9, 10, 12, 14, 15, 16, 17],
        20,
    );
    for number in [1, 2, 3, 6, 11, 13, 28] {
        assert_eq!(tally.0[number], 0, "{number} from a text");
    }
    opens.finish("damaged texts that are accepted", 50, 30);
}

/// Texts that the paper's sentences name, each with its number.
#[test]
fn named_texts() {
    let mut tally = Tally::new();
    let twelve = "abcdefghijkl";
    let (top, ones) = ("a b c d e f g h i j k l", "1 1 1 1 1 1 1 1 1 1 1 1");
    let tables = |count: usize| format!("a\n1\n{}", "\na\n0\n".repeat(count));
    let rows = |count: usize| format!("a\n16\n\na\n{}", numbers(count));
    let with_open = |count: usize| tables(1) + &"\na\nopen\n".repeat(count);
    // Just so many bytes: the last rows make up the length.
    let bytes = |count: usize| {
        let mut text = "a b\n16 16\n\nb\n\na\n".to_string();
        while text.len() + 4 <= count {
            text += "1\n";
        }
        text += &"1".repeat(count - text.len() - 1);
        text + "\n"
    };
    let cases: Vec<(String, u8)> = vec![
        ("a\n1\n\na\n0\n".into(), 0),
        ("a\n1\n\na\n".into(), 0),
        (format!("{twelve}\n1\n\n{twelve}\n0\n"), 0),
        (format!("{top}\n{ones}\n\n{top}\n"), 0),
        (format!("{top}\n{ones}\n\n{top}\n{ones}\n"), 0),
        (tables(16), 0),
        (rows(4_096), 14),
        // Open tables.
        ("a\n1\n\na\n0\n\na\nopen\n".into(), 0),
        ("a\n1\n\na\nopen\n\na\n0\n".into(), 0),
        ("a\n1\n\na\nopen\n\na\n".into(), 0),
        ("a b\n1 1\n\na b\nopen\n\na\n0\n\nb\n1\n".into(), 0),
        (with_open(15), 0),
        ("open\n1\n\nopen\n0\n".into(), 0),
        ("open\n1\n\nopen\n".into(), 0),
        ("open\n1\n\nopen\nopen\n\nopen\n1\n".into(), 0),
        ("open\n1\n\nopen\n1\n\nopen\nopen\n".into(), 0),
        ("open a\n1 1\n\nopen a\n1 1\n\na\nopen\n".into(), 0),
        ("open\n1\n\nopen\nopen\n".into(), 12),
        ("a\n1\n\na\nopen\n".into(), 12),
        ("a\n1\n\na\nopen\n\na\nopen\n".into(), 12),
        ("a b\n1 1\n\na b\nopen\n\na\n0\n".into(), 12),
        ("a b\n1 1\n\nb a\nopen\n\na b\n0 0\n".into(), 7),
        ("a\n0\n\na\nopen\n".into(), 4),
        ("a\n1\n\na\nopen".into(), 15),
        ("a\n1\n\na\n0\n\na\nopen".into(), 15),
        ("a\n1\n\na\nopen\nopen\n\na\n0\n".into(), 15),
        ("a\n1\n\na\nopen\n0\n".into(), 15),
        ("a\n1\n\na\n0\nopen\n".into(), 15),
        ("a\n1\n\na\nopen \n".into(), 15),
        ("a\n1\n\na\n open\n".into(), 15),
        ("a\n1\n\na\nopen open\n".into(), 15),
        ("a b\n1 1\n\na b\nopen open\n".into(), 15),
        ("a\n1\n\na\nopen 1\n".into(), 15),
        ("a\n1\n\na\nOpen\n".into(), 15),
        ("a\n1\n\na\nopen\r\n".into(), 15),
        ("a\n1\n\na\nopens\n".into(), 15),
        ("a\n1\n\na\nope\n".into(), 15),
        ("a\n1\n\na\nopen\n\n".into(), 15),
        ("a\n1\n\na\nopen\n \na\n0\n".into(), 15),
        ("a\n1\nopen\n".into(), 15),
        ("a\nopen\n\na\n0\n".into(), 15),
        ("open\na\n1\n\na\n0\n".into(), 15),
        ("open\nopen\n\nopen\n0\n".into(), 15),
        (with_open(16), 15),
        ("a\n1\n\nopen\n".into(), 16),
        ("a\n1\n\na\n\nopen\n".into(), 16),
        ("a\n1\n\nb\nopen\n".into(), 16),
        ("a b\n1 1\n\na a\nopen\n".into(), 16),
        ("a\n1\n\na a\nopen\n".into(), 15),
        ("a\n1\n\na\nopen\n\nb\nopen open\n".into(), 16),
        ("open open\n1 1\n".into(), 16),
        // The question's own numbers.
        ("a\n0\n\na\n0\n".into(), 4),
        ("a\n17\n\na\n0\n".into(), 4),
        ("a\n65535\n".into(), 4),
        ("a\n1\n".into(), 5),
        ("a b\n1 1\n\nb a\n0 0\n".into(), 7),
        (rows(4_097), 8),
        ("a\n1\n\na\n2\n".into(), 9),
        ("a\n1\n\na\n1\n0\n".into(), 10),
        ("a\n1\n\na\n0\n0\n".into(), 10),
        ("a b\n1 1\n\na\n0\n".into(), 12),
        // A line without its form.
        ("".into(), 15),
        ("\n".into(), 15),
        ("a".into(), 15),
        ("a\n".into(), 15),
        ("a\n1".into(), 15),
        ("a\n\n".into(), 15),
        ("a \n1\n".into(), 15),
        (" a\n1\n".into(), 15),
        ("a  b\n1 1\n".into(), 15),
        ("A\n1\n".into(), 15),
        ("a1\n1\n".into(), 15),
        (format!("{twelve}m\n1\n"), 15),
        (format!("{top} m\n{ones} 1\n"), 15),
        (format!("{top} a\n{ones} 1\n"), 15),
        (format!("{top}\n{ones} 1\n"), 15),
        (format!("{top}\n{ones}\n\n{top} l\n"), 15),
        ("a\n1 1\n".into(), 15),
        ("a b\n1\n".into(), 15),
        ("a\n01\n".into(), 15),
        ("a\n00\n".into(), 15),
        ("a\n65536\n".into(), 15),
        ("a\n100000\n".into(), 15),
        ("a\n4294967297\n".into(), 15),
        ("a\n-1\n".into(), 15),
        ("a\n1\na\n0\n".into(), 15),
        ("a\n1\n \na\n0\n".into(), 15),
        ("a\n1\n\n".into(), 15),
        ("a\n1\n\n\n".into(), 15),
        ("a\n1\n\na\n0".into(), 15),
        ("a\n1\n\na\n0\n\n".into(), 15),
        ("a\n1\n\na\n0 1\n".into(), 15),
        ("a\n1\n\na\n0 \n".into(), 15),
        ("a\n1\n\na\n0\r\n".into(), 15),
        ("a\n1\n\na a\n0 0\n".into(), 15),
        ("a\n1\n\n0\n".into(), 15),
        (tables(17), 15),
        (tables(16) + "\n", 15),
        (tables(16) + "\nb\n", 15),
        // Names.
        ("a a\n1 1\n".into(), 16),
        ("a a\n1 x\n".into(), 16),
        ("a a".into(), 15),
        ("a b\n1 1\n\na a\n0 0\n".into(), 16),
        ("a b\n1 1\n\nb c\n0 0\n".into(), 16),
        ("a b\n1 1\n\nb c\nx\n".into(), 16),
        ("a b\n1 1\n\na\nx\n\nc\n".into(), 15),
        ("ab\n1\n\na\n0\n".into(), 16),
        ("a\n1\n\nab\n0\n".into(), 16),
        (format!("{twelve}\n1\n\nabcdefghijkm\n"), 16),
        // Form and names of every line come before the question's numbers.
        ("a\n17\n\na\n0 0\n".into(), 15),
        ("a\n17\n\nb\n".into(), 16),
        // Too many bytes come before all.
        (bytes(59_999), 8),
        (bytes(60_000), 8),
        (bytes(60_001), 17),
        ("\n".repeat(60_000), 15),
        ("\n".repeat(60_001), 17),
    ];
    for (text, number) in &cases {
        let mut random = Random::new(*number as u64);
        let start: String = text.chars().take(60).collect();
        let printed = boxjoin::text::print(text.as_bytes());
        assert_eq!(outcome(&printed), *number, "the plain model on {start:?}");
        tally.count(list(&format!("{start:?}"), &mut random, text.as_bytes()));
    }
    tally.finish(
        "named texts",
        &[0, 4, 5, 7, 8, 9, 10, 12, 14, 15, 16, 17],
        1,
    );
}

fn numbers(count: usize) -> String {
    (0..count).map(|v| format!("{v}\n")).collect()
}
