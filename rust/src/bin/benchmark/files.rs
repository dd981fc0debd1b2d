//! How long the longest comma-separated files take to be imported.

use crate::watch::{shown, Watch, ROUNDS};
use boxjoin::csv::{import, MOST_BYTES, MOST_ROWS};
use boxjoin::random::Random;
use boxjoin::{Csv, MAX_ATTRIBUTES};

struct File {
    name: String,
    names: &'static str,
    bytes: Vec<u8>,
    records: usize,
}

/// A file with these names as its header and as many of the records as it has bytes for.
fn file(name: &str, names: &'static str, records: &[String]) -> File {
    let mut bytes = names.replace(' ', ",") + "\r\n";
    let mut taken = 0;
    for record in records {
        if bytes.len() + record.len() + 2 > MOST_BYTES {
            break;
        }
        bytes += record;
        bytes += "\r\n";
        taken += 1;
    }
    File {
        name: name.to_string(),
        names,
        bytes: bytes.into_bytes(),
        records: taken,
    }
}

/// The same records as they are, backwards and shuffled. Backwards each row stands before all that are there
/// already, so that whoever keeps them sorted in one place has to move them all.
fn in_three_orders(name: &str, names: &'static str, mut records: Vec<String>) -> [File; 3] {
    let ascending = file(&format!("{name}, ascending"), names, &records);
    records.truncate(ascending.records);
    records.reverse();
    let descending = file(&format!("{name}, descending"), names, &records);
    Random::new(1).shuffle(&mut records);
    let shuffled = file(&format!("{name}, shuffled"), names, &records);
    [ascending, descending, shuffled]
}

fn files() -> Vec<File> {
    // 9,999 records of six bytes, and so many different values among them.
    let values = |different: usize| (0..9_999).map(move |i| 1_000 + i * different / 9_999);
    let column = |different: usize| values(different).map(|v| v.to_string()).collect();
    let mut files = Vec::new();
    files.extend(in_three_orders(
        "one column, 4,096 values",
        "a",
        column(MOST_ROWS),
    ));
    let [_, descending, _] = in_three_orders("one column, 9,000 values", "a", column(9_000));
    files.push(descending);
    let quoted: Vec<String> = (0..MOST_ROWS)
        .chain(0..MOST_ROWS)
        .rev()
        .map(|v| format!("\"{v}\""))
        .collect();
    files.push(file("one column in quotes, descending", "a", &quoted));
    let digits: Vec<String> = (0..19_999).map(|i| (i * 7 % 10).to_string()).collect();
    files.push(file("one column of digits", "a", &digits));
    // Twelve digits a record, of numbers that are ascending.
    let twelve = (0..4_000u64).map(|i| {
        let digits = format!("{:012}", i * 249_999_999);
        let digits: Vec<&str> = (0..12).map(|at| &digits[at..at + 1]).collect();
        digits.join(",")
    });
    files.extend(in_three_orders(
        "twelve columns of digits",
        "a b c d e f g h i j k l",
        twelve.collect(),
    ));
    files
}

pub fn measure_files() {
    println!(
        "\
Times of one import of a comma-separated file that has about as many bytes as it may have: processor time in
milliseconds on one core, batches of at least half a second of each in turn, the best mean of {ROUNDS} batches. *ours*
is one call of the proved library, *plain* the same in plain Rust, which keeps each field in memory of its own and the
rows in a sorted set. Checked on the way: both answer the same number and the same words. *rows* are the different
ones among the records, or the number of the refusal.
"
    );
    println!(
        "| file | bytes | records | rows | ours ms | plain ms | ours/plain | ns/byte (ours) |"
    );
    println!("|---|--:|--:|--:|--:|--:|--:|--:|");
    for file in files() {
        measure(&file);
    }
}

/// Measures one file, and prints its line.
fn measure(file: &File) {
    let names = file.names.as_bytes();
    let mut words = vec![0; 2 + MAX_ATTRIBUTES + MAX_ATTRIBUTES * MOST_ROWS];
    let (mut told, mut made) = (None, None);
    let [mut ours, mut plain] = [(); 2].map(|_| Watch::default());
    for round in 1..=ROUNDS {
        let what = |who: &str| format!("{}: round {round}, {who}", file.name);
        ours.batch(&what("ours"), || {
            told = Some(boxjoin::import_csv(names, &file.bytes, &mut words));
        });
        plain.batch(&what("plain"), || made = Some(import(names, &file.bytes)));
    }
    let rows = match (told.unwrap(), made.unwrap()) {
        (Csv { number: 0, count }, Ok(made)) => {
            assert!(words[..count as usize] == made, "the same words");
            made[1 + made[0] as usize].to_string()
        }
        (Csv { number, .. }, made) => {
            assert_eq!(made, Err(number), "the same number");
            format!("refused {number}")
        }
    };
    let (ours, plain) = (ours.0.unwrap(), plain.0.unwrap());
    let bytes = file.bytes.len();
    let mut line = format!("| {} | {bytes} | {} | {rows} |", file.name, file.records);
    for number in [ours, plain, ours / plain, ours * 1e6 / bytes as f64] {
        line += &format!(" {} |", shown(Some(number)));
    }
    println!("{line}");
}
