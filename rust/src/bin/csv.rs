//! `csv NAMES FILE...`: joins comma-separated files by the library's `join_csv` and prints the join as such a
//! file, whole or not at all. How it ended stands on standard error and in the exit status. `./boxjoin csv`
//! builds this program and runs it; what the numbers mean stands in docs/NUMBERS.md.

use boxjoin::{join_csv_into, MAX_ATTRIBUTES, RECORD_WORDS};
use std::env::args_os;
use std::ffi::{OsStr, OsString};
use std::fs::File;
use std::io::{self, Read, Write};
use std::os::fd::AsFd;
use std::os::unix::ffi::{OsStrExt, OsStringExt};
use std::process::ExitCode;

/// What the library takes; one more of each is enough to have it refused.
const MOST_FILES: usize = 16;
const MOST_BYTES: u64 = 60_000;

/// The room: so many boxes, with their words in the store and in the scratch, and one tuple more, so that a
/// run lacks a place for a box before it lacks one for a tuple.
const BOXES: usize = 65_536;
const TUPLES: usize = BOXES + 1;
const STORE_WORDS: usize = RECORD_WORDS * BOXES;
const SCRATCH_WORDS: usize = 12 * BOXES + 4;

const COMPLETE: u8 = 0;
const STOPPED: u8 = 1;
const REFUSED: u8 = 2;
const TROUBLE: u8 = 3;

fn main() -> ExitCode {
    let mut given = args_os().skip(1);
    let Some(names) = given.next() else {
        return trouble(&[b"give the names, and a file for each table"]);
    };
    let files: Vec<OsString> = given.collect();
    if files.iter().filter(|name| is_input(name)).count() > 1 {
        return trouble(&[b"standard input can be given once"]);
    }
    let (mut bytes, mut ends) = (Vec::new(), Vec::new());
    for name in files.iter().take(MOST_FILES + 1) {
        if let Err(error) = read(name, &mut bytes) {
            let why = error.to_string();
            return trouble(&[name.as_bytes(), b" cannot be read: ", why.as_bytes()]);
        }
        ends.push(bytes.len() as u32);
    }
    join(&swapped(names.into_vec()), &files, &bytes, &ends)
}

/// Joins the files, whose bytes stand one after the other, and tells how it ended.
fn join(names: &[u8], files: &[OsString], bytes: &[u8], ends: &[u32]) -> ExitCode {
    let spaces = names.iter().filter(|byte| **byte == b' ').count();
    let n = MAX_ATTRIBUTES.min(spaces + 1);
    // A field has at most five digits and a comma behind it, a record CR and LF in place of its last comma.
    let longest = names.len() + 2 + TUPLES * (6 * n + 1);
    let mut out = vec![0; longest];
    let answer = join_csv_into(
        names,
        bytes,
        ends,
        &mut vec![0; n * TUPLES],
        &mut vec![0; STORE_WORDS],
        &mut vec![0; SCRATCH_WORDS],
        &mut out,
    );
    let counts = format!("{} {} {}", answer.tuples, answer.boxes, answer.resolutions);
    let number = answer.number;
    let meaning = meaning(number).as_bytes();
    match number {
        0 => {
            if let Err(error) = print(&out[..answer.bytes as usize]) {
                let why = error.to_string();
                return trouble(&[b"the listing cannot be written: ", why.as_bytes()]);
            }
            say(&[format!("complete {counts}").as_bytes()]);
            ExitCode::from(COMPLETE)
        }
        13 | 14 => {
            say(&[format!("stopped {number} {counts}").as_bytes()]);
            say(&[meaning]);
            ExitCode::from(STOPPED)
        }
        _ => {
            say(&[format!("refused {number}").as_bytes()]);
            say(&[&place(files, answer.file, answer.record), meaning]);
            ExitCode::from(REFUSED)
        }
    }
}

/// The names with a space between two, as the library takes them. A space that was given becomes a comma,
/// which is in no name.
fn swapped(mut names: Vec<u8>) -> Vec<u8> {
    for byte in &mut names {
        *byte = match *byte {
            b',' => b' ',
            b' ' => b',',
            other => other,
        };
    }
    names
}

fn is_input(name: &OsStr) -> bool {
    name == "-"
}

/// Puts a file's bytes behind those that are there.
fn read(name: &OsStr, bytes: &mut Vec<u8>) -> io::Result<usize> {
    if is_input(name) {
        io::stdin().take(MOST_BYTES + 1).read_to_end(bytes)
    } else {
        File::open(name)?.take(MOST_BYTES + 1).read_to_end(bytes)
    }
}

/// Puts the listing on standard output. A file without room for all of it gets its old length back: half a
/// listing would show no hole.
fn print(listing: &[u8]) -> io::Result<()> {
    let mut to = File::from(io::stdout().as_fd().try_clone_to_owned()?);
    let before = to.metadata()?.len();
    let written = to.write_all(listing);
    if written.is_err() {
        let _ = to.set_len(before);
    }
    written
}

/// The file and the record that a refusal is of, as they stand before its meaning: nothing where there is
/// none.
fn place(files: &[OsString], file: u32, record: u32) -> Vec<u8> {
    let Some(name) = (file as usize).checked_sub(1).and_then(|at| files.get(at)) else {
        return Vec::new();
    };
    let mut place = name.as_bytes().to_vec();
    if record > 0 {
        place.extend(format!(", record {record}").as_bytes());
    }
    place.extend(b": ");
    place
}

/// The words of the table for this program: its rows begin with `csv` and the number.
fn meaning(number: u8) -> &'static str {
    let first = format!("| csv {number} | ");
    include_str!("../../../docs/NUMBERS.md")
        .lines()
        .find_map(|line| line.strip_prefix(&first)?.strip_suffix(" |"))
        .unwrap_or("")
}

/// A line on standard error. If it cannot be written, there is nobody to tell.
fn say(parts: &[&[u8]]) {
    let mut line = parts.concat();
    line.push(b'\n');
    let _ = io::stderr().write_all(&line);
}

fn trouble(parts: &[&[u8]]) -> ExitCode {
    say(&[b"boxjoin: ", &parts.concat()]);
    ExitCode::from(TROUBLE)
}

/// Every number that the library can answer has its meaning.
#[test]
fn meanings() {
    for number in [1, 3, 5, 8, 12, 13, 14, 15, 16, 17, 18, 19] {
        assert_ne!(meaning(number), "", "{number}");
    }
    assert!(meaning(19).starts_with("a field is not a number from 0 to 65,535"));
}
