//! Comma-separated files with any damage or none: bytes that matter, in disorder.

use super::csv::sheet;
use super::{damaged_names, Cause, Random};

/// A line of names and bytes with any damage or none: fields, records and bytes are changed, cut or put in.
pub fn messy_csv(random: &mut Random) -> (Vec<u8>, Vec<u8>) {
    if random.one_in(4) {
        return mess(random);
    }
    let mut sheet = sheet(random, 0);
    match random.below(8) {
        0 => {
            let at = random.below(sheet.records.len());
            sheet.records.remove(at);
        }
        1 => {
            let at = random.below(sheet.records.len() + 1);
            sheet.records.insert(at, vec![Vec::new()]);
        }
        2 => {
            let to = random.below(sheet.records.len());
            sheet.records.swap(0, to);
        }
        3 => {
            for record in &mut sheet.records {
                record.pop();
            }
        }
        _ => {}
    }
    let (mut names, mut file) = sheet.bytes();
    for _ in 0..random.pick(&[0, 0, 1, 1, 2]) {
        mess_up(random, &mut file);
    }
    match random.below(60) {
        0 => {
            let cause = random.pick(&Cause::OF_NAMES);
            names = damaged_names(random, cause);
        }
        1 => {
            let length = random.pick(&[59_999, 60_000, 60_001, 60_002, 100_000]);
            let fill: &[u8] = random.pick(&[b"\r\n", b"1,", b"11", b"\"\"", b"\n1", b"\xff\0"]);
            while file.len() < length {
                file.push(fill[file.len() % 2]);
            }
        }
        _ => {}
    }
    (names, file)
}

/// Changes a byte of the file, puts some in or takes some away.
pub(super) fn mess_up(random: &mut Random, file: &mut Vec<u8>) {
    let at = random.below(file.len() + 1);
    match random.below(5) {
        0 => file.insert(at, byte(random)),
        1 if at < file.len() => file[at] = byte(random),
        2 if at < file.len() => {
            file.remove(at);
        }
        3 => file.truncate(at),
        _ => {
            file.splice(at..at, *b"\r\n");
        }
    }
}

/// Few names, and bytes that matter to a reader, behind a good header or none.
fn mess(random: &mut Random) -> (Vec<u8>, Vec<u8>) {
    let (names, header) = random.pick(&[("a", "a"), ("a b", "b,a"), ("b a c", "c"), ("a", "")]);
    let mut file = header.as_bytes().to_vec();
    if !header.is_empty() {
        file.extend(b"\r\n");
    }
    for _ in 0..random.below(24) {
        match random.below(8) {
            0 => file.extend(b"\r\n"),
            1 => file.extend(b"1,0\r\n"),
            _ => file.push(byte(random)),
        }
    }
    (names.as_bytes().to_vec(), file)
}

/// Mostly a byte that the form allows, or its neighbour.
fn byte(random: &mut Random) -> u8 {
    if random.one_in(12) {
        return random.word() as u8;
    }
    random.pick(b"0123456789,,,,\"\"\"\"\r\n\r\nab !#+-~\x7f\x1f\t\0\x80\xff")
}
