//! Damaged comma-separated files: a good one with something wrong that has one number, or with two things
//! wrong, of which the first decides.

use super::csv::{join_records, names_line, quoted, sheet, Sheet};
use super::texts::names;
use super::{csv, Cause, Random};
use crate::plain::MOST_ATTRIBUTES;

/// A line of names with just this wrong.
pub fn damaged_names(random: &mut Random, cause: Cause) -> Vec<u8> {
    let n = random.from_to(1, MOST_ATTRIBUTES);
    let mut names = names(random, n);
    let at = random.below(n);
    match cause {
        Cause::NoName => names.clear(),
        Cause::TooManyNames => {
            let count = MOST_ATTRIBUTES + random.from_to(1, 3);
            names = super::names(random, count);
        }
        Cause::LongName => {
            names[at] = "abcdefghijklmnopqrstuvwxyz"[..random.from_to(13, 26)].to_string();
        }
        Cause::EmptyName => names.insert(at, String::new()),
        Cause::NameTwice => {
            if n == MOST_ATTRIBUTES {
                names.remove(at);
            }
            let name = names[random.below(names.len())].clone();
            let to = random.below(names.len() + 1);
            names.insert(to, name);
        }
        _ => {}
    }
    let mut line = names.join(" ").into_bytes();
    match cause {
        Cause::EmptyName if random.one_in(3) => {
            line = names.concat().into_bytes();
            line.push(b' ');
        }
        Cause::NoLetter => {
            let byte = random.pick(b"AZ`{09_-,;.\"\t\r\n\0\x7f\xe4\xff");
            let to = random.below(line.len() + 1);
            line.insert(to, byte);
            if random.one_in(4) {
                line = [&names.join(" ").into_bytes()[..], b"\r\n"].concat();
            }
        }
        _ => {}
    }
    line
}

/// A line of names and a file with just this wrong: a cause that a header and a record can have is in the one
/// or in the other.
pub fn damaged_csv(random: &mut Random, cause: Cause, in_header: bool) -> (Vec<u8>, Vec<u8>) {
    if Cause::OF_NAMES.contains(&cause) {
        let (_, file) = csv(random);
        return (damaged_names(random, cause), file);
    }
    let sheet = sheet(random, 1);
    let names = names_line(&sheet.names);
    let (file, _) = damaged_sheet(random, sheet, cause, in_header);
    (names, file)
}

/// The file of a sheet with at least one row, with just this wrong, and the record that this is in, from 1, 0
/// where it is the file as a whole.
pub(super) fn damaged_sheet(
    random: &mut Random,
    mut sheet: Sheet,
    cause: Cause,
    in_header: bool,
) -> (Vec<u8>, u32) {
    match cause {
        Cause::TooLong => (too_long(random, sheet), 0),
        Cause::NoHeader => {
            let (_, mut file) = sheet.bytes();
            if random.one_in(2) {
                file.clear();
            } else {
                file.splice(0..0, *b"\r\n");
            }
            (file, 1)
        }
        Cause::TooManyRows => (too_many_rows(random, sheet.names), 0),
        _ => {
            let at = if in_header {
                0
            } else {
                random.from_to(1, sheet.records.len() - 1)
            };
            damage(random, &mut sheet, at, cause);
            (sheet.bytes().1, at as u32 + 1)
        }
    }
}

/// A line of names and a file in which two things are wrong, and the number of the first.
pub fn twice_damaged_csv(random: &mut Random) -> (Vec<u8>, Vec<u8>, u8) {
    let sheet = sheet(random, 2);
    let names = names_line(&sheet.names);
    let (file, number, _) = twice_damaged_sheet(random, sheet);
    if random.one_in(12) {
        let of_names = random.pick(&Cause::OF_NAMES);
        return (damaged_names(random, of_names), file, of_names.number());
    }
    (names, file, number)
}

/// The file of a sheet with at least two rows, in which two things are wrong, and the number and the record of
/// the first.
pub(super) fn twice_damaged_sheet(random: &mut Random, mut sheet: Sheet) -> (Vec<u8>, u8, u32) {
    let last = sheet.records.len() - 1;
    let first = random.below(last);
    let second = random.from_to(first + 1, last);
    let cause = if first == 0 {
        random.pick(&Cause::OF_HEADER)
    } else {
        random.pick(&Cause::OF_RECORD)
    };
    // From the end, so that a quote that is left open has no quote of the other behind it.
    let other = random.pick(&Cause::OF_RECORD);
    damage(random, &mut sheet, second, other);
    damage(random, &mut sheet, first, cause);
    let (_, mut file) = sheet.bytes();
    if random.one_in(12) {
        let length = random.from_to(60_001, 60_100).max(file.len());
        file.resize(length, b'1');
        return (file, 17, 0);
    }
    (file, cause.number(), first as u32 + 1)
}

/// More bytes than a file may have; the file is good but for that, or goes on without form.
fn too_long(random: &mut Random, mut sheet: Sheet) -> Vec<u8> {
    let length = random.pick(&[60_001, 60_002, 60_100, 70_000]);
    if random.one_in(2) {
        let (_, mut file) = sheet.bytes();
        let byte = random.pick(b"1,\"\n\xff");
        file.resize(length.max(file.len()), byte);
        return file;
    }
    let mut bytes = join_records(&sheet.records, true).len();
    while bytes < length {
        let at = random.from_to(1, sheet.records.len() - 1);
        let record = sheet.records[at].clone();
        bytes += record.join(&b',').len() + 2;
        sheet.records.push(record);
    }
    join_records(&sheet.records, true)
}

/// More different rows than a table may have, in at most 60,000 bytes, under some of the names.
fn too_many_rows(random: &mut Random, mut names: Vec<String>) -> Vec<u8> {
    // From seven columns on so many rows have more bytes.
    let k = random.from_to(1, names.len().min(6));
    let base = [65_536, 70, 17, 10, 10, 10][k - 1];
    random.shuffle(&mut names);
    names.truncate(k);
    let most = if k == 6 { 4_500 } else { 4_900 };
    let count = random.pick(&[4_097, 4_098, most]);
    // Neighbours, spread so that each column varies.
    let mut numbers: Vec<usize> = (0..count).collect();
    match random.below(3) {
        0 => {}
        1 => numbers.reverse(),
        _ => random.shuffle(&mut numbers),
    }
    let mut records = vec![names.iter().map(|n| n.as_bytes().to_vec()).collect()];
    for number in numbers {
        let mut rest = number;
        let mut record = Vec::new();
        for _ in 0..k {
            record.push((rest % base).to_string().into_bytes());
            rest /= base;
        }
        records.push(record);
    }
    join_records(&records, !random.one_in(3))
}

/// What a field says without its quotes.
fn unquoted(field: &[u8]) -> Vec<u8> {
    field.iter().copied().filter(|&b| b != b'"').collect()
}

/// A byte that a file may have nowhere.
fn refused_byte(random: &mut Random) -> u8 {
    loop {
        let any = random.word() as u8;
        let byte = random.pick(&[0, 9, 11, 31, 127, 128, 255, any]);
        if !(32..=126).contains(&byte) && byte != b'\r' && byte != b'\n' {
            return byte;
        }
    }
}

/// Does the damage in the record of that number, of a sheet that is good there.
fn damage(random: &mut Random, sheet: &mut Sheet, at: usize, cause: Cause) {
    let place = random.below(sheet.records[at].len());
    let says = unquoted(&sheet.records[at][place]);
    let inside = random.from_to(1, says.len());
    let anywhere = random.below(says.len() + 1);
    let mut field = says.clone();
    match cause {
        Cause::LoneLineFeed => field.insert(anywhere, b'\n'),
        Cause::LoneReturn => field.insert(anywhere, b'\r'),
        Cause::QuoteInField => field.insert(inside, b'"'),
        Cause::AfterQuote => {
            field = quoted(&says);
            field.push(random.pick(b" 1a\r\n\0.;\xff"));
            if random.one_in(3) {
                field.extend(b"\"");
            }
        }
        Cause::ByteOutside => field.insert(anywhere, refused_byte(random)),
        Cause::ByteInside => {
            field.insert(anywhere, refused_byte(random));
            field = quoted(&field);
        }
        Cause::OpenQuote => {
            field = quoted(&says);
            field.pop();
            match random.below(4) {
                0 => field.truncate(1),
                1 => field.extend(b"\"\""),
                _ => {}
            }
            // Without a later quote it is open to the end.
            sheet.records[at].truncate(place + 1);
            for record in &mut sheet.records[at..] {
                for field in record.iter_mut() {
                    *field = unquoted(field);
                }
            }
        }
        Cause::ColumnTwice => {
            let again = sheet.records[0][place].clone();
            let to = random.below(sheet.records[0].len() + 1);
            sheet.records[0].insert(to, again);
            return;
        }
        Cause::ColumnUnknown => field = unknown(random, sheet, &says),
        Cause::FieldMore => {
            let more = random.pick(&["0", "1", "65535", "\"7\"", "", "open", "65536"]);
            sheet.records[at].insert(place, more.as_bytes().to_vec());
            return;
        }
        Cause::FieldLess => {
            if sheet.records[at].len() > 1 && random.one_in(2) {
                sheet.records[at].remove(place);
            } else if sheet.records[at].len() > 1 {
                // A blank line is a record too, unless it is the file's end.
                sheet.records[at] = vec![Vec::new()];
                sheet.ended = true;
            } else {
                // One field is the least; here there is one more.
                sheet.records[at].push(Vec::new());
            }
            return;
        }
        Cause::NoValue => field = no_value(random, sheet),
        Cause::TooLarge => {
            let value = random.pick(&[
                "65536",
                "65537",
                "70000",
                "99999",
                "100000",
                "655350",
                "4294967296",
                "4294967297",
                "18446744073709551617",
                "340282366920938463463374607431768211457",
            ]);
            field = value.as_bytes().to_vec();
            if random.one_in(3) {
                field = quoted(&field);
            }
        }
        _ => unreachable!("{cause:?} is not in a record"),
    }
    sheet.records[at][place] = field;
}

/// A field that says no known name.
fn unknown(random: &mut Random, sheet: &Sheet, name: &[u8]) -> Vec<u8> {
    let letters = "abcdefghijklmnopqrstuvwxyz";
    loop {
        let mut says = name.to_vec();
        let at = random.below(says.len());
        match random.below(10) {
            0 => says.clear(),
            1 => says.push(random.pick(letters.as_bytes())),
            2 => {
                says.pop();
            }
            3 => says[at] = random.pick(letters.as_bytes()),
            4 => says[at] = says[at].to_ascii_uppercase(),
            5 => says.insert(0, b' '),
            6 => says.push(b' '),
            7 => says.insert(at, b'"'),
            8 => {
                says.splice(at..at, *b"\r\n");
            }
            _ => says.insert(at, random.pick(b",01 \r\n")),
        }
        if sheet.names.iter().all(|known| known.as_bytes() != says) {
            return written(random, &says);
        }
    }
}

/// A field that says no value.
fn no_value(random: &mut Random, sheet: &mut Sheet) -> Vec<u8> {
    let says = random.pick(&[
        "", " ", " 1", "1 ", "+1", "-1", "-0", "01", "00", "007", "000000", "open", "a", "1a",
        "1.0", "1e3", "0x1", "1_0", "1,2", ",", "1\r\n2", "1\n", "\r1", "\"", "1\"2", "\"12\"",
    ]);
    // Nothing at all behind the last line's end would be no record.
    sheet.ended = sheet.ended || says.is_empty();
    written(random, says.as_bytes())
}

/// The field as it is written: in quotes where it has to be, and sometimes elsewhere.
fn written(random: &mut Random, says: &[u8]) -> Vec<u8> {
    let has = |bytes: &[u8]| says.iter().any(|byte| bytes.contains(byte));
    if has(b"\",\r\n") || random.one_in(3) {
        quoted(says)
    } else {
        says.to_vec()
    }
}
