//! A plain model of the library's comma-separated files: from a file to the words of a table, and from a
//! listing to a file. A file is read by the grammar of RFC 4180, whose rules stand above the functions.

use crate::plain::Table;
use crate::text;
use std::collections::BTreeSet;

pub const MOST_BYTES: usize = 60_000;
pub const MOST_ROWS: usize = 4_096;

/// Why a file is refused: the number, and the record that it is of, from 1 (the header is the first), 0 where
/// it is of the file as a whole.
#[derive(Clone, Copy, Debug, PartialEq, Eq)]
pub struct Refusal {
    pub number: u8,
    pub record: u32,
}

/// The words of the file's table, or the number of the refusal (8, 15, 16, 17, 18 or 19).
pub fn import(names: &[u8], file: &[u8]) -> Result<Vec<u16>, u8> {
    let names = text::top_names(names)?;
    let table = table(&names, file).map_err(|refusal| refusal.number)?;
    Ok(table.words())
}

/// The table that the file is under these names, or the refusal (8, 16, 17, 18 or 19). It has rows: no file is
/// an open table's or a range table's.
pub fn table(names: &[String], file: &[u8]) -> Result<Table, Refusal> {
    let whole = |number| Refusal { number, record: 0 };
    if file.len() > MOST_BYTES {
        return Err(whole(17));
    }
    let mut reader = Reader { rest: file };
    let mut record = 1;
    let columns = header(&mut reader, names).map_err(|number| Refusal { number, record })?;
    let mut attributes = columns.clone();
    attributes.sort();
    let mut rows = BTreeSet::new();
    while !reader.over() {
        record += 1;
        let values = values(&mut reader, &columns).map_err(|number| Refusal { number, record })?;
        let value = |of| values[columns.iter().position(|column| column == of).unwrap()];
        rows.insert(attributes.iter().map(value).collect());
    }
    if rows.len() > MOST_ROWS {
        return Err(whole(8));
    }
    Ok(Table::with_rows(attributes, rows.into_iter().collect()))
}

/// For each column of the file its attribute.
fn header(reader: &mut Reader, names: &[String]) -> Result<Vec<usize>, u8> {
    let mut columns = Vec::new();
    for name in reader.record()? {
        let known = names.iter().position(|of| of.as_bytes() == name);
        let attribute = known.ok_or(16)?;
        if columns.contains(&attribute) {
            return Err(16);
        }
        columns.push(attribute);
    }
    Ok(columns)
}

/// The values of the next record, which has one for each column.
fn values(reader: &mut Reader, columns: &[usize]) -> Result<Vec<u16>, u8> {
    let record = reader.record()?;
    if record.len() != columns.len() {
        return Err(18);
    }
    record.iter().map(|field| value(field).ok_or(19)).collect()
}

/// The bytes of the listing's file, or the number of the refusal (3, 15 or 16).
pub fn export(names: &[u8], listing: &[u16]) -> Result<Vec<u8>, u8> {
    let names = text::top_names(names)?;
    if !listing.len().is_multiple_of(names.len()) {
        return Err(3);
    }
    let mut file = names.join(",") + "\r\n";
    for tuple in listing.chunks(names.len()) {
        let values: Vec<String> = tuple.iter().map(|v| v.to_string()).collect();
        file += &values.join(",");
        file += "\r\n";
    }
    Ok(file.into_bytes())
}

/// What a call answers, and what it writes at the front of the place that is lent to it.
#[derive(Clone, Copy, Debug, PartialEq, Eq)]
pub struct Answer<'a, T> {
    pub number: u8,
    pub count: u32,
    pub written: &'a [T],
}

/// The answer for what [`import`] or [`export`] made, with a place of so many words or bytes.
pub fn answer<T>(made: &Result<Vec<T>, u8>, room: usize) -> Answer<'_, T> {
    let (number, count, written) = match made {
        Ok(made) if made.len() <= room => (0, made.len(), &made[..]),
        Ok(made) => (13, made.len(), &[][..]),
        Err(number) => (*number, 0, &[][..]),
    };
    Answer {
        number,
        count: count as u32,
        written,
    }
}

/// What is still to be read of a file.
struct Reader<'a> {
    rest: &'a [u8],
}

impl Reader<'_> {
    /// Is nothing left? Then there is no further record.
    fn over(&self) -> bool {
        self.rest.is_empty()
    }

    /// Takes these bytes if they come next.
    fn takes(&mut self, bytes: &[u8]) -> bool {
        match self.rest.strip_prefix(bytes) {
            None => false,
            Some(rest) => {
                self.rest = rest;
                true
            }
        }
    }

    /// `record = field *(COMMA field)`, and behind it `CRLF` or the end of the file.
    fn record(&mut self) -> Result<Vec<Vec<u8>>, u8> {
        let mut fields = vec![self.field()?];
        while self.takes(b",") {
            fields.push(self.field()?);
        }
        if self.takes(b"\r\n") || self.over() {
            Ok(fields)
        } else {
            Err(18)
        }
    }

    /// `field = (escaped / non-escaped)`
    fn field(&mut self) -> Result<Vec<u8>, u8> {
        if self.takes(b"\"") {
            self.escaped()
        } else {
            Ok(self.non_escaped())
        }
    }

    /// `escaped = DQUOTE *(TEXTDATA / COMMA / CR / LF / 2DQUOTE) DQUOTE`, the first quote being taken.
    fn escaped(&mut self) -> Result<Vec<u8>, u8> {
        let mut field = Vec::new();
        loop {
            if self.takes(b"\"\"") {
                field.push(b'"');
            } else if self.takes(b"\"") {
                return Ok(field);
            } else {
                let (&byte, rest) = self.rest.split_first().ok_or(18)?;
                if !is_textdata(byte) && !b",\r\n".contains(&byte) {
                    return Err(18);
                }
                field.push(byte);
                self.rest = rest;
            }
        }
    }

    /// `non-escaped = *TEXTDATA`
    fn non_escaped(&mut self) -> Vec<u8> {
        let other = self.rest.iter().position(|&byte| !is_textdata(byte));
        let (field, rest) = self.rest.split_at(other.unwrap_or(self.rest.len()));
        self.rest = rest;
        field.to_vec()
    }
}

/// `TEXTDATA = %x20-21 / %x23-2B / %x2D-7E`
fn is_textdata(byte: u8) -> bool {
    matches!(byte, 0x20..=0x21 | 0x23..=0x2b | 0x2d..=0x7e)
}

/// The value that a field says, if it does.
fn value(field: &[u8]) -> Option<u16> {
    let digits = field.iter().all(|b| b.is_ascii_digit());
    let leading = field.len() > 1 && field[0] == b'0';
    if !digits || field.is_empty() || leading || field.len() > 5 {
        return None;
    }
    let number = field.iter().fold(0, |n, b| 10 * n + (b - b'0') as u32);
    u16::try_from(number).ok()
}

/// The example of each of the RFC's seven sentences on the form (section 2), read into records of fields.
#[test]
fn the_examples_of_the_rfc() {
    let records = |file: &str| {
        let rest = file.as_bytes();
        let mut reader = Reader { rest };
        let mut records: Vec<Vec<String>> = Vec::new();
        while !reader.over() {
            let fields = reader.record().unwrap().into_iter();
            records.push(fields.map(|f| String::from_utf8(f).unwrap()).collect());
        }
        records
    };
    let two: Vec<Vec<&str>> = vec![vec!["aaa", "bbb", "ccc"], vec!["zzz", "yyy", "xxx"]];
    assert_eq!(records("aaa,bbb,ccc\r\nzzz,yyy,xxx\r\n"), two);
    assert_eq!(records("aaa,bbb,ccc\r\nzzz,yyy,xxx"), two);
    let header = "field_name,field_name,field_name\r\naaa,bbb,ccc\r\nzzz,yyy,xxx\r\n";
    let named = [vec![vec!["field_name"; 3]], two.clone()].concat();
    assert_eq!(records(header), named);
    assert_eq!(records("aaa,bbb,ccc"), two[..1]);
    assert_eq!(records("\"aaa\",\"bbb\",\"ccc\"\r\nzzz,yyy,xxx"), two);
    let broken = vec![vec!["aaa", "b\r\nbb", "ccc"], vec!["zzz", "yyy", "xxx"]];
    let file = "\"aaa\",\"b\r\nbb\",\"ccc\"\r\nzzz,yyy,xxx";
    assert_eq!(records(file), broken);
    assert_eq!(
        records("\"aaa\",\"b\"\"bb\",\"ccc\""),
        [["aaa", "b\"bb", "ccc"]]
    );
}
