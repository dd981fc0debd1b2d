//! A plain model of the listing program: from the text to the bytes that it prints.

use crate::plain::{self, Contents, Question, Table};

/// The listing program's room.
pub const BOXES: usize = 1_000;
pub const LISTING_WORDS: usize = 30_000;

/// The bytes that are printed for the text.
pub fn print(text: &[u8]) -> Vec<u8> {
    let mut out = String::new();
    match read(text) {
        Err(number) => out = format!("refused {number}\n"),
        Ok((names, words)) => {
            let run = plain::run(&words, LISTING_WORDS, BOXES * plain::RECORD);
            if plain::is_refusal(run.number) {
                out = format!("refused {}\n", run.number);
            } else {
                out += &names.join(" ");
                out += "\n";
                for tuple in run.listing.chunks(names.len()) {
                    let values: Vec<String> = tuple.iter().map(|v| v.to_string()).collect();
                    out += &values.join(" ");
                    out += "\n";
                }
                out += &match run.number {
                    0 => "complete".to_string(),
                    number => format!("stopped {number}"),
                };
                out += &format!(" {} {} {}\n", run.tuples, run.boxes, run.resolutions);
            }
        }
    }
    out.into_bytes()
}

/// The lines of a text, each without its end.
struct Lines<'a> {
    rest: &'a [u8],
}

impl<'a> Lines<'a> {
    fn over(&self) -> bool {
        self.rest.is_empty()
    }

    /// Does an empty line come next?
    fn at_empty(&self) -> bool {
        self.rest.starts_with(b"\n")
    }

    /// The next line; one that is missing, or that has no end, has no form.
    fn next(&mut self) -> Result<&'a [u8], u8> {
        let end = self.rest.iter().position(|&b| b == b'\n').ok_or(15)?;
        let line = &self.rest[..end];
        self.rest = &self.rest[end + 1..];
        Ok(line)
    }
}

/// The names of a line: 1 to `most`, or it has no form.
fn names(line: &[u8], most: usize) -> Result<Vec<String>, u8> {
    let mut names = Vec::new();
    for field in line.split(|&b| b == b' ') {
        let letters = field.iter().all(|b| b.is_ascii_lowercase());
        if !letters || field.is_empty() || field.len() > 12 {
            return Err(15);
        }
        names.push(String::from_utf8(field.to_vec()).unwrap());
    }
    if names.len() > most {
        return Err(15);
    }
    Ok(names)
}

/// The names of a text's top line, which are distinct, or the number of the refusal (15 or 16).
pub(crate) fn top_names(line: &[u8]) -> Result<Vec<String>, u8> {
    let top = names(line, plain::MOST_ATTRIBUTES)?;
    for (i, name) in top.iter().enumerate() {
        if top[..i].contains(name) {
            return Err(16);
        }
    }
    Ok(top)
}

/// The numbers of a line: just so many, or it has no form.
fn numbers(line: &[u8], count: usize) -> Result<Vec<u16>, u8> {
    let mut numbers = Vec::new();
    for field in line.split(|&b| b == b' ') {
        let digits = field.iter().all(|b| b.is_ascii_digit());
        let leading = field.len() > 1 && field[0] == b'0';
        if !digits || field.is_empty() || leading || field.len() > 5 {
            return Err(15);
        }
        let number = field.iter().fold(0, |n, b| 10 * n + (b - b'0') as u32);
        numbers.push(u16::try_from(number).map_err(|_| 15)?);
    }
    if numbers.len() != count {
        return Err(15);
    }
    Ok(numbers)
}

/// The names and the question's words, or the number of the refusal (15, 16 or 17).
pub fn read(text: &[u8]) -> Result<(Vec<String>, Vec<u16>), u8> {
    if text.len() > 60_000 {
        return Err(17);
    }
    let mut lines = Lines { rest: text };
    let top = top_names(lines.next()?)?;
    let n = top.len();
    let widths = numbers(lines.next()?, n)?;
    let widths = widths.into_iter().map(u32::from).collect();
    let mut tables = Vec::new();
    while !lines.over() {
        // A table begins with an empty line, and there are at most 16.
        if !lines.next()?.is_empty() || tables.len() == 16 {
            return Err(15);
        }
        let mut attributes = Vec::new();
        for name in names(lines.next()?, n)? {
            let known = top.iter().position(|of| *of == name).ok_or(16)?;
            if attributes.contains(&known) {
                return Err(16);
            }
            attributes.push(known);
        }
        let contents = contents(&mut lines, attributes.len())?;
        tables.push(Table {
            attributes,
            contents,
        });
    }
    Ok((top, Question { widths, tables }.words()))
}

/// What stands below the names of a table, up to an empty line or the end: the line `open`, or rows of so many
/// values. No text says pairs.
fn contents(lines: &mut Lines, k: usize) -> Result<Contents, u8> {
    if lines.rest.starts_with(b"open\n") {
        lines.next()?;
        return if lines.over() || lines.at_empty() {
            Ok(Contents::Open)
        } else {
            Err(15)
        };
    }
    let mut rows = Vec::new();
    while !lines.over() && !lines.at_empty() {
        rows.push(numbers(lines.next()?, k)?);
    }
    Ok(Contents::Rows(rows))
}
