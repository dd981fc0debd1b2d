//! A plain model of the lift firm's copy of a listing: what the firm must not see is left out of it.

use crate::plain;
use crate::text::{self, BOXES, LISTING_WORDS};

/// The bytes of the copy for this text, with the attributes of these numbers hidden.
pub fn copy(text: &[u8], hidden: &[u16]) -> Vec<u8> {
    let lines = lines(text, hidden).unwrap_or_else(|_| vec!["refused".to_string()]);
    let ended: Vec<String> = lines.into_iter().map(|line| line + "\n").collect();
    ended.concat().into_bytes()
}

/// The copy's lines, or the number of the refusal.
fn lines(text: &[u8], hidden: &[u16]) -> Result<Vec<String>, u8> {
    let (names, words) = text::read(text)?;
    let run = plain::run(&words, LISTING_WORDS, BOXES * plain::RECORD);
    if plain::is_refusal(run.number) {
        return Err(run.number);
    }
    // The same names.
    let mut lines = vec![names.join(" ")];
    // The tuples, without the hidden values.
    for tuple in run.listing.chunks(names.len()) {
        let fields = (0u16..).zip(tuple).map(|(attribute, value)| {
            if hidden.contains(&attribute) {
                "-".to_string()
            } else {
                value.to_string()
            }
        });
        lines.push(fields.collect::<Vec<String>>().join(" "));
    }
    // How it ended, and how many tuples there are.
    let end = if run.number == 0 {
        "complete"
    } else {
        "stopped"
    };
    lines.push(format!("{end} {}", run.tuples));
    Ok(lines)
}
