//! A range table, beside the table that lists every value of its pairs.

use crate::watch::{shown, Watch, ROUNDS};
use crate::{ample, Buffers};
use boxjoin::plain::Question;
use boxjoin::random::cables;

/// So many units have a cable of some length.
const UNITS: usize = 500;

/// The stop-watch for each number of pairs, with so many values each: at most as many as a table may have rows.
pub fn measure_ranges() {
    println!(
        "\
A table of {UNITS} units, each with the length of its cable, joined with a range table of the lengths in stock, and
with the table that has a row for each of them. Times are processor time on one core, in batches as above: *check*
in microseconds, *run* in milliseconds with a scratch in which the whole tree has room. Checked on the way: both
leave the same listing and the same store, word for word.
"
    );
    println!("| pairs | values each | words, pairs | words, rows | tuples | boxes | check µs, pairs | check µs, rows | run ms, pairs | run ms, rows |");
    println!("|--:|--:|--:|--:|--:|--:|--:|--:|--:|--:|");
    for (pairs, values) in [(1, 4_096), (16, 256), (512, 8), (4_096, 1)] {
        measure(pairs, values);
    }
}

fn measure(pairs: usize, values: usize) {
    let ranged = cables(1, UNITS, pairs, values);
    let listed = ranged.spelled_out();
    let questions: [&Question; 2] = [&ranged, &listed];
    let words = questions.map(Question::words);
    let mut buffers = questions.map(|question| Buffers::new(ample(question)));
    let mut checks = [(); 2].map(|_| Watch::default());
    let mut runs = [(); 2].map(|_| Watch::default());
    for round in 1..=ROUNDS {
        for form in 0..2 {
            let what = format!("{pairs} pairs of {values}: round {round}, form {form}");
            checks[form].batch(&what, || {
                assert_eq!(boxjoin::check_question(&words[form]), 0);
            });
            runs[form].batch(&what, || buffers[form].run(&words[form]));
        }
    }
    let [pairs_run, rows_run] = buffers.map(|left| left.left(ranged.widths.len()).unwrap());
    assert_eq!(pairs_run.number, 0, "the run is complete");
    assert!(pairs_run == rows_run, "the same counts, listing and store");
    let mut line = format!(
        "| {pairs} | {values} | {} | {} |",
        words[0].len(),
        words[1].len()
    );
    line += &format!(" {} | {} |", pairs_run.tuples, pairs_run.boxes);
    let checks = checks.map(|watch| watch.0.map(|ms| ms * 1e3));
    for number in checks.into_iter().chain(runs.map(|watch| watch.0)) {
        line += &format!(" {} |", shown(number));
    }
    println!("{line}");
}
