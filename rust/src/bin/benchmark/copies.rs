//! How long the lift firm's copy of a text takes, beside the centre's listing.

use crate::watch::{shown, Watch, ROUNDS};
use boxjoin::plain::{Contents, Question, Table};
use boxjoin::random::{call_log, text_of, wide_call_log};

/// No print is longer.
const PAGE: usize = 180_220;

pub fn measure_copies() {
    println!(
        "\
A text's listing and its copy with every second attribute hidden: processor time on one core in microseconds, in
batches as above, each one call with a place that has room. Checked on the way: both end in the same word.
"
    );
    println!("| text | bytes | tuples | ends | listing µs | copy µs | copy/listing |");
    println!("|---|--:|--:|---|--:|--:|--:|");
    measure("call log, 14 shafts", &call_log(1, 14, 9, 4, 2));
    measure("call log, 140 shafts", &call_log(1, 140, 32, 8, 2));
    measure("wide call log, 6 shafts", &wide_call_log(1, 6, 4, 4, 2));
    measure("one table of 450 rows", &rows(450));
}

/// One table of so many rows of twelve values: few boxes a tuple.
fn rows(count: u16) -> Question {
    let row = |i| [vec![i], vec![9; 11]].concat();
    Question {
        widths: [vec![9], vec![4; 11]].concat(),
        tables: vec![Table {
            attributes: (0..12).collect(),
            contents: Contents::Rows((0..count).map(row).collect()),
        }],
    }
}

fn measure(name: &str, question: &Question) {
    let n = question.widths.len();
    let names: Vec<String> = (b'a'..).take(n).map(|b| (b as char).to_string()).collect();
    let text = text_of(&names, question);
    let hidden: Vec<u16> = (0..n as u16).filter(|k| k % 2 == 1).collect();
    let (mut listing, mut copy) = (vec![0; PAGE], vec![0; PAGE]);
    let (mut listed, mut copied) = (0, 0);
    let [mut list, mut lift] = [(); 2].map(|_| Watch::default());
    for round in 1..=ROUNDS {
        let what = |who: &str| format!("{name}: round {round}, {who}");
        list.batch(&what("listing"), || {
            listed = boxjoin::list_text(&text, &mut listing)
        });
        lift.batch(&what("copy"), || {
            copied = boxjoin::lift_copy(&text, &hidden, &mut copy).bytes as usize
        });
    }
    let [ends, copy_ends] = [&listing[..listed], &copy[..copied]].map(|print| {
        let print = String::from_utf8(print.to_vec()).unwrap();
        let last: Vec<String> = print
            .lines()
            .last()
            .unwrap()
            .split(' ')
            .map(str::to_string)
            .collect();
        last
    });
    assert_eq!(ends[0], copy_ends[0], "both end in the same word");
    let micro = |watch: Watch| watch.0.map(|ms| ms * 1e3);
    let (list, lift) = (micro(list), micro(lift));
    let ratio = list.zip(lift).map(|(list, lift)| lift / list);
    let mut line = format!(
        "| {name} | {} | {} | {} |",
        text.len(),
        copy_ends[1],
        ends[0]
    );
    for number in [list, lift, ratio] {
        line += &format!(" {} |", shown(number));
    }
    println!("{line}");
}
