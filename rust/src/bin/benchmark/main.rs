//! A stop-watch: the proved library, the plain Rust model and sqlite3 on the same questions, side by side;
//! then the check of what runs left, beside the runs; then the library with range tables and with the same values as
//! rows; then a text's listing and its copy with attributes hidden; then the library and the plain model on comma-separated files; then the command and sqlite3 on such files, as
//! whole processes. Prints tables in markdown; progress goes to standard error. With a number behind it, only the
//! questions with at most about so many boxes, and the rest; with `checks`, only the checks; with `copies`, only the copies; with `ranges`, only the
//! range tables; with `csv`, only the imports; with `files`, only the processes; with `before` and the file of a library
//! as it was, that library and this one.

mod before;
mod checks;
mod commands;
mod copies;
mod files;
mod ranges;
mod watch;

use boxjoin::plain::{self, Question, Run, Table};
use boxjoin::random::{call_log, triangle, wide_call_log};
use boxjoin::Counts;
use std::io::Write;
use std::process::{Command, Stdio};
use watch::{shown, Watch, ROUNDS};

/// Room for every question here.
const LISTING_WORDS: usize = 100_000;
const STORE_WORDS: usize = plain::MOST_BOXES * plain::RECORD;

/// Of more boxes than about these a scan takes minutes; it is left out.
const SCANNED: u32 = 50_000;

/// So many queries are asked of sqlite3 for its time.
const QUERIES: usize = 400;

struct Case {
    name: String,
    question: Question,
    /// About so many boxes are stored.
    boxes: u32,
}

impl Case {
    /// Is this about as many boxes as it should have?
    fn is_about(&self, boxes: u32) -> bool {
        (self.boxes * 95 / 100..=self.boxes * 105 / 100).contains(&boxes)
    }
}

fn triangle_case(rows: usize, boxes: u32) -> Case {
    Case {
        name: format!("triangle, {rows} rows a table"),
        question: triangle(1, 6, rows),
        boxes,
    }
}

fn call_log_case(shafts: usize, lines: usize, centres: usize, tries: usize, boxes: u32) -> Case {
    Case {
        name: format!("call log, {shafts} shafts, {lines} lines, {centres} centres"),
        question: call_log(1, shafts, lines, centres, tries),
        boxes,
    }
}

fn wide_case(shafts: usize, lines: usize, centres: usize, tries: usize, boxes: u32) -> Case {
    Case {
        name: format!("wide call log, {shafts} shafts, {lines} lines, {centres} centres"),
        question: wide_call_log(1, shafts, lines, centres, tries),
        boxes,
    }
}

fn main() {
    let most = std::env::args().nth(1);
    let sqlite = Command::new("sqlite3").arg("--version").output().is_ok();
    if !sqlite {
        eprintln!("no sqlite3 here: its columns say -");
    }
    match most.as_deref() {
        Some("checks") => return checks::measure_checks(),
        Some("copies") => return copies::measure_copies(),
        Some("csv") => return files::measure_files(),
        Some("files") => return commands::measure_commands(sqlite),
        Some("ranges") => return ranges::measure_ranges(),
        Some("before") => {
            let library = std::env::args().nth(2).expect("the file of a library");
            return before::measure_before(&library);
        }
        _ => {}
    }
    let most = most.map_or(u32::MAX, |boxes| boxes.parse().expect("a number of boxes"));
    let kinds = [
        vec![
            triangle_case(63, 1_000),
            triangle_case(290, 8_000),
            triangle_case(1_140, 50_000),
            triangle_case(1_275, 60_000),
        ],
        vec![
            call_log_case(14, 9, 4, 2, 1_000),
            call_log_case(140, 32, 8, 2, 8_000),
            call_log_case(915, 128, 16, 3, 50_000),
            call_log_case(1_120, 128, 16, 3, 60_000),
        ],
        vec![
            wide_case(6, 4, 4, 2, 1_000),
            wide_case(50, 16, 8, 2, 8_000),
            wide_case(312, 128, 16, 3, 60_000),
        ],
    ];
    print_header();
    for cases in kinds {
        let mut first = None;
        for case in cases.into_iter().filter(|case| case.boxes <= most) {
            let a_box = measure(&case, sqlite, first);
            first.get_or_insert(a_box);
        }
    }
    println!();
    checks::measure_checks();
    println!();
    ranges::measure_ranges();
    println!();
    copies::measure_copies();
    println!();
    files::measure_files();
    println!();
    commands::measure_commands(sqlite);
}

fn print_header() {
    println!(
        "\
Times are processor time in milliseconds on one core. *ours* is one call of the proved library with a scratch
in which its whole tree has room, *scan* the same call with a scratch of length 0. *plain scan* and *plain tree*
are the same steps in plain Rust: one scans the boxes and the rows, the other finds boxes by such a tree and rows
by halves. Batches of at least half a second of each in turn, the best mean of {ROUNDS} batches; of a call that
takes more than a second there is one batch. Scans of 60,000 boxes are left out. *sqlite3* is its query alone, by
`.timer` (user + sys), the best of {QUERIES} single queries, with tables in memory, all columns their primary key,
sorted output thrown away; building its tables is not counted. *check* is one call that checks what our run left, its
listing and its store cut to the counts. Checked on the way: the four give the same listing and the same store, word
for word, which the check accepts, and sqlite3, where there is one, the same tuples. *growth* is our time a box
relative to the first line of the same kind, whose widths are the same: 6 bits each in triangles; 11, 11, 7, 4
and 4 in call logs; in wide ones seven attributes more, of 33 bits in all. On a shared machine a time can come out
half as long again in another run, so that the ratios are rough.
"
    );
    println!("| question | rows | tuples | boxes | ours ms | scan ms | plain scan ms | plain tree ms | sqlite3 ms | check ms | scan/ours | ours/plain tree | ours/sqlite3 | check/ours | µs/box (ours) | growth |");
    println!("|---|--:|--:|--:|--:|--:|--:|--:|--:|--:|--:|--:|--:|--:|--:|--:|");
}

/// The library's buffers, and what its last run with them answered.
struct Buffers {
    listing: Vec<u16>,
    store: Vec<u32>,
    scratch: Vec<u32>,
    counts: Option<Counts>,
}

impl Buffers {
    fn new(scratch: usize) -> Buffers {
        Buffers {
            listing: vec![0; LISTING_WORDS],
            store: vec![0; STORE_WORDS],
            scratch: vec![0; scratch],
            counts: None,
        }
    }

    fn run(&mut self, words: &[u16]) {
        let (listing, store) = (&mut self.listing, &mut self.store);
        self.counts = Some(boxjoin::run_with(words, listing, store, &mut self.scratch));
    }

    /// The last run's tuples and records.
    fn written(&self, attributes: usize) -> Option<(&[u16], &[u32])> {
        let counts = self.counts?;
        let listing = &self.listing[..counts.tuples as usize * attributes];
        let store = &self.store[..counts.boxes as usize * plain::RECORD];
        Some((listing, store))
    }

    /// The last run, as the model says it.
    fn left(&self, attributes: usize) -> Option<Run> {
        let counts = self.counts?;
        let (listing, store) = self.written(attributes)?;
        Some(Run {
            number: counts.number,
            tuples: counts.tuples,
            boxes: counts.boxes,
            resolutions: counts.resolutions,
            listing: listing.to_vec(),
            store: store.to_vec(),
        })
    }

    /// Checks what the last run left, which has to be accepted.
    fn check(&self, words: &[u16]) {
        let attributes = usize::from(words[0]);
        let (listing, store) = self.written(attributes).expect("a run before");
        let number = boxjoin::check_listing(words, listing, store);
        assert_eq!(number, 0, "the listing is accepted");
    }
}

/// The words of a scratch in which the tree of any store has room: a box has no more nodes than the
/// question has bits and attributes.
fn ample(question: &Question) -> usize {
    let nodes = question
        .widths
        .iter()
        .map(|&w| w as usize + 1)
        .sum::<usize>();
    4 * (2 + plain::MOST_BOXES * nodes)
}

/// Measures one question, prints its line and hands back the time a box.
fn measure(case: &Case, sqlite: bool, first: Option<f64>) -> f64 {
    let words = case.question.words();
    let mut with_tree = Buffers::new(ample(&case.question));
    let mut by_scan = Buffers::new(0);
    let (mut plain_tree_run, mut plain_scan_run) = (None, None);
    let [mut ours, mut plain_tree, mut scan, mut plain_scan] = [(); 4].map(|_| Watch::default());
    let mut check = Watch::default();
    for round in 1..=ROUNDS {
        let what = |who: &str| format!("{}: round {round}, {who}", case.name);
        ours.batch(&what("ours"), || with_tree.run(&words));
        check.batch(&what("check"), || with_tree.check(&words));
        plain_tree.batch(&what("plain tree"), || {
            plain_tree_run = Some(plain::run_by_tree(&words, LISTING_WORDS, STORE_WORDS));
        });
        if case.boxes <= SCANNED {
            scan.batch(&what("scan"), || by_scan.run(&words));
            plain_scan.batch(&what("plain scan"), || {
                plain_scan_run = Some(plain::run(&words, LISTING_WORDS, STORE_WORDS));
            });
        }
    }

    let n = case.question.widths.len();
    let run = with_tree.left(n).unwrap();
    assert_eq!(run.number, 0, "the run is complete");
    assert!(case.is_about(run.boxes), "{} boxes", run.boxes);
    for other in [by_scan.left(n), plain_tree_run, plain_scan_run]
        .iter()
        .flatten()
    {
        assert!(*other == run, "the same counts, listing and store");
    }
    let mut sqlite_ms = None;
    if sqlite {
        eprintln!("{}: sqlite3 ...", case.name);
        let (tuples, ms) = ask_sqlite(&case.question);
        assert!(tuples == run.listing, "sqlite3 gives the same tuples");
        sqlite_ms = Some(ms);
    }

    let ours = ours.0.unwrap();
    let a_box = ours * 1e3 / run.boxes as f64;
    let rows = case.question.tables.iter().flat_map(Table::rows);
    let mut line = format!("| {} | {} |", case.name, rows.flatten().count());
    line += &format!(" {} | {} |", run.tuples, run.boxes);
    let plain = [plain_scan.0, plain_tree.0];
    let times = [Some(ours), scan.0, plain[0], plain[1], sqlite_ms, check.0];
    let ratios = [
        scan.0.map(|scan| scan / ours),
        plain_tree.0.map(|tree| ours / tree),
        sqlite_ms.map(|sqlite| ours / sqlite),
        check.0.map(|check| check / ours),
    ];
    let growth = [Some(a_box), Some(a_box / first.unwrap_or(a_box))];
    for number in times.iter().chain(&ratios).chain(&growth) {
        line += &format!(" {} |", shown(*number));
    }
    println!("{line}");
    a_box
}

/// The tuples that sqlite3 gives, one after the other, and its query's milliseconds.
fn ask_sqlite(question: &Question) -> (Vec<u16>, f64) {
    let mut script = String::from(".separator \" \"\nBEGIN;\n");
    let names: Vec<String> = (0..question.widths.len())
        .map(|a| format!("x{a}"))
        .collect();
    for (number, table) in question.tables.iter().enumerate() {
        let columns: Vec<&str> = table
            .attributes
            .iter()
            .map(|&a| names[a].as_str())
            .collect();
        let typed: Vec<String> = columns.iter().map(|c| format!("{c} INTEGER")).collect();
        script += &format!(
            "CREATE TABLE t{number} ({}, PRIMARY KEY({})) WITHOUT ROWID;\n",
            typed.join(", "),
            columns.join(", ")
        );
        for row in table.rows().expect("no table is open") {
            let values: Vec<String> = row.iter().map(|v| v.to_string()).collect();
            script += &format!("INSERT INTO t{number} VALUES ({});\n", values.join(", "));
        }
    }
    let tables: Vec<String> = (0..question.tables.len())
        .map(|t| format!("t{t}"))
        .collect();
    let all = names.join(", ");
    let query = format!(
        "SELECT {all} FROM {} ORDER BY {all};\n",
        tables.join(" NATURAL JOIN ")
    );
    // First for the tuples, then for the time.
    script += &format!("COMMIT;\n{query}.output /dev/null\n.timer on\n");
    script += &query.repeat(QUERIES);

    let mut sqlite = Command::new("sqlite3")
        .args(["-batch", "-bail", ":memory:"])
        .stdin(Stdio::piped())
        .stdout(Stdio::piped())
        .spawn()
        .expect("sqlite3 starts");
    let mut input = sqlite.stdin.take().unwrap();
    let writer = std::thread::spawn(move || input.write_all(script.as_bytes()));
    let output = sqlite.wait_with_output().expect("sqlite3 ends");
    writer.join().unwrap().expect("sqlite3 reads it all");
    assert!(output.status.success(), "sqlite3 is content");

    let mut tuples = Vec::new();
    let mut best = f64::INFINITY;
    for line in String::from_utf8(output.stdout).unwrap().lines() {
        let fields: Vec<&str> = line.split(' ').collect();
        if line.starts_with("Run Time:") {
            let after = |name| {
                let at = fields.iter().position(|&f| f == name).unwrap();
                fields[at + 1].parse::<f64>().unwrap()
            };
            best = best.min((after("user") + after("sys")) * 1e3);
        } else {
            tuples.extend(fields.iter().map(|f| f.parse::<u16>().unwrap()));
        }
    }
    assert!(best > 0.0 && best.is_finite(), "sqlite3 tells its time");
    (tuples, best)
}
