//! How long the command takes for comma-separated files, beside sqlite3 on the same files: whole processes.

use crate::watch::shown;
use boxjoin::plain::{Question, Table};
use boxjoin::random::{call_log, Random};
use std::fs;
use std::path::{Path, PathBuf};
use std::process::{Command, Output, Stdio};
use std::time::Instant;

/// So many times each process is started.
const STARTS: usize = 21;

/// The attributes of a call log, and the files of its tables.
const NAMES: [&str; 5] = ["shaft", "unit", "line", "first", "second"];
const FILES: [&str; 4] = ["shafts", "lines", "calls", "tries"];

/// The repository.
fn root() -> PathBuf {
    Path::new(env!("CARGO_MANIFEST_DIR")).join("..")
}

pub fn measure_commands(sqlite: bool) {
    println!(
        "\
Times of whole processes that join the same comma-separated files and print the join as such a file, in milliseconds
of the clock from start to end, the median of {STARTS} starts of each in turn. *front end* is the program alone,
*./boxjoin csv* the command, which sees first whether it is built from what is there, and *sqlite3* a script with
`.import --csv` into tables of integers, `NATURAL JOIN` with `ORDER BY` all columns, and `.mode csv`. Checked on
the way: all three print the same bytes.
"
    );
    println!("| call log | rows | tuples | boxes | front end ms | ./boxjoin csv ms | sqlite3 ms | front end/sqlite3 | ./boxjoin csv/sqlite3 |");
    println!("|---|--:|--:|--:|--:|--:|--:|--:|--:|");
    for [shafts, lines, centres, tries] in [
        [50, 16, 4, 2],
        [334, 48, 8, 3],
        [1_120, 128, 16, 3],
        [667, 64, 16, 15],
    ] {
        let name = format!("{shafts} shafts, {lines} lines, {centres} centres, {tries} tries");
        measure(&name, &call_log(1, shafts, lines, centres, tries), sqlite);
    }
}

/// Measures one call log, and prints its line.
fn measure(name: &str, log: &Question, sqlite: bool) {
    let folder = root().join("target").join("benchmark");
    fs::create_dir_all(&folder).expect("a folder for the files");
    write_files(&folder, log);
    let program = root().join("target/rust/release/csv");
    let mut command = Command::new(root().join("boxjoin"));
    command.arg("csv");
    let mut ours = [command, Command::new(program)];
    for command in &mut ours {
        command.arg(NAMES.join(","));
        command.args(FILES.map(|file| format!("{file}.csv")));
    }
    let [mut command, mut program] = ours;
    let mut theirs = Command::new("sqlite3");
    theirs.args(["-batch", "-bail", ":memory:"]);

    // The command first: it builds the program where that is due.
    eprintln!("{name}: once each ...");
    let (_, printed) = start(&mut command, &folder);
    let told = String::from_utf8(printed.stderr).expect("a last line");
    let counts: Vec<&str> = told.lines().last().unwrap_or("").split(' ').collect();
    let [_, tuples, boxes, _] = counts[..] else {
        panic!("{name}: {told}");
    };
    let mut others = vec![&mut program];
    if sqlite {
        others.push(&mut theirs);
    }
    for other in others {
        let (_, print) = start(other, &folder);
        assert!(print.stdout == printed.stdout, "{name}: the same bytes");
    }
    let mut times = [(); 3].map(|_| Vec::new());
    for round in 1..=STARTS {
        eprintln!("{name}: round {round} ...");
        times[0].push(start(&mut program, &folder).0);
        times[1].push(start(&mut command, &folder).0);
        if sqlite {
            times[2].push(start(&mut theirs, &folder).0);
        }
    }
    let [program, command, theirs] = times.map(median);
    let rows = log.tables.iter().flat_map(Table::rows).flatten().count();
    let mut line = format!("| {name} | {rows} | {tuples} | {boxes} |");
    let ratio = |ours: Option<f64>| Some(ours? / theirs?);
    for number in [program, command, theirs, ratio(program), ratio(command)] {
        line += &format!(" {} |", shown(number));
    }
    println!("{line}");
}

/// The files of the tables, their records in no order, and the script for sqlite3.
fn write_files(folder: &Path, log: &Question) {
    let mut random = Random::new(1);
    let mut script = String::new();
    for (file, table) in FILES.iter().zip(&log.tables) {
        let columns: Vec<&str> = table.attributes.iter().map(|&a| NAMES[a]).collect();
        let mut rows = table.rows().expect("no table is open").clone();
        random.shuffle(&mut rows);
        let records = rows.iter().map(|row| {
            let values: Vec<String> = row.iter().map(|v| v.to_string()).collect();
            values.join(",") + "\r\n"
        });
        let text = columns.join(",") + "\r\n" + &records.collect::<String>();
        fs::write(folder.join(format!("{file}.csv")), text).expect("a file is written");
        let typed = columns.join(" INTEGER, ") + " INTEGER";
        script += &format!("CREATE TABLE {file} ({typed});\n");
        script += &format!(".import --csv --skip 1 {file}.csv {file}\n");
    }
    let all = NAMES.join(", ");
    script += ".mode csv\n.headers on\n";
    script += &format!(
        "SELECT {all} FROM {} ORDER BY {all};\n",
        FILES.join(" NATURAL JOIN ")
    );
    fs::write(folder.join("join.sql"), script).expect("the script is written");
}

/// Starts the process in the folder, with the script on its standard input, which only sqlite3 reads, and waits
/// for its end: the milliseconds, and what it printed.
fn start(command: &mut Command, folder: &Path) -> (f64, Output) {
    let script = fs::File::open(folder.join("join.sql")).expect("the script");
    command.current_dir(folder).stdin(Stdio::from(script));
    let start = Instant::now();
    let output = command.output().expect("it starts");
    let time = start.elapsed().as_secs_f64() * 1e3;
    assert!(output.status.success(), "{command:?}: {output:?}");
    (time, output)
}

fn median(mut times: Vec<f64>) -> Option<f64> {
    times.sort_by(f64::total_cmp);
    times.get(times.len() / 2).copied()
}
