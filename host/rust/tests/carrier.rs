//! The host in small, host/c/carrier.c and examples/carrier.rs: the register outlives the process,
//! and either program takes up the other's journal.

mod programs;

use std::fs::{self, File};
use std::io::{BufRead, BufReader, Write};
use std::path::{Path, PathBuf};
use std::process::{Child, Command, Output, Stdio};
use std::sync::LazyLock;

use programs::{compile, host, readme_block, run, scratch};

static IN_C: LazyLock<PathBuf> = LazyLock::new(|| compile("carrier"));

static IN_RUST: LazyLock<PathBuf> = LazyLock::new(|| {
    let target = scratch("..");
    let mut cargo = Command::new(env!("CARGO"));
    cargo.args("build --quiet --offline --example carrier --target-dir".split(' '));
    run(cargo.arg(&target).current_dir(env!("CARGO_MANIFEST_DIR")));
    target.join("debug/examples/carrier")
});

fn hosts() -> [&'static Path; 2] {
    [&IN_C, &IN_RUST]
}

/// Either host, and either one that comes after it.
fn pairs() -> [[&'static Path; 2]; 4] {
    let [c, rust] = hosts();
    [[c, c], [c, rust], [rust, c], [rust, rust]]
}

/// Calls with their answers, worked out from document 01. The first six are its worked example.
const CALLS: [[&str; 2]; 18] = [
    ["turn 2023", "0 0"],
    ["open 0 2 1000 100", "0 0"],
    ["guarantee 5 1000000000", "0 0"],
    ["day 5 0 8700 8699 600", "0 600"],
    ["day 5 0 8700 8699 600", "0 400"],
    ["day 5 0 8700 8699 600", "12 0"],
    ["guarantee 6 1000000000", "0 0"],
    ["annual 5 0 8689 300", "0 300"],
    ["annual 5 0 8690 300", "9 0"],
    ["cession 5 6 0 8696 200", "0 200"],
    ["cession 5 6 0 8696 101", "10 0"],
    ["month 6 0 2 8689 1000", "0 700"],
    ["report 0 8705", "0 0"],
    ["report 0 8735", "0 700"],
    ["open 0 2 1000 100", "4 0"],
    ["turn 2024", "0 0"],
    ["report 0 9040", "0 1000"],
    ["open 1 1 9999999 999999", "0 0"],
];

/// The journal of a test, which each host that it tries finds so.
fn journal(test: &str, text: &str) -> PathBuf {
    let journal = scratch(test).with_extension("journal");
    fs::write(&journal, text).expect("the folder is there");
    journal
}

fn read(file: &Path) -> String {
    fs::read_to_string(file).expect("the file is there")
}

/// Runs a host on a journal to its end, with this for standard input.
fn serve(host: &Path, journal: &Path, input: &str) -> Output {
    let calls = journal.with_extension("calls");
    fs::write(&calls, input).expect("the folder is there");
    let calls = File::open(&calls).expect("it was written");
    let output = Command::new(host).arg(journal).stdin(calls).output();
    output.expect("it was compiled")
}

/// What a host answers that ends well.
fn answers(host: &Path, journal: &Path, input: &str) -> String {
    let output = serve(host, journal, input);
    let errors = String::from_utf8_lossy(&output.stderr);
    assert!(output.status.success(), "{errors}");
    String::from_utf8(output.stdout).expect("text")
}

/// The host stops before it answers.
fn assert_stops(host: &Path, journal: &Path, input: &str) {
    let output = serve(host, journal, input);
    assert!(!output.status.success());
    assert!(output.stdout.is_empty());
    assert!(!output.stderr.is_empty());
}

/// These as lines, each with its end.
fn lines<'a>(lines: impl Iterator<Item = &'a str>) -> String {
    lines.map(|line| format!("{line}\n")).collect()
}

/// One host makes the calls up to each place, and the same or the other one the rest: together they
/// answer as one that is never ended. The journal then has the accepted calls but for reports.
#[test]
fn a_journal_is_taken_up() {
    let altering = |&[call, answer]: &[&'static str; 2]| {
        let is_kept = answer.starts_with("0 ") && !call.starts_with("report");
        is_kept.then_some(call)
    };
    for [first, second] in pairs() {
        for place in 0..=CALLS.len() {
            let journal = journal("taken-up", "");
            let (before, after) = CALLS.split_at(place);
            for (host, calls) in [(first, before), (second, after)] {
                let [input, due] = [0, 1].map(|side| lines(calls.iter().map(|call| call[side])));
                assert_eq!(answers(host, &journal, &input), due);
            }
            assert_eq!(read(&journal), lines(CALLS.iter().filter_map(altering)));
        }
    }
}

/// Also one that would be a call is cut off: it was never answered.
#[test]
fn a_torn_line_is_cut_off() {
    for host in hosts() {
        for torn in ["o", "open 7 2 10", "open 7 2 1000 100", "\0\0\0", "\u{e9}"] {
            let journal = journal("torn", &format!("turn 2023\n{torn}"));
            assert_eq!(answers(host, &journal, "report 7 8700\n"), "3 0\n");
            assert_eq!(read(&journal), "turn 2023\n");
            assert_eq!(answers(host, &journal, "turn 2024\n"), "0 0\n");
            assert_eq!(read(&journal), "turn 2023\nturn 2024\n");
        }
    }
}

/// Lines that are no call, with `|` between them. A number is never cut to what its field can hold:
/// 256 is not point 0.
const NO_CALLS: &str = "|opens 0 2 1000 100|open|open 0 2 1000|open 0 2 1000 100 1\
    |open 0 2 1000 100 |open  0 2 1000 100|open 256 2 1000 100|open 0 258 1000 100\
    |open 0 2 1000 4294967396|open 0 2 18446744073709551616 100|open +0 2 1000 100\
    |open 0 2 -1 100|turn 67560|turn 2024\r|Turn 2024";

#[test]
fn what_is_no_call_is_answered_and_not_made() {
    for host in hosts() {
        let journal = journal("no-call", "");
        for line in NO_CALLS.split('|') {
            let output = serve(host, &journal, &format!("{line}\nreport 0 0\n"));
            assert_eq!(output.stdout, b"2 0\n3 0\n", "{line:?}");
            assert!(!output.stderr.is_empty(), "{line:?} has no message");
        }
        assert_eq!(answers(host, &journal, "turn 2024"), "2 0\n", "no line end");
        assert_eq!(read(&journal), "");
    }
}

/// Nothing is guessed: the host stops, and leaves the journal.
#[test]
fn a_damaged_journal_stops_the_host() {
    for host in hosts() {
        for damaged in ["turn 2023\nturn 2023", "turn 2023\nopen 7", "", "\0"] {
            let damaged = format!("{damaged}\nturn 2024\ntorn");
            let journal = journal("damaged", &damaged);
            assert_stops(host, &journal, "report 0 8700\n");
            assert_eq!(read(&journal), damaged);
        }
        assert_stops(host, &scratch("missing.journal"), "turn 2023\n");
    }
}

/// Makes a call of a host that goes on running.
fn ask(host: &mut Child, call: &str) -> String {
    writeln!(host.stdin.as_mut().expect("a pipe"), "{call}").expect("it reads");
    let mut answers = BufReader::new(host.stdout.as_mut().expect("a pipe"));
    let mut answer = String::new();
    answers.read_line(&mut answer).expect("it answers");
    answer
}

/// What is answered is in the journal by then, and no second process writes there meanwhile.
#[test]
fn an_answered_call_outlives_a_crash() {
    for [host, other] in pairs() {
        let journal = journal("crash", "");
        let mut command = Command::new(host);
        command.arg(&journal);
        command.stdin(Stdio::piped()).stdout(Stdio::piped());
        let mut host = command.spawn().expect("it was compiled");
        assert_eq!(ask(&mut host, "turn 2023"), "0 0\n");
        assert_eq!(read(&journal), "turn 2023\n");
        assert_stops(other, &journal, "turn 2024\n");
        assert_eq!(ask(&mut host, "open 0 2 1000 100"), "0 0\n");
        host.kill().expect("it runs");
        host.wait().expect("it ends");
        assert_eq!(answers(other, &journal, "report 0 8700\n"), "0 1000\n");
    }
}

#[test]
fn the_readme_shows_both_hosts_whole() {
    for (language, file) in [("c", "c/carrier.c"), ("rust", "rust/examples/carrier.rs")] {
        assert_eq!(readme_block(language), read(&host(file)));
    }
}
