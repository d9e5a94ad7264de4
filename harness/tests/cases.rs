//! The cases in text, against the everyday register and against the proved one, with
//! every number compared after each step.

use std::fs;
use std::path::{Path, PathBuf};

use harness::books::Everyday;
use harness::calls::{Answer, Call, Step};
use harness::cases::{self, Case};
use harness::sides::Sides;
use harness::tally::Tally;

/// The files of cases.
fn files() -> Vec<PathBuf> {
    let folder = Path::new(env!("CARGO_MANIFEST_DIR")).join("../reference/cases");
    let entries = fs::read_dir(folder).expect("the folder of the cases");
    let mut files: Vec<PathBuf> = entries.map(|entry| entry.expect("a file").path()).collect();
    files.sort();
    files
}

/// The cases of each file, with where they stand.
fn cases() -> Vec<(PathBuf, Vec<(usize, Case)>)> {
    let read = |file: PathBuf| {
        let text = fs::read_to_string(&file).expect("text");
        let cases = cases::read(&text);
        let cases = cases.unwrap_or_else(|error| panic!("{}: {error}", file.display()));
        (file, cases)
    };
    files().into_iter().map(read).collect()
}

#[test]
fn each_case_is_answered_as_it_says() {
    let mut tally = Tally::default();
    for (file, cases) in cases() {
        let mut sides = Sides::default();
        let mut seen = |call: &Call, answer: &Answer, books: &mut Everyday| {
            tally.add(call, answer, books);
        };
        for (number, case) in cases {
            if let Err(error) = cases::run(&mut sides, &case, &mut seen) {
                panic!("{}:{number}: {error}", file.display());
            }
        }
    }
    tally.expect(1, |_, _| true);
}

/// What a failing sequence is told in can be put into a file as it is.
#[test]
fn a_step_that_is_told_is_read_again() {
    for (_, cases) in cases() {
        for (number, case) in cases {
            let told = match &case {
                Case::Call(call, answer) => cases::line(&Step::Call(call.clone()), Some(answer)),
                Case::Write(step) => cases::line(step, None),
                Case::Damaged(_) | Case::Harmless(_) => continue,
            };
            assert_eq!(cases::read(&told), Ok(vec![(1, case)]), "line {number}");
        }
    }
}

#[test]
fn a_line_that_says_nothing_is_told() {
    for line in [
        "fresh",
        "fresh 2023",
        "fresh 2023 -> ",
        "fresh 2023 4 -> 0",
        "fresh 2023 -> 0 0",
        "fresh 70000 -> 2",
        "fresh year -> 2",
        "opens 0 2 1000 100 -> 0",
        "request 5 0 week 3 8689 1 -> 2 0",
        "request 5 0 kind 2 8689 1 -> 2 0",
        "request 5 0 annual 8689 1 -> 0",
        "batch 0 5 -> 2",
        "set rate 0",
        "set rates 0 1",
        "set line 0 last 1",
        "set year 2023 -> 0",
        "damaged rate 0 1000000,",
    ] {
        assert!(cases::read(line).is_err(), "{line}");
    }
    assert_eq!(cases::read("# nothing\n\n  # at all"), Ok(Vec::new()));
}
