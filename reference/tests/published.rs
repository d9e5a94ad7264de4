//! The shape of what the program `published` prints.

use std::process::Command;

fn output() -> String {
    let run = Command::new(env!("CARGO_BIN_EXE_published"))
        .output()
        .expect("the program runs");
    assert!(run.status.success());
    assert!(run.stderr.is_empty());
    String::from_utf8(run.stdout).expect("the output is text")
}

#[test]
fn prints_every_section_in_order() {
    let output = output();
    assert!(output.ends_with('\n'));
    let lines: Vec<&str> = output.lines().collect();
    assert_eq!(lines.len(), 100 + 1_200 + 99 + 1_200);
    assert!(lines[..100].iter().all(|line| line.starts_with("Easter ")));
    assert!(lines[1_300..1_399]
        .iter()
        .all(|line| line.starts_with("thermal ") && line.split(' ').count() == 28));
    assert_months(&lines[100..1_300], "", 6);
    assert_months(&lines[1_399..], "days ", 9);
}

/// Asserts that there is a line for each month, with so many words.
fn assert_months(lines: &[&str], prefix: &str, words: usize) {
    for (index, line) in lines.iter().enumerate() {
        let month = format!("{prefix}{}-{:02} ", 2000 + index / 12, index % 12 + 1);
        assert!(line.starts_with(&month), "{line}");
        assert_eq!(line.split(' ').count(), words, "{line}");
    }
}

#[test]
fn prints_known_lines() {
    let output = output();
    let lines: Vec<&str> = output.lines().collect();
    assert_eq!(lines[0], "Easter 2000-04-23");
    // December 2023: 18 working days, the 16th on the 27th.
    assert_eq!(lines[100 + 23 * 12 + 11], "2023-12 18 15 18 21 27");
    assert!(lines[1_300].starts_with("thermal 2000 274 638 274 304 305 334 "));
    // October 2023: 22 working days, the 11th on the 16th; 1 November is day 8,705.
    assert_eq!(
        lines[1_399 + 23 * 12 + 9],
        "days 2023-10 31 22 16 15 16 31 8705"
    );
    // 31 December 2099 is the last day.
    assert_eq!(lines[2_598], "days 2099-12 31 21 16 15 0 30 0");
}
