//! A short soak, with two seeds.

use std::process::{Command, Output};

fn soak(arguments: &[&str]) -> Output {
    let mut soak = Command::new(env!("CARGO_BIN_EXE_soak"));
    soak.args(arguments).output().expect("the soak runs")
}

/// How often a number was the answer, by its row of the table.
fn answered(told: &str, number: usize) -> u64 {
    let rows = told.lines().skip_while(|row| !row.starts_with("number"));
    let row = rows.skip(1).nth(number).unwrap_or_default();
    let counts = row.split_whitespace().skip(1);
    counts.filter_map(|count| count.parse::<u64>().ok()).sum()
}

/// 20,000 calls reach all years, and every number but 1, which a register that only the calls alter
/// never gives.
fn soaks(seed: &str) {
    let output = soak(&["20000", seed]);
    let told = String::from_utf8_lossy(&output.stdout);
    assert!(output.status.success(), "{told}");
    assert!(told.contains("no difference"), "{told}");
    assert!(told.contains("years visited 99 of 99"), "{told}");
    for number in 0..16 {
        assert_eq!(answered(&told, number) > 0, number != 1, "{number}: {told}");
    }
}

#[test]
fn soaks_with_one_seed() {
    soaks("1");
}

#[test]
fn soaks_with_another_seed() {
    soaks("2");
}

#[test]
fn a_few_calls_visit_fewer_years() {
    let output = soak(&["40", "3"]);
    let told = String::from_utf8_lossy(&output.stdout);
    assert!(output.status.success(), "{told}");
    assert!(told.contains("years visited 20 of 99"), "{told}");
}

#[test]
fn bad_arguments_are_told() {
    for arguments in [&[][..], &["0"], &["many"], &["1", "-1"], &["1", "2", "3"]] {
        let output = soak(arguments);
        let told = String::from_utf8_lossy(&output.stderr);
        assert_eq!(output.status.code(), Some(2), "{arguments:?}");
        assert!(told.starts_with("usage: soak CALLS [SEED]"), "{told}");
    }
}
