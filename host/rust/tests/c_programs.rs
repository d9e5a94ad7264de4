//! The header ylgrandi.h, the C programs that make every call over it and measure its stack, and the
//! lines of Python that README.md shows.

mod programs;

use std::process::Command;

use programs::{compile, host, readme_block, run, scratch};

/// What host/c/every_call.c must print, worked out from document 01; each `;` is the end of a line.
///
/// Gas-day 8,674 is 1 October 2023, 8,705 1 November, 8,735 1 December; the year ends with 9,039.
/// In October 2023 the 11th working day is the 16th, day 8,689, and the 16th the 23rd, day 8,696.
///
/// Commitments. User 5: 600 and 400 on one day, 60,000 and 40,000; 300 on 335 days, 10,050,000; 700
/// on the 30 days of November, 2,100,000; 200 ceded on 335 days, 6,700,000 less; a share of 466 on
/// 366 days at rate 1, 170,556. User 6: the 6,700,000, and 333 on 366 days, 121,878. User 7: 200 on
/// 366 days, 73,200.
const EVERY_CALL: &str = "\
fresh 1999: 2 0; open in year 0: 1 0; fresh, a short table: 2 0; fresh 2023: 0 0; in order: 1
open 0: 0 0; open 0 again: 4 0; open 1: 0 0; open 2 of kind 3: 2 0
guarantee 5: 0 0; guarantee 6: 0 0; guarantee 7: 0 0; guarantee 64: 2 0
day: 0 600; day, cut: 0 400; day, nothing free: 12 0; day, late: 9 0
day at a direct point: 7 0; day at a closed point: 3 0; kind 4: 2 0
annual: 0 300; annual, late: 9 0; annual, early: 8 0
month, cut: 0 700; month 13: 2 0; user 8: 5 0
report 0 8700: 0 0; report 0 8701: 0 1000; report 0 8705: 0 0
report 0 8735: 0 700; report 0 9040: 8 0; report 2 8700: 3 0
cession: 0 200; cession, late: 9 0; cession to himself: 2 0
short of 100: 65536; short of 101: 8735; cession of too much: 10 0; report 0 8735: 0 700
batch of none: 2 0; batch: 0 0
line of 5: 0 466; line of 6: 0 333; line of 7: 0 200
line of 5: 14 0; line of 8: 5 0; report 1 8674: 0 1
commitment of 5: 5720556; commitment of 6: 6821878; commitment of 7: 73200
5 0 3 8700 600; 5 0 3 8700 400; 5 0 1 8705 300; 5 0 2 8705 700
5 0 1 8705 -200; 6 0 1 8705 200; 5 1 1 8674 466; 6 1 1 8674 333; 7 1 1 8674 200
guarantee too low: 6 0; guarantee as low as can be: 0 0; day, not covered: 11 0
turn to 2023: 15 0; turn to 2099: 2 0; turn to 2024: 0 0
2024, 0 lines, commitment 0, guarantee 5720556; report 0 9040: 0 1000; open 31: 0 0
requests of 2 granted: 2048; one more: 13 0; report 31 9190: 0 9995903
after 2023-2-28: 0 2023-3-1; after 2024-2-28: 0 2024-2-29; after 2023-12-31: 0 2024-1-1
after 2099-12-31: 2 2099-12-31; after 2023-2-29: 2 2023-2-29
in order: 0; report 0 9040: 1 0
";

#[test]
fn every_call_from_c() {
    let printed = run(&mut Command::new(compile("every_call")));
    assert_eq!(printed, EVERY_CALL.replace("; ", "\n"));
}

/// The most stack that a call takes, as README.md says it, and which call takes most.
#[test]
fn a_call_takes_no_more_stack_than_said() {
    let printed = run(&mut Command::new(compile("stack")));
    let bytes = |line: &str| -> (usize, String) {
        let (call, bytes) = line.split_once(": 0 ").expect("the call is answered 0");
        (bytes.parse().expect("a number"), call.to_owned())
    };
    let calls: Vec<_> = printed.lines().map(bytes).collect();
    let most = calls.iter().max().expect("there are calls");
    assert_eq!((calls.len(), most.1.as_str()), (11, "cession"));
    assert!(most.0 < 48 * 1024, "{printed}");
}

/// Whether a tool is here. What needs one that is not is left out, with a word about it.
fn has(tool: &str) -> bool {
    let found = Command::new(tool).arg("--version").output().is_ok();
    if !found {
        eprintln!("no {tool}: this test is left out");
    }
    found
}

#[test]
fn the_header_is_cpp_too() {
    if has("c++") {
        let flags = "-std=c++11 -Wall -Wextra -Wpedantic -Werror -fsyntax-only -x c++";
        let header = host("include/ylgrandi.h");
        run(Command::new("c++").args(flags.split(' ')).arg(header));
    }
}

#[test]
fn python_calls_a_shared_library() {
    if has("python3") {
        let (archive, library) = (env!("YLGRANDI_ARCHIVE"), scratch("libylgrandi.so"));
        let mut linker = Command::new("cc");
        linker.arg("-shared").arg("-o").arg(library);
        linker.args(["-Wl,--whole-archive", archive, "-Wl,--no-whole-archive"]);
        run(&mut linker);
        let mut python = Command::new("python3");
        python.args(["-c", &readme_block("python")]);
        assert_eq!(run(python.current_dir(scratch("."))), "0 1000 1000\n");
    }
}
