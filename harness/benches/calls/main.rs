//! How long the calls of the proved register take, and the same calls in everyday
//! Rust. Start it with `cargo bench -p harness`.
//!
//! Both are timed in one run on the same numbers, as [`timing`] says. Beside
//! question 1 stands a tuned version too, the limit. The program ends with status
//! 1 where a goal is missed.

mod question_1;
mod question_10;
mod registers;
mod row;
mod rows;
mod table;
mod timing;
mod tuned;

use std::process::ExitCode;

fn main() -> ExitCode {
    question_1::check();
    let missed = rows::compare() + question_1::compare();
    question_10::compare();
    if missed > 0 {
        println!("\nRows that miss a goal: {missed}.");
        return ExitCode::FAILURE;
    }
    println!("\nEvery goal is met.");
    ExitCode::SUCCESS
}
