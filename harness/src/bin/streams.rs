//! Hands random streams of records to a program, each to a process of its own,
//! and compares what it prints, byte by byte, with what the reference prints.
//!
//! `streams RUNNER [COUNT [SEED]]`. Stream number n, from 0, has the seed SEED + n,
//! so that one that differs is made again by `streams RUNNER 1 THAT-SEED`.

use std::error::Error;
use std::io::{self, PipeReader, PipeWriter, Read};
use std::process::{Command, ExitCode, Output, Stdio};
use std::thread;

use harness::streams::{Stream, Tally};
use reference::runner::{answers, lines, MOST_BYTES, RECORD_LENGTH};

const COUNT: u64 = 1_200;

const SEED: u64 = 20_001_001;

fn main() -> ExitCode {
    match compare_all() {
        Ok(tally) => {
            print!("{tally}");
            ended_with(&tally)
        }
        Err(error) => {
            eprintln!("streams: {error}");
            ExitCode::FAILURE
        }
    }
}

fn ended_with(tally: &Tally) -> ExitCode {
    match tally.missing()[..] {
        [] => ExitCode::SUCCESS,
        ref missing => {
            eprintln!("streams: all agree, but no line had one of the numbers {missing:?}");
            ExitCode::FAILURE
        }
    }
}

/// Compares as many streams as the arguments say, up to the first that differs.
fn compare_all() -> Result<Tally, Box<dyn Error>> {
    let mut arguments = std::env::args().skip(1);
    let runner = arguments.next();
    let runner = runner.ok_or("usage: streams RUNNER [COUNT [SEED]]")?;
    let count = arguments.next().map_or(Ok(COUNT), |text| text.parse())?;
    let first = arguments.next().map_or(Ok(SEED), |text| text.parse())?;

    let mut tally = Tally::default();
    for number in 0..count {
        let seed = first.wrapping_add(number);
        let stream = Stream::from_seed(seed);
        compare(&runner, &stream, &mut tally).map_err(|error| {
            format!(
                "stream {number} of seed {first} (seed {seed}, {:?}): {error}",
                stream.shape
            )
        })?;
    }
    Ok(tally)
}

fn compare(runner: &str, stream: &Stream, tally: &mut Tally) -> Result<(), Box<dyn Error>> {
    let (output, left) = hand_over(runner, stream)?;
    let answers = answers(&stream.bytes);
    let expected = lines(&answers);
    if output.stdout != expected.as_bytes() {
        let printed = String::from_utf8_lossy(&output.stdout);
        return Err(first_difference(&stream.bytes, &expected, &printed).into());
    }
    if !output.stderr.is_empty() {
        let said = String::from_utf8_lossy(&output.stderr);
        return Err(format!("on standard error: {said}").into());
    }
    if !output.status.success() {
        return Err(format!("ended with {}", output.status).into());
    }
    let behind = &stream.bytes[stream.bytes.len().min(MOST_BYTES)..];
    if left != behind {
        return Err(format!(
            "{} bytes left in the pipe, not {}",
            left.len(),
            behind.len()
        )
        .into());
    }
    tally.add(stream, &answers);
    Ok(())
}

/// Runs the program with a stream on its standard input: its output, and the bytes
/// that it has not read.
///
/// A thread writes, and both outputs are read until the program ends, so that
/// neither side waits for the other. What it leaves is read after that: a thread
/// that still writes then comes to its end too.
fn hand_over(runner: &str, stream: &Stream) -> io::Result<(Output, Vec<u8>)> {
    let (mut reader, mut writer): (PipeReader, PipeWriter) = io::pipe()?;
    let program = Command::new(runner)
        .stdin(reader.try_clone()?)
        .stdout(Stdio::piped())
        .stderr(Stdio::piped())
        .spawn()?;
    thread::scope(|scope| {
        let writing = scope.spawn(move || stream.pieces.write(&stream.bytes, &mut writer));
        let output = program.wait_with_output()?;
        let mut left = Vec::new();
        reader.read_to_end(&mut left)?;
        writing.join().expect("the thread that writes")?;
        Ok((output, left))
    })
}

/// The first line that differs, with the record that it belongs to.
fn first_difference(stream: &[u8], expected: &str, printed: &str) -> String {
    let count = expected.lines().count().max(printed.lines().count());
    let pair = |index| (expected.lines().nth(index), printed.lines().nth(index));
    let index = (0..=count).find(|&index| pair(index).0 != pair(index).1);
    let Some(index) = index else {
        return "the lines are the same, their ends are not".to_string();
    };
    let (expected, printed) = pair(index);
    let record = stream.chunks(RECORD_LENGTH).nth(index).unwrap_or(&[]);
    let hex: Vec<String> = record.iter().map(|byte| format!("{byte:02x}")).collect();
    let [expected, printed] = [expected, printed].map(|line| line.unwrap_or("no line"));
    let position = index + 1;
    let record = hex.join(" ");
    format!("line {position}: expected '{expected}', printed '{printed}', record {record}")
}
