//! The printed tables, and whether the goals are met.

use crate::row::Row;
use crate::timing::{times, Stopwatch};

/// The name of a version beside the proved one, and the least that the ratio of
/// its time to the proved register's is to be, where there is such a goal.
pub type Rival = (&'static str, Option<f64>);

/// The goal of every call: it takes no longer than in everyday Rust.
pub const EVERYDAY: Rival = ("everyday", Some(1.0));

/// A table whose rows are printed as they are timed.
pub struct Table {
    rivals: &'static [Rival],
    /// How many rows miss a goal.
    pub missed: usize,
}

impl Table {
    pub fn new(title: &str, rivals: &'static [Rival]) -> Table {
        let (call, rule) = ("call", "-".repeat(50));
        print!("\n{title}\n\n| {call:50} | lines | proved µs |   calls/s ");
        for (name, _) in rivals {
            print!("| {:>11} |  ratio ", format!("{name} µs"));
        }
        print!("| goal |\n| {rule} | ----: | --------: | --------: ");
        let rules = "| ----------: | -----: ".repeat(rivals.len());
        println!("{rules}| ---- |");
        Table { rivals, missed: 0 }
    }

    /// Times a row, the proved version first, and prints it.
    pub fn row(&mut self, row: &Row, versions: Vec<Stopwatch>) {
        let times = times(versions);
        let (name, nanos) = (row.name, times[0].nanos);
        let lines = grouped(row.books.register.lines.into());
        let (micros, calls) = (nanos / 1e3, grouped((1e9 / nanos).round() as u64));
        print!("| {name:50} | {lines:>5} | {micros:>9.2} | {calls:>9} ");
        let mut missed = Vec::new();
        for ((name, goal), time) in self.rivals.iter().zip(&times[1..]) {
            print!("| {:>11.2} | {:>6.2} ", time.nanos / 1e3, time.ratio);
            if goal.is_some_and(|goal| time.ratio < goal) {
                missed.push(*name);
            }
        }
        match missed[..] {
            [] if self.rivals.iter().all(|(_, goal)| goal.is_none()) => println!("| - |"),
            [] => println!("| met |"),
            _ => println!("| MISSED: {} |", missed.join(", ")),
        }
        self.missed += usize::from(!missed.is_empty());
    }
}

/// A number below a thousand million with its thousands set off.
fn grouped(number: u64) -> String {
    match (number / 1_000_000, number / 1000 % 1000, number % 1000) {
        (0, 0, ones) => ones.to_string(),
        (0, thousands, ones) => format!("{thousands},{ones:03}"),
        (millions, thousands, ones) => format!("{millions},{thousands:03},{ones:03}"),
    }
}
