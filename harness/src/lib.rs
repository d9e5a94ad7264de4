//! What the tests share that compare the proved register with the everyday one.
//!
//! A test is a list of steps: calls, and numbers that a faulty host writes between
//! them. They come from text (`reference/cases`) or are drawn at random, and run
//! on both registers, with every number of memory compared after each.

pub mod books;
pub mod calls;
pub mod cases;
pub mod draws;
pub mod numbers;
pub mod shrink;
pub mod sides;
pub mod streams;
pub mod tally;
