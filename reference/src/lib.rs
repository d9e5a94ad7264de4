//! The capacity register in everyday Rust.
//!
//! It is written from document 01 alone, as a Rust programmer would write it who
//! had no prover: plain, and as fast as that comes. The proved register is
//! compared with it, in its answers and in its time. The two share no code, and
//! what can be computed in more than one way is computed another way here.

pub mod batch;
pub mod calendar;
pub mod cession;
pub mod order;
pub mod register;
pub mod request;
pub mod runner;
