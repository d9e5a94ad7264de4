//! The proved capacity register of a gas carrier, for Rust programs.
//!
//! [`Register`] owns a register together with its free amounts and its ledger.
//! It is made fresh for a thermal year and altered by the calls of document 01
//! alone, so what is proved over every list of calls holds for it: it is always
//! in order, and no call is refused with [`Refusal::NotInOrder`]. Document 01 is
//! "The capacity register of one thermal year"; amounts are whole Sm3 a day,
//! money is whole millionths of a euro, and gas-day 0 is 1 January 2000.
//!
//! A host that lays its memory out itself uses [`sys`], whose functions take the
//! register and its lists apart.

mod refusal;
mod register;
pub mod sys;
mod values;

pub use refusal::Refusal;
pub use register::Register;
pub use sys::Date;
pub use values::{Account, BatchLine, Cession, Line, LineKind, Point, PointKind, Product, Request};

/// Moves a date on by one gas-day. The last date of the calendar, 31 December
/// 2099, one outside the calendar and one that does not exist are left, with
/// [`Refusal::OutOfLimits`].
pub fn next_day(date: &mut Date) -> Result<(), Refusal> {
    refusal::verdict(sys::next_day(date))
}
