//! Why a call is refused: the questions of document 01, by name.

use std::error::Error;
use std::fmt;

/// The question that was answered no. Its number is that of document 01,
/// "Questions put to a call".
#[derive(Debug, Clone, Copy, PartialEq, Eq, PartialOrd, Ord, Hash)]
#[repr(u8)]
pub enum Refusal {
    NotInOrder = 1,
    OutOfLimits,
    PointClosed,
    PointOpen,
    NotOnFile,
    BelowCommitment,
    NotOffered,
    OutsideYear,
    Late,
    NotHeld,
    NotCovered,
    NothingFree,
    LedgerFull,
    UserRepeated,
    YearNotLater,
}

/// Every refusal, in the order of their numbers from 1.
const REFUSALS: [Refusal; 15] = [
    Refusal::NotInOrder,
    Refusal::OutOfLimits,
    Refusal::PointClosed,
    Refusal::PointOpen,
    Refusal::NotOnFile,
    Refusal::BelowCommitment,
    Refusal::NotOffered,
    Refusal::OutsideYear,
    Refusal::Late,
    Refusal::NotHeld,
    Refusal::NotCovered,
    Refusal::NothingFree,
    Refusal::LedgerFull,
    Refusal::UserRepeated,
    Refusal::YearNotLater,
];

impl Refusal {
    /// The number of the question, 1 to 15.
    pub fn number(self) -> u8 {
        self as u8
    }

    /// The refusal with this number. 0 is none, since it stands for accepted.
    pub fn from_number(number: u8) -> Option<Refusal> {
        let place = usize::from(number).checked_sub(1)?;
        REFUSALS.get(place).copied()
    }

    fn reason(self) -> &'static str {
        match self {
            Refusal::NotInOrder => "the register is not in order",
            Refusal::OutOfLimits => "a field is outside its limits",
            Refusal::PointClosed => "the point is not open",
            Refusal::PointOpen => "the point is open already",
            Refusal::NotOnFile => "a user named is not on file",
            Refusal::BelowCommitment => "the new guarantee is below the commitment",
            Refusal::NotOffered => "the kind of product is not offered at the point",
            Refusal::OutsideYear => {
                "the arrival lies outside its limits, or the span outside the year"
            }
            Refusal::Late => "not in time",
            Refusal::NotHeld => "the giver does not hold the amount on every day",
            Refusal::NotCovered => "the guarantee does not cover commitment plus charge",
            Refusal::NothingFree => "nothing is free on some day of the span",
            Refusal::LedgerFull => "too few ledger lines are left",
            Refusal::UserRepeated => "an earlier line of the batch names the user",
            Refusal::YearNotLater => "the new year is not later",
        }
    }
}

impl fmt::Display for Refusal {
    fn fmt(&self, f: &mut fmt::Formatter<'_>) -> fmt::Result {
        f.write_str(self.reason())
    }
}

impl Error for Refusal {}

/// The number of an answer as a result: 0 is accepted.
pub(crate) fn verdict(number: u8) -> Result<(), Refusal> {
    if number == 0 {
        return Ok(());
    }
    Err(Refusal::from_number(number).expect("answers are 0 or the number of a question"))
}
