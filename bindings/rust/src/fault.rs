//! Why a call gives no answer.
use crate::border;
use std::error;
use std::fmt;

/// A fault of include/xvsh.h, which says when each comes.
#[derive(Clone, Copy, Debug, PartialEq, Eq, Hash)]
#[non_exhaustive]
pub enum Fault {
    TooLong,
    LineTooLong,
    ByteZero,
    BadName,
    TooManyFiles,
    TooLarge,
    Memory,
    Spent,
    NoEvent,
    NotRunnable,
    NotRunning,
    Unfinished,
    TakenName,
    ScriptTooLong,
    InputTooLong,
    BadTurns,
    BadOrder,
    BadStates,
    GivenUp,
    BadSuite,
    SuiteTooLong,
    UnusedScript,
    EveryWay,
    /// One that a newer library has, by its number.
    Other(u32),
}

// The faults by their numbers.
const NUMBERS: [(u32, Fault); 23] = [
    (2, Fault::TooLong),
    (3, Fault::LineTooLong),
    (4, Fault::ByteZero),
    (5, Fault::BadName),
    (6, Fault::TooManyFiles),
    (7, Fault::TooLarge),
    (8, Fault::Memory),
    (9, Fault::Spent),
    (10, Fault::NoEvent),
    (11, Fault::NotRunnable),
    (12, Fault::NotRunning),
    (13, Fault::Unfinished),
    (15, Fault::TakenName),
    (64, Fault::ScriptTooLong),
    (65, Fault::InputTooLong),
    (66, Fault::BadTurns),
    (67, Fault::BadOrder),
    (68, Fault::BadStates),
    (70, Fault::GivenUp),
    (71, Fault::BadSuite),
    (72, Fault::SuiteTooLong),
    (73, Fault::UnusedScript),
    (74, Fault::EveryWay),
];

impl Fault {
    /// The fault of a number.
    pub fn of(number: u32) -> Fault {
        NUMBERS.iter().find(|it| it.0 == number).map_or(Fault::Other(number), |it| it.1)
    }

    /// Its number.
    pub fn number(self) -> u32 {
        match self {
            Fault::Other(number) => number,
            fault => NUMBERS.iter().find(|it| it.1 == fault).map_or(0, |it| it.0),
        }
    }

    /// Its name in the library, as `LineTooLong`; empty where this library has none of this number.
    pub fn name(self) -> &'static str {
        // the words of faults are the library's for ever, and ASCII
        unsafe { std::str::from_utf8(border::xvsh_fault_name(self.number()).bytes()).unwrap_or_default() }
    }

    /// Its text in the library, as `a line has more than 511 bytes`.
    pub fn text(self) -> &'static str {
        unsafe { std::str::from_utf8(border::xvsh_fault_text(self.number()).bytes()).unwrap_or_default() }
    }
}

/// Why a call gave no answer: the fault, and what it is about: a line of the script, of a schedule or of a suite, a file, an event or a
/// test, from 1; or 0.
#[derive(Clone, Copy, Debug, PartialEq, Eq, Hash)]
pub struct Error {
    pub fault: Fault,
    pub place: u64,
}

impl fmt::Display for Error {
    fn fmt(&self, f: &mut fmt::Formatter<'_>) -> fmt::Result {
        match self.fault {
            Fault::Other(number) => write!(f, "fault {number}")?,
            fault => f.write_str(fault.text())?,
        }
        if self.place > 0 {
            write!(f, " (at {})", self.place)?;
        }
        Ok(())
    }
}

impl error::Error for Error {}

/// Why nothing was graded: the error, and of a suite that is wrong what `xvsh grade` says of it behind its line; else nothing.
#[derive(Clone, Debug, PartialEq, Eq, Hash)]
pub struct GradeError {
    pub error: Error,
    pub said: String,
}

impl fmt::Display for GradeError {
    fn fmt(&self, f: &mut fmt::Formatter<'_>) -> fmt::Result {
        self.error.fmt(f)?;
        if !self.said.is_empty() {
            write!(f, ": {}", self.said)?;
        }
        Ok(())
    }
}

impl error::Error for GradeError {}
