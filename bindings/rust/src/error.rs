//! What goes wrong.

use std::error::Error;
use std::fmt;

/// A field of a pattern.
#[derive(Clone, Copy, Debug, PartialEq, Eq, Hash, PartialOrd, Ord)]
pub enum Unit {
    Second,
    Minute,
    Hour,
    Day,
    Month,
    Weekday,
    Year,
}

impl Unit {
    pub(crate) fn of_number(number: i32) -> Option<Unit> {
        Some(match number {
            0 => Unit::Second,
            1 => Unit::Minute,
            2 => Unit::Hour,
            3 => Unit::Day,
            4 => Unit::Month,
            5 => Unit::Weekday,
            6 => Unit::Year,
            _ => return None,
        })
    }
}

/// Why a pattern is refused.
#[derive(Clone, Copy, Debug, PartialEq, Eq, Hash)]
#[non_exhaustive]
pub enum Kind {
    /// Nothing but white space.
    Empty,
    /// A count of fields that the settings don't accept.
    FieldCount,
    /// A character that its field can't have.
    IllegalCharacter,
    /// A field that can't be read.
    BadField,
}

impl Kind {
    pub(crate) fn of_number(number: i32) -> Kind {
        match number {
            1 => Kind::Empty,
            2 => Kind::FieldCount,
            3 => Kind::IllegalCharacter,
            _ => Kind::BadField,
        }
    }
}

/// Where and why a pattern is refused. Its text is a message for a person.
#[derive(Clone, Debug, PartialEq, Eq, Hash)]
#[non_exhaustive]
pub struct PatternFault {
    /// The byte at which the fault begins.
    pub begin: usize,
    /// The byte after its last one.
    pub end: usize,
    /// The number of its first character, from 1.
    pub character: usize,
    /// The field, if it is a single one.
    pub field: Option<Unit>,
    pub kind: Kind,
    pub message: String,
}

impl fmt::Display for PatternFault {
    fn fmt(&self, f: &mut fmt::Formatter<'_>) -> fmt::Result {
        f.write_str(&self.message)
    }
}

/// An error of a call.
#[derive(Clone, Debug, PartialEq, Eq, Hash)]
#[non_exhaustive]
pub enum CronError {
    /// The text is no pattern.
    InvalidPattern(PatternFault),
    /// No run is left before year 5000, or on the way back none after year 1. In these two years some runs are found and others are missed.
    TimeSearchLimitExceeded,
    /// The start or the run lies outside the window of the clock's table.
    OutsideWindow,
    /// The clock isn't calm: it changes too often, or too far.
    NotCalm,
    /// There is no such zone, or its file or rule can't be read.
    InvalidZone,
    /// A second outside the years -9996 to 9996, or a window that ends before it begins.
    InvalidTime,
    /// There is no memory left.
    OutOfMemory,
}

impl fmt::Display for CronError {
    fn fmt(&self, f: &mut fmt::Formatter<'_>) -> fmt::Result {
        match self {
            CronError::InvalidPattern(fault) => fault.fmt(f),
            CronError::TimeSearchLimitExceeded => {
                f.write_str("no run is left before year 5000, or none after year 1 on the way back")
            }
            CronError::OutsideWindow => {
                f.write_str("the start or the run lies outside the window of the clock's table")
            }
            CronError::NotCalm => f.write_str("the clock changes too often or too far to be followed"),
            CronError::InvalidZone => f.write_str("there is no such time zone, or its file or rule can't be read"),
            CronError::InvalidTime => {
                f.write_str("a second lies outside the years -9996 to 9996, or a window ends before it begins")
            }
            CronError::OutOfMemory => f.write_str("there is no memory left"),
        }
    }
}

impl Error for CronError {}
