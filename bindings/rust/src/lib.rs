//! Cron patterns and their runs, by a library whose answers are proved: a safe interface to `libcroner.a`.
//!
//! ```
//! use croner_proved::{ClockTable, Cron, CronError, TableTime};
//!
//! fn main() -> Result<(), CronError> {
//!     let job: Cron = "0 9 * * MON-FRI".parse()?;
//!     let paris = ClockTable::of_posix("CET-1CEST,M3.5.0,M10.5.0/3", 0, 4_102_444_799)?;
//!     let start = TableTime::new(&paris, 1_720_216_800)?;
//!     let run = job.find_next_occurrence(&start, false)?;
//!     assert_eq!(run.to_string(), "2024-07-08T09:00:00+02:00");
//!     Ok(())
//! }
//! ```

mod clock;
mod cron;
mod error;
pub mod parser;
mod raw;

pub use clock::{ClockTable, TableTime};
pub use cron::{Cron, CronIterator, Direction, Language};
pub use error::{CronError, Kind, PatternFault, Unit};
pub use parser::CronParser;

/// The version of the linked library: 0x010000 is 1.0.0.
pub fn library_version() -> u32 {
    // SAFETY: the function takes nothing.
    unsafe { raw::croner_version() }
}
