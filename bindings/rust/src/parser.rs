//! Settings of a pattern.

use crate::{raw, Cron, CronError};

/// Whether a pattern may, must or can't begin with a second.
#[derive(Clone, Copy, Debug, Default, PartialEq, Eq, Hash)]
pub enum Seconds {
    #[default]
    Optional,
    Required,
    Disallowed,
}

/// Whether a pattern may, must or can't end with a year.
#[derive(Clone, Copy, Debug, Default, PartialEq, Eq, Hash)]
pub enum Year {
    #[default]
    Optional,
    Required,
    Disallowed,
}

/// A reader of patterns.
#[derive(Clone, Copy, Debug, Default, PartialEq, Eq, Hash)]
pub struct CronParser {
    settings: u32,
}

impl CronParser {
    /// One with the default settings.
    pub fn new() -> CronParser {
        CronParser::default()
    }

    /// One whose settings are still to be chosen.
    pub fn builder() -> CronParserBuilder {
        CronParserBuilder::default()
    }

    /// Reads a pattern.
    pub fn parse(&self, pattern: &str) -> Result<Cron, CronError> {
        raw::explained(pattern, self.settings)?;
        Ok(Cron::read(pattern, self.settings))
    }
}

/// The settings of a reader of patterns.
#[derive(Clone, Copy, Debug, Default, PartialEq, Eq, Hash)]
pub struct CronParserBuilder {
    seconds: Seconds,
    year: Year,
    dom_and_dow: bool,
    alternative_weekdays: bool,
    sloppy_ranges: bool,
}

impl CronParserBuilder {
    /// Whether a pattern may, must or can't begin with a second.
    pub fn seconds(mut self, seconds: Seconds) -> CronParserBuilder {
        self.seconds = seconds;
        self
    }

    /// Whether a pattern may, must or can't end with a year.
    pub fn year(mut self, year: Year) -> CronParserBuilder {
        self.year = year;
        self
    }

    /// Whether a day has to fit both day fields.
    pub fn dom_and_dow(mut self, both: bool) -> CronParserBuilder {
        self.dom_and_dow = both;
        self
    }

    /// Whether weekdays are 1 for Sunday to 7, as in Quartz.
    pub fn alternative_weekdays(mut self, quartz: bool) -> CronParserBuilder {
        self.alternative_weekdays = quartz;
        self
    }

    /// Whether a step may follow a number or nothing, as in `5/10`.
    pub fn sloppy_ranges(mut self, sloppy: bool) -> CronParserBuilder {
        self.sloppy_ranges = sloppy;
        self
    }

    /// The reader.
    pub fn build(self) -> CronParser {
        let seconds = match self.seconds {
            Seconds::Optional => 0,
            Seconds::Required => 1,
            Seconds::Disallowed => 2,
        };
        let year = match self.year {
            Year::Optional => 0,
            Year::Required => 4,
            Year::Disallowed => 8,
        };
        let flags = 16 * u32::from(self.dom_and_dow)
            + 32 * u32::from(self.alternative_weekdays)
            + 64 * u32::from(self.sloppy_ranges);
        CronParser {
            settings: seconds + year + flags,
        }
    }
}
