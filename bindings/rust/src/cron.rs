//! Patterns and their runs.

use crate::parser::CronParser;
use crate::{raw, CronError, TableTime};
use std::fmt;
use std::iter::FusedIterator;
use std::str::FromStr;

/// How many runs a call lists.
const CHUNK: usize = 64;

/// The direction of a list.
#[derive(Clone, Copy, Debug, PartialEq, Eq, Hash)]
pub enum Direction {
    Forward,
    Backward,
}

/// A language of descriptions.
#[derive(Clone, Copy, Debug, PartialEq, Eq, Hash)]
#[non_exhaustive]
pub enum Language {
    English,
    Swedish,
}

/// A pattern. Two are equal, and ordered, by their texts and settings.
#[derive(Clone, Debug, PartialEq, Eq, Hash, PartialOrd, Ord)]
pub struct Cron {
    text: String,
    settings: u32,
}

impl FromStr for Cron {
    type Err = CronError;

    /// Reads a pattern with the default settings.
    fn from_str(pattern: &str) -> Result<Cron, CronError> {
        CronParser::new().parse(pattern)
    }
}

impl fmt::Display for Cron {
    fn fmt(&self, f: &mut fmt::Formatter<'_>) -> fmt::Result {
        f.write_str(&self.text)
    }
}

impl Cron {
    pub(crate) fn read(text: &str, settings: u32) -> Cron {
        Cron {
            text: text.to_owned(),
            settings,
        }
    }

    /// The text as it was read.
    pub fn as_str(&self) -> &str {
        &self.text
    }

    /// The next run after a time, or with `inclusive` at it.
    pub fn find_next_occurrence<'t>(&self, start: &TableTime<'t>, inclusive: bool) -> Result<TableTime<'t>, CronError> {
        self.found(start, inclusive, raw::croner_next)
    }

    /// The last run before a time, or with `inclusive` at it.
    pub fn find_previous_occurrence<'t>(
        &self,
        start: &TableTime<'t>,
        inclusive: bool,
    ) -> Result<TableTime<'t>, CronError> {
        self.found(start, inclusive, raw::croner_previous)
    }

    fn found<'t>(&self, start: &TableTime<'t>, inclusive: bool, search: Search) -> Result<TableTime<'t>, CronError> {
        let (clock, text) = (start.table().raw(), self.text.as_ptr().cast());
        let mut run = 0;
        // SAFETY: the pointers are of a text with its length, a clock and a number, all of which live through the call.
        let status = unsafe {
            search(
                text,
                self.text.len(),
                self.settings,
                &clock,
                start.second(),
                i32::from(inclusive),
                &mut run,
            )
        };
        raw::done(status)?;
        Ok(start.at(run))
    }

    /// Whether the pattern names the second that the clock shows at a time.
    pub fn is_time_matching(&self, time: &TableTime<'_>) -> Result<bool, CronError> {
        let (clock, text) = (time.table().raw(), self.text.as_ptr().cast());
        let mut found = 0;
        // SAFETY: as in `found`.
        let status =
            unsafe { raw::croner_matches(text, self.text.len(), self.settings, &clock, time.second(), &mut found) };
        raw::done(status)?;
        Ok(found == 1)
    }

    /// The runs from a time on, in a direction; the time itself may be one.
    pub fn iter_from<'c, 't>(&'c self, start: TableTime<'t>, direction: Direction) -> CronIterator<'c, 't> {
        CronIterator::new(self, start, true, direction)
    }

    /// The runs after a time.
    pub fn iter_after<'c, 't>(&'c self, start: TableTime<'t>) -> CronIterator<'c, 't> {
        CronIterator::new(self, start, false, Direction::Forward)
    }

    /// The runs before a time, the last one first.
    pub fn iter_before<'c, 't>(&'c self, start: TableTime<'t>) -> CronIterator<'c, 't> {
        CronIterator::new(self, start, false, Direction::Backward)
    }

    /// croner's own description, in English.
    pub fn describe(&self) -> Result<String, CronError> {
        self.describe_lang(Language::English)
    }

    /// croner's own description.
    pub fn describe_lang(&self, language: Language) -> Result<String, CronError> {
        self.said(match language {
            Language::English => 0,
            Language::Swedish => 1,
        })
    }

    /// A shorter text that says exactly what the pattern schedules.
    pub fn summary(&self, language: Language) -> Result<String, CronError> {
        self.said(match language {
            Language::English => 2,
            Language::Swedish => 3,
        })
    }

    fn said(&self, form: u32) -> Result<String, CronError> {
        let (text, length) = (self.text.as_ptr().cast(), self.text.len());
        // SAFETY: the pointers are of a text and a buffer with their lengths, and of a number, all of which live through the call.
        let (status, words) = raw::text_of(|words, room, words_length| unsafe {
            raw::croner_describe(text, length, self.settings, form, words, room, words_length)
        });
        raw::done(status)?;
        Ok(words)
    }

    // Lists runs into an array: how many, and the status.
    fn list(&self, start: &TableTime<'_>, inclusive: bool, runs: &mut [i64; CHUNK]) -> (usize, i32) {
        let (clock, text) = (start.table().raw(), self.text.as_ptr().cast());
        let mut count = 0;
        // SAFETY: as in `found`, and the array has its length.
        let status = unsafe {
            raw::croner_runs(
                text,
                self.text.len(),
                self.settings,
                &clock,
                start.second(),
                i32::from(inclusive),
                i64::MAX,
                runs.as_mut_ptr(),
                CHUNK,
                &mut count,
            )
        };
        (count, status)
    }
}

// A search of the C library.
type Search =
    unsafe extern "C" fn(*const std::os::raw::c_char, usize, u32, *const raw::Clock, i64, i32, *mut i64) -> i32;

/// The runs of a pattern, one after the other. Once it has given None it gives nothing more, and `fault` says why.
#[derive(Clone)]
pub struct CronIterator<'c, 't> {
    cron: &'c Cron,
    time: TableTime<'t>,
    inclusive: bool,
    direction: Direction,
    runs: [i64; CHUNK],
    next: usize,
    count: usize,
    end: Option<CronError>,
}

impl<'c, 't> CronIterator<'c, 't> {
    fn new(cron: &'c Cron, time: TableTime<'t>, inclusive: bool, direction: Direction) -> CronIterator<'c, 't> {
        CronIterator {
            cron,
            time,
            inclusive,
            direction,
            runs: [0; CHUNK],
            next: 0,
            count: 0,
            end: None,
        }
    }

    /// Why it gave None; None itself before that, or where no run is left.
    pub fn fault(&self) -> Option<&CronError> {
        match &self.end {
            Some(CronError::TimeSearchLimitExceeded) => None,
            _ if self.next < self.count => None,
            end => end.as_ref(),
        }
    }

    // Lists further runs, from the last one on.
    fn fill(&mut self) {
        let status;
        self.next = 0;
        (self.count, status) = self.cron.list(&self.time, self.inclusive, &mut self.runs);
        if status != raw::OK {
            self.end = Some(raw::error_of(status));
        }
    }

    fn back(&mut self) -> Option<TableTime<'t>> {
        match self.cron.find_previous_occurrence(&self.time, self.inclusive) {
            Ok(run) => Some(run),
            Err(error) => {
                self.end = Some(error);
                None
            }
        }
    }

    fn forth(&mut self) -> Option<TableTime<'t>> {
        if self.next == self.count && self.end.is_none() {
            self.fill();
        }
        let run = self.runs[..self.count].get(self.next)?;
        self.next += 1;
        Some(self.time.at(*run))
    }
}

impl<'t> Iterator for CronIterator<'_, 't> {
    type Item = TableTime<'t>;

    fn next(&mut self) -> Option<TableTime<'t>> {
        let run = match self.direction {
            Direction::Forward => self.forth()?,
            Direction::Backward if self.end.is_none() => self.back()?,
            Direction::Backward => return None,
        };
        self.time = run;
        self.inclusive = false;
        Some(run)
    }
}

impl FusedIterator for CronIterator<'_, '_> {}

impl fmt::Debug for CronIterator<'_, '_> {
    fn fmt(&self, f: &mut fmt::Formatter<'_>) -> fmt::Result {
        f.debug_struct("CronIterator")
            .field("cron", self.cron)
            .field("time", &self.time)
            .finish_non_exhaustive()
    }
}
