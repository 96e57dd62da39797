//! Clocks of zones, and times on them.

use crate::{raw, CronError};
use std::cmp::Ordering;
use std::fmt;
use std::fs;
use std::hash::{Hash, Hasher};
use std::path::{Component, Path};
use std::time::{Duration, SystemTime, UNIX_EPOCH};

const FOLDERS: [&str; 2] = ["/usr/share/zoneinfo", "/etc/zoneinfo"];
const SECONDS_PER_DAY: i64 = 86_400;
const MOST_FILE_BYTES: usize = 1_000_000;
const MOST_RULE_BYTES: usize = 1_000;

/// The clock of a zone in a window, as a table of its changes. A search whose start or run lies outside the window is
/// refused. Each call reads the table, so a window of some years is faster than one of centuries.
#[derive(Clone, Debug, PartialEq, Eq, Hash)]
pub struct ClockTable {
    first: i64,
    last: i64,
    ahead: i32,
    changes: Vec<raw::Change>,
}

impl ClockTable {
    /// The clock of UTC.
    pub fn utc() -> ClockTable {
        ClockTable {
            first: raw::FIRST_SECOND,
            last: raw::LAST_SECOND,
            ahead: 0,
            changes: Vec::new(),
        }
    }

    /// A clock that is always so many seconds ahead of UTC.
    pub fn fixed(ahead: i32) -> Result<ClockTable, CronError> {
        ClockTable::new(ahead, &[], raw::FIRST_SECOND, raw::LAST_SECOND)
    }

    /// A clock that is so many seconds ahead of UTC, and from each change's second on as many as it says. It is right from a
    /// first second to a last one; its changes should reach two days beyond these.
    pub fn new(ahead: i32, changes: &[(i64, i32)], first: i64, last: i64) -> Result<ClockTable, CronError> {
        let changes = changes
            .iter()
            .map(|&(second, ahead)| raw::Change {
                second,
                ahead,
                reserved: 0,
            })
            .collect();
        let table = ClockTable {
            first,
            last,
            ahead,
            changes,
        };
        let mut found = 0;
        // SAFETY: the pointers are of a text, a clock and a number that live through the call.
        raw::done(unsafe { raw::croner_matches("* * * * *".as_ptr().cast(), 9, 0, &table.raw(), first, &mut found) })?;
        Ok(table)
    }

    /// The clock of a zone of the machine's database, such as `Europe/Paris`, from a first second to a last one.
    pub fn of_zone(name: &str, first: i64, last: i64) -> Result<ClockTable, CronError> {
        let path = Path::new(name);
        if name.is_empty() || !path.components().all(|it| matches!(it, Component::Normal(_))) {
            return Err(CronError::InvalidZone);
        }
        let file = FOLDERS
            .iter()
            .map(|it| Path::new(it).join(path))
            .find(|it| it.is_file());
        let bytes = file.and_then(|it| fs::read(it).ok()).ok_or(CronError::InvalidZone)?;
        ClockTable::of_tzif(&bytes, first, last)
    }

    /// The clock of a time zone file (TZif), from a first second to a last one.
    pub fn of_tzif(bytes: &[u8], first: i64, last: i64) -> Result<ClockTable, CronError> {
        if bytes.len() > MOST_FILE_BYTES {
            return Err(CronError::InvalidZone);
        }
        // SAFETY: the pointer and the length are of bytes that live through the call; the others are `listed`'s.
        listed(first, last, |changes, room, ahead, count| unsafe {
            raw::croner_clock_of_tzif(bytes.as_ptr(), bytes.len(), first, last, changes, room, ahead, count)
        })
    }

    /// The clock of a POSIX rule, such as `CET-1CEST,M3.5.0,M10.5.0/3`, from a first second to a last one.
    pub fn of_posix(rule: &str, first: i64, last: i64) -> Result<ClockTable, CronError> {
        if rule.len() > MOST_RULE_BYTES {
            return Err(CronError::InvalidZone);
        }
        // SAFETY: as in `of_tzif`.
        listed(first, last, |changes, room, ahead, count| unsafe {
            raw::croner_clock_of_posix(
                rule.as_ptr().cast(),
                rule.len(),
                first,
                last,
                changes,
                room,
                ahead,
                count,
            )
        })
    }

    /// The first and the last second for which the clock is right.
    pub fn window(&self) -> (i64, i64) {
        (self.first, self.last)
    }

    /// How far the clock is ahead of UTC before its first change, in seconds.
    pub fn first_offset(&self) -> i32 {
        self.ahead
    }

    /// When the clock changes, and how far it is ahead from then on.
    pub fn changes(&self) -> impl Iterator<Item = (i64, i32)> + '_ {
        self.changes.iter().map(|it| (it.second, it.ahead))
    }

    /// How far the clock is ahead of UTC at a second.
    pub fn offset_at(&self, second: i64) -> i32 {
        match self.changes.partition_point(|it| it.second <= second) {
            0 => self.ahead,
            count => self.changes[count - 1].ahead,
        }
    }

    pub(crate) fn raw(&self) -> raw::Clock {
        raw::Clock {
            size: std::mem::size_of::<raw::Clock>(),
            first: self.first,
            last: self.last,
            changes: self.changes.as_ptr(),
            count: self.changes.len(),
            ahead: self.ahead,
            reserved: 0,
        }
    }
}

// The table of a call that lists changes, which is made again where there was no room for all.
fn listed(
    first: i64,
    last: i64,
    mut call: impl FnMut(*mut raw::Change, usize, *mut i32, *mut usize) -> i32,
) -> Result<ClockTable, CronError> {
    let mut changes = vec![raw::Change::default(); 64];
    loop {
        let (mut ahead, mut count) = (0, 0);
        let status = call(changes.as_mut_ptr(), changes.len(), &mut ahead, &mut count);
        if status == raw::TOO_SMALL && count > changes.len() {
            changes.resize(count, raw::Change::default());
            continue;
        }
        raw::done(status)?;
        changes.truncate(count);
        return Ok(ClockTable {
            first,
            last,
            ahead,
            changes,
        });
    }
}

/// A second on the clock of a table. It is shown as `2024-07-08T09:00:00+02:00`; times are equal, and ordered, by their
/// seconds.
#[derive(Clone, Copy)]
pub struct TableTime<'t> {
    table: &'t ClockTable,
    second: i64,
}

impl<'t> TableTime<'t> {
    /// The time at a second since 1970-01-01T00:00:00 UTC.
    pub fn new(table: &'t ClockTable, second: i64) -> Result<TableTime<'t>, CronError> {
        if (raw::FIRST_SECOND..=raw::LAST_SECOND).contains(&second) {
            Ok(TableTime { table, second })
        } else {
            Err(CronError::InvalidTime)
        }
    }

    /// The time by the machine's clock, in whole seconds.
    pub fn now(table: &'t ClockTable) -> Result<TableTime<'t>, CronError> {
        TableTime::of_system(table, SystemTime::now())
    }

    /// The whole second of a time of the machine's clock.
    pub fn of_system(table: &'t ClockTable, time: SystemTime) -> Result<TableTime<'t>, CronError> {
        let second = match time.duration_since(UNIX_EPOCH) {
            Ok(since) => i64::try_from(since.as_secs()).ok(),
            Err(before) => {
                let until = before.duration();
                i64::try_from(until.as_secs())
                    .ok()
                    .map(|it| -it - i64::from(until.subsec_nanos() > 0))
            }
        };
        TableTime::new(table, second.ok_or(CronError::InvalidTime)?)
    }

    pub(crate) fn at(&self, second: i64) -> TableTime<'t> {
        TableTime {
            table: self.table,
            second,
        }
    }

    /// The second since 1970-01-01T00:00:00 UTC.
    pub fn second(&self) -> i64 {
        self.second
    }

    /// The table of its clock.
    pub fn table(&self) -> &'t ClockTable {
        self.table
    }

    /// How far its clock is ahead of UTC then, in seconds.
    pub fn offset(&self) -> i32 {
        self.table.offset_at(self.second)
    }

    /// What its clock shows: year, month, day, hour, minute, second.
    pub fn civil(&self) -> (i64, u32, u32, u32, u32, u32) {
        let shown = self.second + i64::from(self.offset());
        let (year, month, day) = date_of(shown.div_euclid(SECONDS_PER_DAY));
        let rest = shown.rem_euclid(SECONDS_PER_DAY) as u32;
        (year, month, day, rest / 3600, rest / 60 % 60, rest % 60)
    }

    /// The time of the machine's clock.
    pub fn to_system(&self) -> Option<SystemTime> {
        let since = Duration::from_secs(self.second.unsigned_abs());
        if self.second < 0 {
            UNIX_EPOCH.checked_sub(since)
        } else {
            UNIX_EPOCH.checked_add(since)
        }
    }
}

// The date of a day, counted from 1970-01-01: years begin with March here, so that a leap day is their last.
fn date_of(day: i64) -> (i64, u32, u32) {
    let from_march = day + 719_468;
    let (era, rest) = (from_march.div_euclid(146_097), from_march.rem_euclid(146_097));
    let year = (rest - rest / 1_460 + rest / 36_524 - rest / 146_096) / 365;
    let of_year = rest - (365 * year + year / 4 - year / 100);
    let from_march = (5 * of_year + 2) / 153;
    let day = of_year - (153 * from_march + 2) / 5 + 1;
    let month = if from_march < 10 {
        from_march + 3
    } else {
        from_march - 9
    };
    (year + era * 400 + i64::from(month <= 2), month as u32, day as u32)
}

impl fmt::Display for TableTime<'_> {
    fn fmt(&self, f: &mut fmt::Formatter<'_>) -> fmt::Result {
        let (year, month, day, hour, minute, second) = self.civil();
        let before = if year < 0 { "-" } else { "" };
        let year = year.abs();
        let sign = if self.offset() < 0 { '-' } else { '+' };
        let ahead = self.offset().unsigned_abs();
        write!(
            f,
            "{before}{year:04}-{month:02}-{day:02}T{hour:02}:{minute:02}:{second:02}{sign}{:02}:{:02}",
            ahead / 3600,
            ahead / 60 % 60
        )?;
        if ahead % 60 > 0 {
            write!(f, ":{:02}", ahead % 60)?;
        }
        Ok(())
    }
}

impl fmt::Debug for TableTime<'_> {
    fn fmt(&self, f: &mut fmt::Formatter<'_>) -> fmt::Result {
        write!(f, "TableTime({self})")
    }
}

impl PartialEq for TableTime<'_> {
    fn eq(&self, other: &Self) -> bool {
        self.second == other.second
    }
}

impl Eq for TableTime<'_> {}

impl PartialOrd for TableTime<'_> {
    fn partial_cmp(&self, other: &Self) -> Option<Ordering> {
        Some(self.cmp(other))
    }
}

impl Ord for TableTime<'_> {
    fn cmp(&self, other: &Self) -> Ordering {
        self.second.cmp(&other.second)
    }
}

impl Hash for TableTime<'_> {
    fn hash<H: Hasher>(&self, state: &mut H) {
        self.second.hash(state);
    }
}
