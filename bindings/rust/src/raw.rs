//! The C library's functions, structs and numbers. croner.h says what each of them is.

use crate::{CronError, Kind, PatternFault, Unit};
use std::os::raw::c_char;

pub const OK: i32 = 0;
pub const REFUSED: i32 = 1;
pub const LIMIT: i32 = 2;
pub const OUT_OF_MEMORY: i32 = 3;
pub const OUTSIDE: i32 = 4;
pub const NOT_CALM: i32 = 5;
pub const BAD_ZONE: i32 = 6;
pub const TOO_SMALL: i32 = 7;

pub const FIRST_SECOND: i64 = -377_610_508_800;
pub const LAST_SECOND: i64 = 253_307_692_799;

#[repr(C)]
#[derive(Clone, Copy, Debug, Default, PartialEq, Eq, Hash)]
pub struct Change {
    pub second: i64,
    pub ahead: i32,
    pub reserved: i32,
}

#[repr(C)]
pub struct Clock {
    pub size: usize,
    pub first: i64,
    pub last: i64,
    pub changes: *const Change,
    pub count: usize,
    pub ahead: i32,
    pub reserved: i32,
}

#[repr(C)]
pub struct Fault {
    pub size: usize,
    pub begin: usize,
    pub end: usize,
    pub character: usize,
    pub field: i32,
    pub kind: i32,
}

// `extern "C"`, and not `unsafe extern "C"`, which Rust 1.63 doesn't know.
extern "C" {
    pub fn croner_version() -> u32;
    pub fn croner_clock_of_tzif(
        bytes: *const u8,
        length: usize,
        first: i64,
        last: i64,
        changes: *mut Change,
        room: usize,
        ahead: *mut i32,
        count: *mut usize,
    ) -> i32;
    pub fn croner_clock_of_posix(
        rule: *const c_char,
        length: usize,
        first: i64,
        last: i64,
        changes: *mut Change,
        room: usize,
        ahead: *mut i32,
        count: *mut usize,
    ) -> i32;
    pub fn croner_next(
        text: *const c_char,
        length: usize,
        settings: u32,
        clock: *const Clock,
        start: i64,
        inclusive: i32,
        run: *mut i64,
    ) -> i32;
    pub fn croner_previous(
        text: *const c_char,
        length: usize,
        settings: u32,
        clock: *const Clock,
        start: i64,
        inclusive: i32,
        run: *mut i64,
    ) -> i32;
    pub fn croner_runs(
        text: *const c_char,
        length: usize,
        settings: u32,
        clock: *const Clock,
        start: i64,
        inclusive: i32,
        until: i64,
        runs: *mut i64,
        room: usize,
        count: *mut usize,
    ) -> i32;
    pub fn croner_matches(
        text: *const c_char,
        length: usize,
        settings: u32,
        clock: *const Clock,
        second: i64,
        is_match: *mut i32,
    ) -> i32;
    pub fn croner_describe(
        text: *const c_char,
        length: usize,
        settings: u32,
        form: u32,
        words: *mut u8,
        room: usize,
        words_length: *mut usize,
    ) -> i32;
    pub fn croner_explain(
        text: *const c_char,
        length: usize,
        settings: u32,
        fault: *mut Fault,
        message: *mut u8,
        room: usize,
        message_length: *mut usize,
    ) -> i32;
}

/// The error of a status that isn't `OK`.
pub fn error_of(status: i32) -> CronError {
    match status {
        LIMIT => CronError::TimeSearchLimitExceeded,
        OUT_OF_MEMORY => CronError::OutOfMemory,
        OUTSIDE => CronError::OutsideWindow,
        NOT_CALM => CronError::NotCalm,
        BAD_ZONE => CronError::InvalidZone,
        _ => CronError::InvalidTime,
    }
}

/// A status as a result.
pub fn done(status: i32) -> Result<(), CronError> {
    if status == OK {
        Ok(())
    } else {
        Err(error_of(status))
    }
}

/// The text that a call writes, which is handed a buffer, its length and where to put the text's length; with the call's status.
pub fn text_of(mut call: impl FnMut(*mut u8, usize, *mut usize) -> i32) -> (i32, String) {
    let mut written = vec![0; 512];
    loop {
        let mut length = 0;
        let status = call(written.as_mut_ptr(), written.len(), &mut length);
        if length <= written.len() {
            written.truncate(length);
            return (status, String::from_utf8_lossy(&written).into_owned());
        }
        written.resize(length, 0);
    }
}

/// Why a text is refused; `Ok` where it is accepted.
pub fn explained(text: &str, settings: u32) -> Result<(), CronError> {
    let mut fault = Fault {
        size: std::mem::size_of::<Fault>(),
        begin: 0,
        end: 0,
        character: 0,
        field: -1,
        kind: 0,
    };
    // SAFETY: the pointers are of a text, a struct and a buffer that live through the call, with their lengths.
    let (status, message) = text_of(|words, room, length| unsafe {
        croner_explain(
            text.as_ptr().cast(),
            text.len(),
            settings,
            &mut fault,
            words,
            room,
            length,
        )
    });
    if status != REFUSED {
        return done(status);
    }
    Err(CronError::InvalidPattern(PatternFault {
        begin: fault.begin,
        end: fault.end,
        character: fault.character,
        field: Unit::of_number(fault.field),
        kind: Kind::of_number(fault.kind),
        message,
    }))
}
