//! What the statuses of calls mean to a caller.

use std::fmt::Display;

use crate::sys::Status;
use crate::{
    AllocError, Allocation, AtlasGrowFault, CacheRestoreFault, JsonFault, OptionsFault, RestoreFault, UnknownId,
};

impl OptionsFault {
    /// Why a handle wasn't filled.
    pub(crate) fn of_status(status: Status) -> Self {
        match Self::of_number(status.fault()) {
            Some(fault) => fault,
            None => status.unexpected(),
        }
    }
}

/// What was allocated, or none where there was no room.
pub fn room(answer: Result<Allocation, Status>) -> Result<Option<Allocation>, AllocError> {
    match answer {
        Ok(allocation) => Ok(Some(allocation)),
        Err(Status::NO_ROOM) => Ok(None),
        Err(Status::MEMORY) => Err(AllocError),
        Err(status) => status.unexpected(),
    }
}

/// What a call gave that fails for memory alone.
pub fn with_memory<T>(answer: Result<T, Status>) -> Result<T, AllocError> {
    match answer {
        Ok(value) => Ok(value),
        Err(Status::MEMORY) => Err(AllocError),
        Err(status) => status.unexpected(),
    }
}

/// What a grow of an atlas of shelves gave.
pub fn grown(answer: Result<(), Status>) -> Result<(), AtlasGrowFault> {
    answer.map_err(|status| match AtlasGrowFault::of_number(status.fault()) {
        Some(fault) => fault,
        None => status.unexpected(),
    })
}

/// Why a text wasn't restored.
pub fn restore_refused(status: Status) -> JsonFault {
    match status {
        Status::UNREADABLE => JsonFault::Unreadable,
        Status::MEMORY => JsonFault::Refused(RestoreFault::Memory),
        other => match RestoreFault::of_number(other.fault()) {
            Some(fault) => JsonFault::Refused(fault),
            None => other.unexpected(),
        },
    }
}

/// Why a text wasn't restored as a cache.
pub fn cache_restore_refused(status: Status) -> JsonFault<CacheRestoreFault> {
    if status == Status::UNREADABLE {
        return JsonFault::Unreadable;
    }
    match CacheRestoreFault::of_number(status.fault()) {
        Some(fault) => JsonFault::Refused(fault),
        None => status.unexpected(),
    }
}

/// What a call on an id gave.
pub fn known<T>(answer: Result<T, Status>) -> Result<T, UnknownId> {
    match answer {
        Ok(value) => Ok(value),
        Err(Status::UNKNOWN_ID) => Err(UnknownId),
        Err(status) => status.unexpected(),
    }
}

/// What a call gave that the caller expects to give something.
#[track_caller]
pub fn or_panic<T, E: Display>(answer: Result<T, E>) -> T {
    match answer {
        Ok(value) => value,
        Err(fault) => panic!("{fault}"),
    }
}
