//! Why a call was not done.

use std::fmt;

/// Why a call was not done.
#[derive(Clone, Copy, Debug, PartialEq, Eq)]
#[non_exhaustive]
pub enum Error {
    /// There was no memory, or the display has stopped for want of it.
    NoMemory,
    /// There are too many sessions.
    TooManySessions,
    /// The session does not live, or the bytes that it was to send are no message, and have closed it.
    SessionClosed,
    /// The message's tag is in use, which has closed the session.
    TagInUse(u16),
    /// The rectangle has no point, or one that is not the display's.
    BadRectangle,
    /// The bytes are no record, or no event: they go wrong at this byte.
    BadRecord(u64),
    /// The bytes are a later part of a record, which begins with this entry.
    LateRecord(u64),
    /// An event may not come next: so many events of the record were made before it.
    BadEvent(u64),
    /// The history has 2^61 entries, and takes no more.
    HistoryFull,
    /// A side is none from 1 to 2,048.
    BadSize,
    /// These are no channels of a display (image(6)).
    BadChannels,
    /// The buffer has no room for the answer, which has so many bytes.
    TooShort(u64),
    /// The library gave a status that this crate does not know.
    Unknown(u32),
}

impl Error {
    /// The error of a status that is none of an answer.
    pub(crate) fn of(status: u32, number: u64) -> Error {
        match status {
            rio9_sys::RIO9_MEMORY => Error::NoMemory,
            rio9_sys::RIO9_CROWDED => Error::TooManySessions,
            rio9_sys::RIO9_CLOSED => Error::SessionClosed,
            rio9_sys::RIO9_DUPLICATE => Error::TagInUse(number as u16),
            rio9_sys::RIO9_BAD_RECTANGLE => Error::BadRectangle,
            rio9_sys::RIO9_BAD_RECORD => Error::BadRecord(number),
            rio9_sys::RIO9_LATE_RECORD => Error::LateRecord(number),
            rio9_sys::RIO9_BAD_EVENT => Error::BadEvent(number),
            rio9_sys::RIO9_FULL => Error::HistoryFull,
            rio9_sys::RIO9_BAD_SIZE => Error::BadSize,
            rio9_sys::RIO9_BAD_CHANNELS => Error::BadChannels,
            unknown => Error::Unknown(unknown),
        }
    }
}

impl fmt::Display for Error {
    fn fmt(&self, f: &mut fmt::Formatter<'_>) -> fmt::Result {
        match self {
            Error::NoMemory => f.write_str("there was no memory"),
            Error::TooManySessions => f.write_str("the display has too many sessions"),
            Error::SessionClosed => f.write_str("the session is closed"),
            Error::TagInUse(tag) => write!(f, "the tag {tag} is in use, and the session is closed"),
            Error::BadRectangle => f.write_str("the rectangle is empty or not within the display"),
            Error::BadRecord(place) => write!(f, "the bytes are no record from byte {place} on"),
            Error::LateRecord(first) => write!(f, "the record begins with entry {first}"),
            Error::BadEvent(made) => write!(f, "event {} of the record may not come next", made.saturating_add(1)),
            Error::HistoryFull => f.write_str("the history is full"),
            Error::BadSize => f.write_str("a side is none from 1 to 2048"),
            Error::BadChannels => f.write_str("these are no channels of a display"),
            Error::TooShort(length) => write!(f, "the answer has {length} bytes, and no room for them"),
            Error::Unknown(status) => write!(f, "the library gave the status {status}"),
        }
    }
}

impl std::error::Error for Error {}
