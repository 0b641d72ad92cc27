//! Why a call is refused.

use crate::raw;
use std::fmt;

/// Why a call is refused.
#[derive(Clone, Debug, PartialEq, Eq)]
#[non_exhaustive]
pub enum Error {
    /// The line has none of the forms; what it prints.
    BadLine(String),
    /// A text is no JSON, or of another form than the call has.
    BadText,
    /// A layer refuses: a path, a tree, a query, a message of the server, a push id, or the core.
    Refused {
        /// `tree`, `query`, `wire`, `push` or `core`.
        layer: String,
        /// The name of the refusal, within its layer.
        name: String,
        /// Its number, within its layer.
        code: u32,
    },
    /// The client has no such seat.
    WrongSeat,
    /// More than 64.
    TooManySeats,
    /// Memory lacked: a core or a client may answer nothing else from then on.
    NoMemory,
    /// The client has lacked memory before, and answers nothing else.
    Failed,
    /// The call ended with a status that it does not have.
    Unknown(u32),
}

impl fmt::Display for Error {
    fn fmt(&self, out: &mut fmt::Formatter<'_>) -> fmt::Result {
        match self {
            Error::BadLine(printed) => out.write_str(printed.trim_end()),
            Error::BadText => out.write_str("a text is no JSON, or of another form"),
            Error::Refused { layer, name, code } => write!(out, "{layer} {code} {name}"),
            Error::WrongSeat => out.write_str("the client has no such seat"),
            Error::TooManySeats => out.write_str("more than 64 seats"),
            Error::NoMemory => out.write_str("memory lacked"),
            Error::Failed => out.write_str("the client has lacked memory before"),
            Error::Unknown(status) => write!(out, "the call ended with {status}"),
        }
    }
}

impl std::error::Error for Error {}

/// The error of a status that is not done, and needs no look at the client.
pub(crate) fn error_of(status: u32) -> Error {
    match status {
        raw::NO_MEMORY => Error::NoMemory,
        raw::FAILED => Error::Failed,
        raw::BAD_TEXT => Error::BadText,
        raw::WRONG_SEAT => Error::WrongSeat,
        raw::TOO_MANY_SEATS => Error::TooManySeats,
        other => Error::Unknown(other),
    }
}
