//! Why there is no connection.

use std::fmt;

/// Why there is no connection. `E` is the manager's error.
#[derive(Clone, Debug, PartialEq, Eq)]
#[non_exhaustive]
pub enum Error<E> {
    /// The time was up; with the last refusal of a connect, if there was one.
    TimedOut(Option<E>),
    /// The pool is closed.
    Closed,
    /// A connect was refused for a cause that doesn't pass.
    Refused(E),
    /// All of the 2^63 numbers of tickets or of connections were used.
    Exhausted,
    /// Memory was wanting.
    OutOfMemory,
}

impl<E: fmt::Display> fmt::Display for Error<E> {
    fn fmt(&self, f: &mut fmt::Formatter<'_>) -> fmt::Result {
        match self {
            Error::TimedOut(None) => f.write_str("timed out waiting for a connection"),
            Error::TimedOut(Some(last)) => write!(f, "timed out waiting for a connection: {last}"),
            Error::Closed => f.write_str("the pool is closed"),
            Error::Refused(why) => write!(f, "the connection was refused: {why}"),
            Error::Exhausted => f.write_str("the pool's numbers are used up"),
            Error::OutOfMemory => f.write_str("out of memory"),
        }
    }
}

impl<E: std::error::Error + 'static> std::error::Error for Error<E> {
    fn source(&self) -> Option<&(dyn std::error::Error + 'static)> {
        match self {
            Error::TimedOut(Some(why)) | Error::Refused(why) => Some(why),
            _ => None,
        }
    }
}
