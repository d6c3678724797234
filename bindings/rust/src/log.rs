//! What a pool did, mark by mark.

use crate::core::Reply;
use std::fmt;

/// One thing that happened in a pool: the marks of the proved pool's own log. Moments are nanoseconds of the pool's clock.
#[derive(Clone, Copy, Debug, PartialEq, Eq)]
#[non_exhaustive]
#[rustfmt::skip]
pub enum Mark {
    /// A client asked for a connection and got this ticket.
    Asked { /** its number */ ticket: u64, /** who asked */ client: u32, /** when its time is up */ deadline: u64 },
    /// A ticket left the line: it holds a place from now on.
    Left { /** its number */ ticket: u64 },
    /// An idle connection was taken from the idle ones.
    Taken { /** its number */ conn: u64 },
    /// An idle connection was taken out, since it was idle or alive for too long.
    Reaped { /** its number */ conn: u64 },
    /// A connection was opened.
    Opened { /** its number */ conn: u64, /** when */ moment: u64 },
    /// A connection was lent to a client, which owns it from now on.
    Lent { /** the new owner */ client: u32, /** its number */ conn: u64 },
    /// A connection was put last among the idle.
    Kept { /** its number */ conn: u64, /** when */ moment: u64 },
    /// A connection was closed.
    Closed { /** its number */ conn: u64 },
    /// A connection left the pool, and with it its place.
    Detached { /** its number */ conn: u64 },
    /// A connection left the pool for good, which keeps its place.
    Leaked { /** its number */ conn: u64 },
    /// A ticket ended.
    Ended { /** its number */ ticket: u64 },
    /// The pool was closed.
    Shut,
}

impl Mark {
    /// The mark of a reply, as `crates/zangipuk_c/src/marks.rt` numbers them.
    pub(crate) fn of(reply: &Reply) -> Option<Mark> {
        let Reply { id, when, .. } = *reply;
        let client = reply.raw as u32;
        Some(match reply.kind {
            20 => Mark::Asked {
                ticket: id,
                client,
                deadline: when,
            },
            21 => Mark::Left { ticket: id },
            22 => Mark::Taken { conn: id },
            23 => Mark::Reaped { conn: id },
            24 => Mark::Opened {
                conn: id,
                moment: when,
            },
            25 => Mark::Lent { client, conn: id },
            26 => Mark::Kept {
                conn: id,
                moment: when,
            },
            27 => Mark::Closed { conn: id },
            28 => Mark::Detached { conn: id },
            29 => Mark::Leaked { conn: id },
            30 => Mark::Ended { ticket: id },
            31 => Mark::Shut,
            _ => return None,
        })
    }
}

impl fmt::Display for Mark {
    fn fmt(&self, f: &mut fmt::Formatter<'_>) -> fmt::Result {
        match *self {
            Mark::Asked {
                ticket,
                client,
                deadline,
            } => {
                write!(
                    f,
                    "client {client} asked: ticket {ticket}, until {deadline}"
                )
            }
            Mark::Left { ticket } => write!(f, "ticket {ticket} left the line"),
            Mark::Taken { conn } => write!(f, "connection {conn} was taken"),
            Mark::Reaped { conn } => write!(f, "connection {conn} was reaped"),
            Mark::Opened { conn, moment } => write!(f, "connection {conn} was opened at {moment}"),
            Mark::Lent { client, conn } => {
                write!(f, "connection {conn} was lent to client {client}")
            }
            Mark::Kept { conn, moment } => write!(f, "connection {conn} was kept at {moment}"),
            Mark::Closed { conn } => write!(f, "connection {conn} was closed"),
            Mark::Detached { conn } => write!(f, "connection {conn} was detached"),
            Mark::Leaked { conn } => write!(f, "connection {conn} was leaked"),
            Mark::Ended { ticket } => write!(f, "ticket {ticket} ended"),
            Mark::Shut => f.write_str("the pool was closed"),
        }
    }
}
