//! Whether a log is fair, by a reading of its own: what the proofs say of every log of the pool, computed from one.

use crate::log::Mark;
use std::collections::{BTreeMap, HashMap, HashSet};

/// Why a mark may not follow those before it.
#[derive(Clone, Copy, Debug, PartialEq, Eq)]
pub struct Unfair {
    /// The mark's place in the log.
    pub at: usize,
    /// The rule that it breaks.
    pub rule: &'static str,
}

impl std::fmt::Display for Unfair {
    fn fmt(&self, f: &mut std::fmt::Formatter<'_>) -> std::fmt::Result {
        write!(f, "mark {}: {}", self.at, self.rule)
    }
}

impl std::error::Error for Unfair {}

struct Ticket {
    client: u32,
    left: bool,
}

// What the marks so far come to.
#[derive(Default)]
struct View {
    tickets: BTreeMap<u64, Ticket>,
    owners: HashMap<u64, u32>,
    idle: Vec<u64>,
    // Neither idle nor owned: taken, or just opened.
    between: HashSet<u64>,
    leaked: usize,
    next_ticket: u64,
    next_conn: u64,
    shut: bool,
}

impl View {
    fn gone(&self) -> usize {
        self.tickets.values().filter(|ticket| ticket.left).count()
    }

    fn waiting(&self) -> usize {
        self.tickets.len() - self.gone()
    }

    // The free permits.
    fn free(&self, max: usize) -> usize {
        max.saturating_sub(self.owners.len() + self.leaked + self.gone())
    }

    fn before(&self, ticket: u64) -> usize {
        self.tickets
            .range(..ticket)
            .filter(|(_, before)| !before.left)
            .count()
    }

    fn open(&self) -> usize {
        self.owners.len() + self.idle.len() + self.between.len() + self.leaked
    }

    fn take_idle(&mut self, conn: u64) -> bool {
        let found = self.idle.iter().position(|other| *other == conn);
        found.map(|at| self.idle.remove(at)).is_some()
    }

    // The mark, and the one behind it: the rule that it breaks.
    fn add(&mut self, max: usize, mark: Mark, next: Option<Mark>) -> Result<(), &'static str> {
        let rule = |holds: bool, rule| if holds { Ok(()) } else { Err(rule) };
        let closes = matches!(
            mark,
            Mark::Closed { .. } | Mark::Ended { .. } | Mark::Detached { .. } | Mark::Leaked { .. }
        );
        rule(!self.shut || closes, "a pool that is closed serves nobody")?;
        match mark {
            Mark::Asked { ticket, client, .. } => {
                rule(
                    ticket >= self.next_ticket,
                    "a ticket has a number of its own",
                )?;
                self.next_ticket = ticket + 1;
                self.tickets.insert(
                    ticket,
                    Ticket {
                        client,
                        left: false,
                    },
                );
            }
            Mark::Left { ticket } => {
                let waits = self.tickets.get(&ticket).is_some_and(|ticket| !ticket.left);
                rule(waits, "who leaves the line stood in it")?;
                rule(
                    self.before(ticket) < self.free(max),
                    "turns come in the order of asking",
                )?;
                self.tickets
                    .entry(ticket)
                    .and_modify(|ticket| ticket.left = true);
            }
            Mark::Taken { conn } => {
                rule(
                    self.idle.first() == Some(&conn),
                    "the first idle connection is taken",
                )?;
                self.take_idle(conn);
                self.between.insert(conn);
            }
            Mark::Reaped { conn } => rule(self.take_idle(conn), "an idle connection is reaped")?,
            Mark::Opened { conn, .. } => {
                rule(
                    conn >= self.next_conn,
                    "a connection has a number of its own",
                )?;
                self.next_conn = conn + 1;
                self.between.insert(conn);
            }
            Mark::Lent { client, conn } => {
                rule(self.between.remove(&conn), "a connection has one owner")?;
                let serves = match next {
                    Some(Mark::Ended { ticket }) => self
                        .tickets
                        .get(&ticket)
                        .is_some_and(|ticket| ticket.left && ticket.client == client),
                    _ => false,
                };
                rule(
                    serves || self.waiting() < self.free(max),
                    "who has no ticket passes no one whose turn it is",
                )?;
                self.owners.insert(conn, client);
            }
            Mark::Kept { conn, .. } => {
                let had = self.owners.remove(&conn).is_some() || self.between.remove(&conn);
                rule(had, "a connection that is kept was out or is new")?;
                self.idle.push(conn);
            }
            Mark::Closed { conn } => {
                let had = self.owners.remove(&conn).is_some()
                    || self.between.remove(&conn)
                    || self.take_idle(conn);
                rule(had, "a connection that is closed was open")?;
            }
            Mark::Detached { conn } => rule(
                self.owners.remove(&conn).is_some(),
                "what is detached has an owner",
            )?,
            Mark::Leaked { conn } => {
                rule(
                    self.owners.remove(&conn).is_some(),
                    "what is leaked has an owner",
                )?;
                self.leaked += 1;
            }
            Mark::Ended { ticket } => {
                rule(self.tickets.remove(&ticket).is_some(), "a ticket ends once")?
            }
            Mark::Shut => self.shut = true,
        }
        rule(self.open() <= max, "there are never more than the maximum")
    }
}

/// Whether a log is fair, in a pool of this maximum: each connection has one owner, there are never more than the maximum,
/// turns come in the order of asking. The proved pool's own log always is; this reads one without its help.
///
/// ```
/// use zangipuk::{Mark, audit};
///
/// let lent = Mark::Lent { client: 1, conn: 1 };
/// let log = [Mark::Opened { conn: 1, moment: 0 }, lent];
/// assert!(audit(1, &log).is_ok());
/// assert_eq!(audit(1, &[log[0], lent, lent]).unwrap_err().at, 2);
/// ```
pub fn audit(max: u32, log: &[Mark]) -> Result<(), Unfair> {
    let mut view = View::default();
    for (at, mark) in log.iter().enumerate() {
        let next = log.get(at + 1).copied();
        view.add(max as usize, *mark, next)
            .map_err(|rule| Unfair { at, rule })?;
    }
    Ok(())
}
