//! What a program may have done to connections on their way.

use crate::Manager;
use std::time::Duration;

/// What a hook is told of a connection.
#[derive(Clone, Copy, Debug, PartialEq, Eq)]
pub struct Metadata {
    /// Since its opening.
    pub age: Duration,
    /// How long it was idle; none but before it is lent.
    pub idle_for: Duration,
}

type Conn<M> = <M as Manager>::Connection;
type SetUp<M> = dyn Fn(&mut Conn<M>) -> Result<(), <M as Manager>::Error> + Send + Sync;
type Look<M> = dyn Fn(&mut Conn<M>, Metadata) -> Result<bool, <M as Manager>::Error> + Send + Sync;

pub(crate) struct Hooks<M: Manager> {
    pub(crate) after_connect: Option<Box<SetUp<M>>>,
    pub(crate) before_acquire: Option<Box<Look<M>>>,
    pub(crate) after_release: Option<Box<Look<M>>>,
}

impl<M: Manager> Default for Hooks<M> {
    fn default() -> Self {
        Hooks {
            after_connect: None,
            before_acquire: None,
            after_release: None,
        }
    }
}

// A hook that isn't there says yes; one that fails says no.
pub(crate) fn says_yes<M: Manager>(
    hook: &Option<Box<Look<M>>>,
    conn: &mut Conn<M>,
    meta: Metadata,
) -> bool {
    match hook {
        Some(hook) => hook(conn, meta).unwrap_or(false),
        None => true,
    }
}
