//! What a pool asks of the database.

/// How connections are opened and looked at. The pool calls it with its lock free, from any thread.
pub trait Manager: Send + Sync + 'static {
    /// A connection; dropped, it is closed.
    type Connection: Send + 'static;
    /// Why a connect or a test was refused.
    type Error: std::error::Error + Send + 'static;

    /// Opens a connection. In r2d2: `connect`.
    fn connect(&self) -> Result<Self::Connection, Self::Error>;

    /// Whether an idle connection still works: asked before each loan, unless the builder says otherwise. In r2d2:
    /// `is_valid`.
    fn is_valid(&self, conn: &mut Self::Connection) -> Result<(), Self::Error>;

    /// Whether a connection that comes back has a transaction open. One that has goes to nobody: see
    /// [`roll_back`](Manager::roll_back). Asked at each return, so it should be fast.
    fn is_in_transaction(&self, conn: &mut Self::Connection) -> bool;

    /// Ends the transaction of a connection that comes back with one. The connection is kept where no transaction is
    /// open then, and else closed; so a manager that can't roll back does nothing, as here.
    fn roll_back(&self, _conn: &mut Self::Connection) {}

    /// Whether a connection that comes back is known to be broken, and is to be closed. Asked at each return, so it
    /// should be fast. In r2d2: `has_broken`.
    fn has_broken(&self, _conn: &mut Self::Connection) -> bool {
        false
    }

    /// Whether a refused connect may pass: then it is tried again, until the time is up.
    fn is_transient(&self, _error: &Self::Error) -> bool {
        true
    }
}
