//! The connections that the pool keeps, each under its token. A connection has one token from its opening to its end, and
//! lies in its slot while nobody has it.

pub(crate) struct Slots<C> {
    slots: Vec<Option<C>>,
    free: Vec<u64>,
    kept: usize,
}

impl<C> Slots<C> {
    pub(crate) fn new() -> Self {
        Slots {
            slots: Vec::new(),
            free: Vec::new(),
            kept: 0,
        }
    }

    /// A token for a connection that was opened.
    pub(crate) fn open(&mut self) -> u64 {
        self.free.pop().unwrap_or_else(|| {
            self.slots.push(None);
            self.slots.len() as u64 - 1
        })
    }

    /// Puts a connection into its slot.
    #[inline]
    pub(crate) fn put(&mut self, token: u64, conn: C) {
        self.slots[token as usize] = Some(conn);
        self.kept += 1;
    }

    /// Takes a connection out of its slot. That it is there is the proved code's word; a wrong token panics.
    #[inline]
    pub(crate) fn take(&mut self, token: u64) -> C {
        self.kept -= 1;
        self.slots[token as usize]
            .take()
            .expect("a token that the pool keeps")
    }

    /// How many connections lie in their slots.
    #[inline]
    pub(crate) fn kept(&self) -> usize {
        self.kept
    }

    /// How many connections are open.
    #[inline]
    pub(crate) fn opened(&self) -> usize {
        self.slots.len() - self.free.len()
    }

    /// The connection of this token is out of the pool for good.
    pub(crate) fn close(&mut self, token: u64) {
        self.free.push(token);
    }
}
