//! A manager written for r2d2 on this pool. The trait stands in here for r2d2's crate, which this one doesn't need.

mod r2d2 {
    pub(crate) trait ManageConnection: Send + Sync + 'static {
        type Connection: Send + 'static;
        type Error: std::error::Error + 'static;
        fn connect(&self) -> Result<Self::Connection, Self::Error>;
        fn is_valid(&self, conn: &mut Self::Connection) -> Result<(), Self::Error>;
        fn has_broken(&self, conn: &mut Self::Connection) -> bool;
    }
}

/// Any manager of r2d2's, and what it doesn't tell: whether a connection has a transaction open.
struct OfR2d2<M, T>(M, T);

impl<M, T> zangipuk::Manager for OfR2d2<M, T>
where
    M: r2d2::ManageConnection<Error: Send>,
    T: Fn(&mut M::Connection) -> bool + Send + Sync + 'static,
{
    type Connection = M::Connection;
    type Error = M::Error;

    fn connect(&self) -> Result<M::Connection, M::Error> {
        self.0.connect()
    }

    fn is_valid(&self, conn: &mut M::Connection) -> Result<(), M::Error> {
        self.0.is_valid(conn)
    }

    fn has_broken(&self, conn: &mut M::Connection) -> bool {
        self.0.has_broken(conn)
    }

    fn is_in_transaction(&self, conn: &mut M::Connection) -> bool {
        self.1(conn)
    }
}

// What somebody has: numbers for connections.
struct Numbers(std::sync::atomic::AtomicU32);

impl r2d2::ManageConnection for Numbers {
    type Connection = u32;
    type Error = std::convert::Infallible;

    fn connect(&self) -> Result<u32, Self::Error> {
        Ok(self.0.fetch_add(1, std::sync::atomic::Ordering::SeqCst))
    }

    fn is_valid(&self, _: &mut u32) -> Result<(), Self::Error> {
        Ok(())
    }

    fn has_broken(&self, _: &mut u32) -> bool {
        false
    }
}

fn main() {
    let manager = OfR2d2(Numbers(0.into()), |_: &mut u32| false);
    let pool = zangipuk::Pool::builder().max(2).build(manager).unwrap();
    std::thread::scope(|scope| {
        for _ in 0..8 {
            scope.spawn(|| {
                for _ in 0..1000 {
                    let number = pool.get().unwrap();
                    assert!(*number < 2);
                }
            });
        }
    });
    println!("{:?}", pool.stats());
}
