//! A pool of SQLite connections, lent to eight threads, each of which writes rows in transactions.
//!
//! `cargo run --release --example sqlite --features sqlite`; it links the system's `libsqlite3`.

mod sqlite;

use sqlite::Connection;
use std::path::PathBuf;
use std::time::Instant;
use zangipuk::{Manager, Pool};

struct Sqlite {
    path: PathBuf,
}

impl Manager for Sqlite {
    type Connection = Connection;
    type Error = sqlite::Error;

    fn connect(&self) -> Result<Connection, sqlite::Error> {
        let conn = Connection::open(&self.path)?;
        conn.execute("PRAGMA journal_mode = WAL")?;
        conn.execute("PRAGMA synchronous = NORMAL")?;
        Ok(conn)
    }

    fn is_valid(&self, conn: &mut Connection) -> Result<(), sqlite::Error> {
        conn.execute("SELECT 1")
    }

    fn is_in_transaction(&self, conn: &mut Connection) -> bool {
        conn.is_in_transaction()
    }

    fn roll_back(&self, conn: &mut Connection) {
        let _ = conn.execute("ROLLBACK");
    }
}

const THREADS: i64 = 8;
const EACH: i64 = 250;

fn add(conn: &Connection, thread: i64, n: i64) -> Result<(), sqlite::Error> {
    conn.execute("BEGIN IMMEDIATE")?;
    conn.execute(&format!("INSERT INTO notes VALUES ({thread}, {n})"))?;
    conn.execute("COMMIT")
}

fn main() -> Result<(), Box<dyn std::error::Error>> {
    let path = std::env::temp_dir().join(format!("zangipuk-{}.db", std::process::id()));
    let pool = Pool::builder()
        .max(3)
        .build(Sqlite { path: path.clone() })?;
    pool.get()?
        .execute("CREATE TABLE notes (thread INTEGER, n INTEGER)")?;

    // A transaction that is open when its connection goes back is rolled back.
    let left = pool.get()?;
    left.execute("BEGIN")?;
    left.execute("INSERT INTO notes VALUES (-1, -1)")?;
    drop(left);
    assert!(!pool.get()?.is_in_transaction());

    let began = Instant::now();
    std::thread::scope(|scope| {
        for thread in 0..THREADS {
            let pool = &pool;
            scope.spawn(move || {
                for n in 0..EACH {
                    let conn = pool.get().expect("a connection");
                    add(&conn, thread, n).expect("a row");
                }
            });
        }
    });
    let took = began.elapsed();
    let rows = pool.get()?.number("SELECT count(*) FROM notes")?;
    assert_eq!(rows, THREADS * EACH);
    println!(
        "{rows} rows by {THREADS} threads in {} ms: {:?}",
        took.as_millis(),
        pool.stats()
    );
    pool.close();
    for end in ["", "-wal", "-shm"] {
        let _ = std::fs::remove_file(format!("{}{end}", path.display()));
    }
    Ok(())
}
