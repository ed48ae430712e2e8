//! Threads that move money between accounts. Each transfer locks two accounts in an order by chance, so there are deadlocks, and the transfer is
//! run again after each. No transfer is half done, so the sum stays what it was.
//!
//!     PASHKURE_LIB_DIR=DIR/lib cargo run --release --example bank
use pashkure::{Config, LockError, Locks};
use std::sync::atomic::{AtomicI64, Ordering::Relaxed};
use std::thread;

const THREADS: u64 = 4;
const TRANSFERS: u32 = 2_000; // of each thread
const ACCOUNTS: usize = 8;
const MONEY: i64 = 1_000; // of each account, at first

struct Account {
    name: String,
    balance: AtomicI64, // read and written only by the transaction that owns the name
}

/// Moves the amount. Both names are locked before anything is written, so that there is nothing to undo after an error.
fn transfer(locks: &Locks, from: &Account, to: &Account, amount: i64) -> Result<(), LockError> {
    locks.run(1_000, |transaction| {
        transaction.lock(&from.name)?;
        transaction.lock(&to.name)?;
        from.balance.store(from.balance.load(Relaxed) - amount, Relaxed);
        to.balance.store(to.balance.load(Relaxed) + amount, Relaxed);
        Ok(())
    })
}

/// Numbers by chance.
struct Random(u64);

impl Random {
    fn below(&mut self, bound: usize) -> usize {
        self.0 = self.0.wrapping_mul(6_364_136_223_846_793_005).wrapping_add(1);
        (self.0 >> 33) as usize % bound
    }
}

fn work(locks: &Locks, accounts: &[Account], seed: u64) -> Result<(), LockError> {
    let mut random = Random(seed);
    for _ in 0..TRANSFERS {
        let (from, to) = (random.below(ACCOUNTS), random.below(ACCOUNTS));
        transfer(locks, &accounts[from], &accounts[to], random.below(100) as i64)?;
    }
    Ok(())
}

fn main() -> Result<(), Box<dyn std::error::Error>> {
    let locks = Locks::open(&Config::new(THREADS as u32, ACCOUNTS as u32))?;
    let account = |number| Account { name: format!("accounts/{number}"), balance: AtomicI64::new(MONEY) };
    let accounts: Vec<Account> = (0..ACCOUNTS).map(account).collect();
    thread::scope(|scope| {
        let start = |seed| {
            let (locks, accounts) = (&locks, &accounts);
            scope.spawn(move || work(locks, accounts, seed))
        };
        let threads: Vec<_> = (1..=THREADS).map(start).collect();
        threads.into_iter().try_for_each(|thread| thread.join().unwrap())
    })?;
    let sum: i64 = accounts.iter().map(|account| account.balance.load(Relaxed)).sum();
    let totals = locks.view(|view| view.totals());
    println!("{} transfers; {} deadlocks, each tried again", totals.committed, totals.deadlocks);
    println!("all accounts together have {sum}");
    Ok(())
}
