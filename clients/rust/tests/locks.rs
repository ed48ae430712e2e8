//! Threads that sleep. Each test waits for a state, never for a time.
use pashkure::{Config, Key, LockAllError, LockError, Locks, OpenError, Owned, Seen, Status, Transaction, View, Wait};
use std::future::Future;
use std::pin::Pin;
use std::sync::atomic::{AtomicU32, Ordering::Relaxed};
use std::sync::mpsc::{channel, Receiver};
use std::sync::Arc;
use std::task::{Context, Poll};
use std::thread;
use std::time::Duration;

const LONG: Duration = Duration::MAX;
const SHORT: Duration = Duration::from_millis(1);

/// Locks for eight transactions and 32 names of up to eight bytes.
fn opened() -> Locks {
    Locks::open(&Config::new(8, 32).name_bytes(8)).unwrap()
}

/// A transaction that owns this name.
fn owner<'l>(locks: &'l Locks, name: &str) -> Transaction<&'l Locks> {
    let mut transaction = locks.begin().unwrap();
    assert_eq!(transaction.lock(name.as_bytes()), Ok(Owned::New));
    transaction
}

/// What `lock_all` gives if these were the answers before the name that failed.
fn failed(owned: &[Owned], error: LockError) -> Result<Vec<Owned>, LockAllError> {
    Err(LockAllError { owned: owned.to_vec(), error })
}

fn live(view: &View<'_>) -> usize {
    view.transactions().count()
}

/// Returns once the transaction waits.
fn until_waits(locks: &Locks, key: Key) {
    while !matches!(locks.view(|view| view.status(key)), Some(Status::Waiting { .. })) {
        thread::yield_now();
    }
}

#[test]
fn a_drop_rolls_back() {
    let locks = opened();
    let (first, mut second) = (owner(&locks, "x"), locks.begin().unwrap());
    let key = second.key();
    thread::scope(|scope| {
        scope.spawn(move || {
            assert_eq!(second.lock(b"x"), Ok(Owned::New));
            second.commit().unwrap();
        });
        until_waits(&locks, key);
        drop(first);
    });
    assert_eq!(locks.view(|view| view.owner(b"x")), None);
    assert_eq!(locks.view(live), 0);
}

fn wait(key: Key, name: &str, holder: Key) -> Wait {
    Wait { key, name: name.into(), holder }
}

#[test]
fn a_deadlock_is_told_with_its_cycle() {
    let locks = opened();
    let (mut first, mut second) = (owner(&locks, "x"), owner(&locks, "y"));
    let (one, two) = (first.key(), second.key());
    assert_eq!(first.cycle(), []);
    thread::scope(|scope| {
        scope.spawn(move || assert_eq!(second.lock(b"x"), Ok(Owned::New)));
        until_waits(&locks, two);
        assert_eq!(first.lock(b"y"), Err(LockError::Deadlock));
        assert_eq!(first.cycle(), [wait(one, "y", two), wait(two, "x", one)]);
        assert_eq!(locks.view(|view| (view.status(one), view.waits_from(two))), (Some(Status::Active), vec![wait(two, "x", one)]));
        assert_eq!(first.lock(b"z"), Ok(Owned::New)); // it goes on
        assert_eq!(first.try_lock(b"y"), Ok(None));
        assert_eq!(first.lock_all(&["z", "y"]), failed(&[Owned::Before], LockError::Deadlock)); // again, since it gave nothing back
        assert_eq!(first.cycle().len(), 2);
        assert_eq!(first.commit(), Ok(()));
    });
    let totals = locks.view(|view| view.totals());
    assert_eq!((totals.deadlocks, totals.committed, totals.aborted), (2, 1, 1));
}

#[test]
fn both_of_a_deadlock_commit_by_a_savepoint() {
    let locks = opened();
    let (mut first, mut second) = (owner(&locks, "x"), owner(&locks, "y"));
    let two = second.key();
    assert_eq!(first.lock("z"), Ok(Owned::New)); // behind its savepoint
    thread::scope(|scope| {
        scope.spawn(move || {
            assert_eq!(second.lock("z"), Ok(Owned::New));
            second.commit().unwrap();
        });
        until_waits(&locks, two);
        assert_eq!(first.lock("y"), Err(LockError::Deadlock));
        first.unlock("z").unwrap();
        assert_eq!(first.lock_all(&["x", "y", "z"]), Ok(vec![Owned::Before, Owned::New, Owned::New]));
        first.commit().unwrap();
    });
    let totals = locks.view(|view| view.totals());
    assert_eq!((totals.deadlocks, totals.committed, totals.aborted), (1, 2, 0));
}

#[test]
fn a_wait_for_one_that_was_told_of_a_deadlock_times_out() {
    let locks = opened();
    let (mut first, mut second, mut third) = (owner(&locks, "x"), owner(&locks, "y"), locks.begin().unwrap());
    assert_eq!(second.ask("x", |told| assert_eq!(told, Ok(()))), Ok(None));
    assert_eq!(first.lock("y"), Err(LockError::Deadlock));
    assert_eq!(third.lock_for("x", SHORT), Err(LockError::TimedOut));
    assert_eq!(third.lock_for("y", SHORT), Err(LockError::TimedOut));
    first.roll_back();
    assert_eq!(second.lock("x"), Ok(Owned::Before));
}

#[test]
fn a_time_out_takes_nothing_away() {
    let locks = opened();
    let (first, mut second) = (owner(&locks, "x"), owner(&locks, "y"));
    assert_eq!(second.lock_for(b"x", SHORT), Err(LockError::TimedOut));
    assert_eq!(second.lock_for(b"x", Duration::ZERO), Err(LockError::TimedOut));
    assert_eq!(second.lock_for(b"y", SHORT), Ok(Owned::Before));
    drop(first);
    assert_eq!(second.lock_for(b"x", LONG), Ok(Owned::New));
    second.commit().unwrap();
}

#[test]
fn an_interrupt_ends_a_wait_or_the_next_request() {
    let locks = opened();
    let (_first, mut second) = (owner(&locks, "x"), owner(&locks, "y"));
    let key = second.key();
    thread::scope(|scope| {
        scope.spawn(move || {
            assert_eq!(second.lock(b"x"), Err(LockError::Interrupted));
            assert_eq!(second.lock(b"y"), Ok(Owned::Before)); // once, and it goes on
            second.commit().unwrap();
        });
        until_waits(&locks, key);
        assert!(locks.interrupt(key));
    });
    assert!(!locks.interrupt(key)); // it has ended
    let mut third = locks.begin().unwrap();
    assert!(locks.interrupt(third.key()));
    assert_eq!(third.lock_all(&["z"]), failed(&[], LockError::Interrupted));
    assert_eq!(third.lock_all(&["z"]), Ok(vec![Owned::New]));
}

#[test]
fn try_lock_never_waits() {
    let locks = opened();
    let (first, mut second) = (owner(&locks, "x"), locks.begin().unwrap());
    assert_eq!(second.try_lock(b"x"), Ok(None));
    drop(first);
    assert_eq!(second.try_lock(b"x"), Ok(Some(Owned::New)));
    assert_eq!(second.try_lock(b"x"), Ok(Some(Owned::Before)));
    assert_eq!(second.unlock(b"x"), Ok(()));
    assert_eq!(locks.view(|view| view.owner(b"x")), None);
}

#[test]
fn several_names_are_locked_in_their_order() {
    let locks = opened();
    let mut transaction = locks.begin().unwrap();
    let names: Vec<String> = (0..20).map(|number| format!("n{number}")).collect();
    transaction.lock_all(&names).unwrap();
    assert!(names.iter().all(|name| locks.view(|view| view.owner(name.as_bytes())) == Some(transaction.key())));
    assert_eq!(transaction.lock_all(&["n3", "a", "", "b"]), failed(&[Owned::Before, Owned::New], LockError::NameEmpty));
    assert_eq!(locks.view(|view| view.owner(b"a")), Some(transaction.key()));
    assert_eq!(locks.view(|view| view.owner(b"b")), None);
    let many: Vec<&[u8]> = (0..18).map(|number| if number == 17 { &b"too long for it"[..] } else { b"a" }).collect();
    assert_eq!(transaction.lock_all(&many), failed(&[Owned::Before; 17], LockError::NameTooLong));
    let mut other = locks.begin().unwrap();
    assert_eq!(other.lock_all_for(&["c", "a", "d"], SHORT), failed(&[Owned::New], LockError::TimedOut));
    assert_eq!(other.lock_all_for(&["c", "d"], Duration::ZERO), Ok(vec![Owned::Before, Owned::New]));
}

/// A request for a name, to be awaited.
struct Asks<'t, 'l> {
    transaction: &'t mut Transaction<&'l Locks>,
    name: &'static str,
    told: Option<Receiver<Result<(), LockError>>>,
}

impl Future for Asks<'_, '_> {
    type Output = Result<(), LockError>;

    fn poll(mut self: Pin<&mut Self>, context: &mut Context<'_>) -> Poll<Self::Output> {
        if let Some(told) = &self.told {
            return told.try_recv().map_or(Poll::Pending, Poll::Ready);
        }
        let (passes_on, told) = channel();
        let waker = context.waker().clone();
        let name = self.name;
        let wake = move |result| passes_on.send(result).map(|()| waker.wake()).unwrap();
        match self.transaction.ask(name, wake) {
            Ok(None) => self.told = Some(told),
            answer => return Poll::Ready(answer.map(|_| ())),
        }
        self.poll(context)
    }
}

/// Counts how often it was woken.
struct Woken(AtomicU32);

impl std::task::Wake for Woken {
    fn wake(self: Arc<Self>) {
        self.0.fetch_add(1, Relaxed);
    }
}

#[test]
fn a_future_is_woken_once() {
    let locks = opened();
    let (first, mut second) = (owner(&locks, "x"), locks.begin().unwrap());
    let woken = Arc::new(Woken(AtomicU32::new(0)));
    let waker = Arc::clone(&woken).into();
    let mut context = Context::from_waker(&waker);
    let mut asks = Asks { transaction: &mut second, name: "x", told: None };
    assert!(Pin::new(&mut asks).poll(&mut context).is_pending());
    assert_eq!(asks.transaction.lock("y"), Err(LockError::Waiting));
    assert_eq!(asks.transaction.unlock("x"), Err(LockError::Waiting));
    assert_eq!(woken.0.load(Relaxed), 0);
    drop(first);
    assert_eq!(woken.0.load(Relaxed), 1);
    assert_eq!(Pin::new(&mut asks).poll(&mut context), Poll::Ready(Ok(())));
    assert_eq!(second.ask("x", |_| unreachable!()), Ok(Some(Owned::Before)));
    second.commit().unwrap();
}

#[test]
fn who_is_dropped_while_it_waits_is_rolled_back() {
    let locks = opened();
    let (first, mut second, mut third) = (owner(&locks, "x"), owner(&locks, "y"), owner(&locks, "z"));
    assert_eq!(second.ask("x", |_| unreachable!()), Ok(None));
    drop(second); // and nobody is told
    assert_eq!(third.ask("x", |_| unreachable!()), Ok(None));
    assert_eq!(third.commit(), Err(LockError::Waiting));
    assert_eq!(locks.view(|view| (live(view), view.owner("y"), view.owner("z"))), (1, None, None));
    first.commit().unwrap();
}

#[test]
fn an_interrupt_is_told_by_the_call() {
    let locks = opened();
    let (_first, mut second) = (owner(&locks, "x"), locks.begin().unwrap());
    let (passes_on, told) = channel();
    assert_eq!(second.ask("x", move |result| passes_on.send(result).unwrap()), Ok(None));
    assert!(locks.interrupt(second.key()));
    assert_eq!(told.try_recv(), Ok(Err(LockError::Interrupted)));
    assert_eq!(second.lock("y"), Ok(Owned::New));
}

#[test]
fn a_bulk_is_refused_and_its_neighbour_goes_on() {
    let locks = Locks::open(&Config::new(2, 64).names_each(4).buckets(8)).unwrap();
    let (mut bulk, mut other) = (locks.begin().unwrap(), locks.begin().unwrap());
    let refused = (0..21).map(|number| bulk.lock(format!("{number}"))).find_map(Result::err);
    assert_eq!(refused, Some(LockError::TooManyNames)); // after 4 to 20 names, by how many of them share a bucket
    assert_eq!(other.lock("other"), Ok(Owned::New));
}

#[test]
fn wrong_use_is_an_error() {
    let locks = Locks::open(&Config::new(2, 1).name_bytes(8).buckets(8).seed(7)).unwrap();
    let (mut transaction, mut other) = (owner(&locks, "x"), owner(&locks, "y"));
    assert_eq!(other.try_lock(b"x"), Ok(None)); // so the manager has x, and no room
    assert_eq!(locks.begin().unwrap_err(), LockError::TransactionsFull);
    assert_eq!(transaction.lock(b""), Err(LockError::NameEmpty));
    for number in 0..64 { // some of these are beside y, which the manager has no room for
        assert_eq!(transaction.lock(format!("too long {number}").as_bytes()), Err(LockError::NameTooLong));
    }
    assert_eq!(transaction.lock(b"y"), Err(LockError::NamesFull));
    assert_eq!(transaction.unlock(b"y"), Err(LockError::NotOwner));
    assert_eq!(transaction.lock(b"x"), Ok(Owned::Before)); // and none of these has changed anything
    assert_eq!(LockError::NotOwner.to_string(), "the transaction does not own the name");
    let refused = |config| Locks::open(&config).unwrap_err();
    assert_eq!(refused(Config::new(0, 1)), OpenError::Transactions);
    assert_eq!(refused(Config::new(1, 16_777_217)), OpenError::Names);
    assert_eq!(refused(Config::new(1, 1).name_bytes(0)), OpenError::NameBytes);
    assert_eq!(refused(Config::new(1, 1).buckets(16_777_217)), OpenError::Buckets);
}

#[test]
fn a_view_is_one_moment() {
    let locks = opened();
    let (first, mut second) = (owner(&locks, "x"), owner(&locks, "y"));
    let (one, two) = (first.key(), second.key());
    thread::scope(|scope| {
        scope.spawn(move || second.lock(b"x").unwrap());
        until_waits(&locks, two);
        locks.view(|view| {
            let seen: Vec<Seen> = view.transactions().collect();
            assert_eq!(seen[0], Seen { key: one, status: Status::Active });
            assert_eq!((seen.len(), seen[1].key), (2, two));
            assert!(matches!(seen[1].status, Status::Waiting { number, holder }
                if holder == one && view.name(number) == Some(b"x".to_vec())));
            let mut owned: Vec<_> = view.locks().collect();
            owned.sort();
            assert_eq!(owned, [(b"x".to_vec(), one), (b"y".to_vec(), two)]);
            assert_eq!((view.totals().begun, view.totals().waits), (2, 1));
        });
        first.roll_back();
    });
    assert_eq!(locks.view(|view| view.status(one)), None);
}

#[test]
fn a_session_takes_its_transaction_along() {
    let locks = Arc::new(opened());
    let mut transaction = locks.begin_owned().unwrap();
    transaction.lock(b"x").unwrap();
    let key = transaction.key();
    drop(locks);
    thread::spawn(move || {
        assert_eq!(transaction.key(), key);
        transaction.commit().unwrap(); // and the memory is given back
    })
    .join()
    .unwrap();
}

#[derive(Debug, PartialEq)]
enum Failed {
    Lock(LockError),
    Otherwise,
}

impl From<LockError> for Failed {
    fn from(error: LockError) -> Failed {
        Failed::Lock(error)
    }
}

/// Runs work that comes to be in a deadlock at its first attempt. Returns what that gives, how many attempts there were, and how many commits.
fn run_with_a_deadlock(attempts: u32) -> (Result<u32, Failed>, u32, u64) {
    let locks = opened();
    let mut other = Some(owner(&locks, "y"));
    let mut count = 0;
    let result = thread::scope(|scope| {
        locks.run(attempts, |transaction| {
            count += 1;
            transaction.lock(b"x")?;
            if let Some(mut other) = other.take() {
                let key = other.key();
                scope.spawn(move || other.lock(b"x").unwrap());
                until_waits(&locks, key);
            }
            transaction.lock(b"y")?;
            Ok(7)
        })
    });
    assert_eq!(locks.view(live), 0);
    (result, count, locks.view(|view| view.totals().committed))
}

#[test]
fn run_tries_again_after_a_deadlock() {
    assert_eq!(run_with_a_deadlock(2), (Ok(7), 2, 1));
    assert_eq!(run_with_a_deadlock(1), (Err(Failed::Lock(LockError::Deadlock)), 1, 0));
}

#[test]
fn run_commits_what_went_back_to_a_savepoint() {
    let locks = opened();
    let mut other = Some(owner(&locks, "y"));
    let result = thread::scope(|scope| {
        locks.run(1, |transaction| {
            transaction.lock_all(&["w", "x"])?;
            let mut other = other.take().unwrap();
            let key = other.key();
            scope.spawn(move || other.lock("x").unwrap());
            until_waits(&locks, key);
            assert_eq!(transaction.lock("y"), Err(LockError::Deadlock));
            transaction.unlock("x")?;
            transaction.lock("y").map(|_| transaction.key())
        })
    });
    assert!(result.is_ok());
    let totals = locks.view(|view| view.totals());
    assert_eq!((totals.deadlocks, totals.committed, totals.aborted), (1, 1, 1));
}

#[test]
fn run_does_not_try_again_after_another_error() {
    let locks = opened();
    let (mut first, mut other, mut count) = (locks.begin().unwrap(), owner(&locks, "y"), 0);
    assert_eq!(first.lock("z"), Ok(Owned::New));
    let result = locks.run(9, |transaction| {
        count += 1;
        transaction.lock("x")?;
        assert_eq!(other.ask("x", |told| assert_eq!(told, Ok(()))), Ok(None));
        assert_eq!(transaction.lock("y"), Err(LockError::Deadlock));
        transaction.unlock("x")?;
        transaction.lock_for("z", SHORT)
    });
    assert_eq!((result, count), (Err(LockError::TimedOut), 1));
}

#[test]
fn run_rolls_back_after_an_error() {
    let locks = opened();
    let result = locks.run(9, |transaction| {
        transaction.lock(b"x")?;
        Err::<(), _>(Failed::Otherwise)
    });
    assert_eq!(result, Err(Failed::Otherwise));
    assert_eq!(locks.view(|view| (view.owner(b"x"), view.totals().begun)), (None, 1));
}
