//! A manager that answers at once.
use pashkure::{Config, Key, Lock, LockManager, OpenError, Owned, Refusal, Status, Wait, Wake};

fn opened() -> LockManager {
    LockManager::open(&Config::new(3, 3).name_bytes(8).seed(1)).unwrap()
}

/// A transaction that owns this name.
fn owner(manager: &mut LockManager, name: &str) -> Key {
    let key = manager.begin().unwrap();
    assert_eq!(manager.lock(key, name.as_bytes()), Ok(Lock::Owned(Owned::New)));
    key
}

fn number_of(manager: &LockManager, name: &[u8]) -> Option<u32> {
    (0..3).find(|&number| manager.view().name(number).as_deref() == Some(name))
}

#[test]
fn an_end_names_those_that_it_wakes() {
    let mut manager = opened();
    let (one, two) = (owner(&mut manager, "x"), manager.begin().unwrap());
    assert_eq!(manager.lock(two, b"x"), Ok(Lock::Waits));
    let number = number_of(&manager, b"x").unwrap();
    assert_eq!(manager.unlock(one, b"x").unwrap().collect::<Vec<_>>(), [Wake { key: two, number }]);
    assert_eq!(manager.view().owner(b"x"), Some(two));
    assert_eq!(manager.commit(one).unwrap().count(), 0);
    assert_eq!(manager.try_lock(two, b"x"), Ok(Some(Owned::Before)));
    assert_eq!(manager.lock(two, b"x"), Ok(Lock::Owned(Owned::Before)));
}

#[test]
fn a_wait_is_taken_back() {
    let mut manager = opened();
    let (_one, two) = (owner(&mut manager, "x"), manager.begin().unwrap());
    assert_eq!(manager.try_lock(two, b"x"), Ok(None));
    assert_eq!(manager.lock(two, b"x"), Ok(Lock::Waits));
    assert_eq!(manager.cancel(two), Ok(()));
    assert_eq!(manager.view().status(two), Some(Status::Active));
    assert_eq!(manager.cancel(two), Err(Refusal::NotWaiting));
}

#[test]
fn who_is_told_of_a_deadlock_goes_on() {
    let mut manager = opened();
    let (one, two) = (owner(&mut manager, "x"), owner(&mut manager, "y"));
    assert_eq!(manager.lock(one, b"y"), Ok(Lock::Waits));
    assert_eq!(manager.lock(two, b"x"), Ok(Lock::Deadlock));
    let waits = manager.view().waits_from(manager.view().owner(b"x").unwrap());
    assert_eq!(waits, [Wait { key: one, name: b"y".to_vec(), holder: two }]);
    assert_eq!(manager.view().status(two), Some(Status::Active));
    assert_eq!(manager.view().waits_from(two), []);
    assert_eq!(manager.lock(two, b"z"), Ok(Lock::Owned(Owned::New)));
    assert_eq!(manager.lock(two, b"x"), Ok(Lock::Deadlock)); // again, since it gave nothing back
    let number = number_of(&manager, b"y").unwrap();
    assert_eq!(manager.unlock(two, b"y").unwrap().collect::<Vec<_>>(), [Wake { key: one, number }]);
    assert_eq!(manager.lock(two, b"x"), Ok(Lock::Waits));
    assert_eq!(manager.commit(one).unwrap().count(), 1);
    assert_eq!(manager.commit(two).unwrap().count(), 0);
    let totals = manager.view().totals();
    assert_eq!((totals.begun, totals.committed, totals.aborted, totals.deadlocks), (2, 2, 0, 2));
}

#[test]
fn who_waits_is_aborted_at_once() {
    let mut manager = opened();
    let (one, two, three) = (owner(&mut manager, "x"), owner(&mut manager, "y"), manager.begin().unwrap());
    assert_eq!(manager.lock(three, b"x"), Ok(Lock::Waits));
    assert_eq!(manager.lock(one, b"y"), Ok(Lock::Waits));
    assert_eq!(manager.lock(two, b"x"), Ok(Lock::Deadlock));
    let number = number_of(&manager, b"x").unwrap();
    assert_eq!(manager.abort(one).unwrap().collect::<Vec<_>>(), [Wake { key: three, number }]);
    assert_eq!((manager.view().status(one), manager.view().status(three)), (None, Some(Status::Active)));
}

#[test]
fn one_transaction_owns_a_hundred_thousand_names() {
    const MANY: u32 = 100_000;
    let mut manager = LockManager::open(&Config::new(2, MANY).name_bytes(8)).unwrap();
    let (one, two) = (manager.begin().unwrap(), manager.begin().unwrap());
    for name in 0..MANY {
        assert_eq!(manager.lock(one, name.to_le_bytes()), Ok(Lock::Owned(Owned::New)));
    }
    assert_eq!(manager.lock(one, MANY.to_le_bytes()), Err(Refusal::NamesFull));
    assert_eq!(manager.lock(two, 7u32.to_le_bytes()), Ok(Lock::Waits));
    assert_eq!(manager.commit(one).unwrap().map(|wake| wake.key).collect::<Vec<_>>(), [two]);
    assert_eq!(manager.lock(two, MANY.to_le_bytes()), Ok(Lock::Owned(Owned::New)));
}

#[test]
fn a_bulk_is_refused_and_its_neighbour_goes_on() {
    let mut manager = LockManager::open(&Config::new(2, 8).names_each(2)).unwrap();
    let (one, two) = (owner(&mut manager, "x"), owner(&mut manager, "y"));
    assert_eq!(manager.lock(one, b"z"), Ok(Lock::Owned(Owned::New)));
    assert_eq!(manager.lock(one, b"w"), Err(Refusal::TooManyNames));
    assert_eq!(manager.try_lock(one, b"y"), Err(Refusal::TooManyNames));
    assert_eq!(manager.lock(one, b"x"), Ok(Lock::Owned(Owned::Before)));
    assert_eq!(manager.lock(two, b"w"), Ok(Lock::Owned(Owned::New)));
}

#[test]
fn wrong_use_is_an_error() {
    let mut manager = opened();
    let (one, _two) = (owner(&mut manager, "x"), owner(&mut manager, "y"));
    let three = owner(&mut manager, "z");
    assert_eq!(manager.begin(), Err(Refusal::TransactionsFull));
    assert_eq!(manager.lock(one, b""), Err(Refusal::NameEmpty));
    assert_eq!(manager.lock(one, b"123456789"), Err(Refusal::NameTooLong));
    assert_eq!(manager.lock(one, b"w"), Err(Refusal::NamesFull));
    assert_eq!(manager.unlock(one, b"y").unwrap_err(), Refusal::NotOwner);
    assert_eq!(manager.lock(one, b"y"), Ok(Lock::Waits));
    assert_eq!(manager.lock(one, b"z"), Err(Refusal::Waiting));
    assert_eq!(manager.commit(one).unwrap_err(), Refusal::Waiting);
    drop(manager.commit(three).unwrap());
    assert_eq!(manager.begin().unwrap().slot, three.slot);
    assert_eq!(manager.view().status(three), None);
    assert_eq!(manager.abort(three).unwrap_err(), Refusal::NoTransaction);
    assert_eq!(Refusal::NoTransaction as u32, 16);
    assert_eq!(LockManager::open(&Config::new(65_537, 1)).unwrap_err(), OpenError::Transactions);
    assert_eq!(three.to_string(), format!("{}.{}", three.slot, three.generation));
}
