//! What `pashkure.h` and `pashkure_threads.h` declare, as far as this crate uses it.
use crate::Key;
use std::os::raw::{c_char, c_void};

/// The version of the headers of which these are the declarations.
pub const VERSION: u32 = 2000;

/// A time without an end.
pub const FOREVER: i64 = i64::MAX;

pub const OK: u32 = 0;
pub const HELD: u32 = 1;
pub const WAITS: u32 = 2;
pub const DEADLOCK: u32 = 3;
pub const BUSY: u32 = 4;
pub const NOT_ASKED: u32 = 11;

#[derive(Debug)]
#[repr(C)]
pub struct Manager {
    pub manager: *mut c_void,
    pub state: u64,
}

#[repr(C)]
pub struct Config {
    pub header: u32,
    pub transactions: u32,
    pub names: u32,
    pub name_bytes: u32,
    pub seed: u64,
    pub buckets: u32,
    pub names_each: u32,
}

#[derive(Default)]
#[repr(C)]
pub struct Wake {
    pub key: Key,
    pub number: u32,
}

#[derive(Default)]
#[repr(C)]
pub struct Seen {
    pub key: Key,
    pub holder: Key,
    pub number: u32,
}

#[derive(Default)]
#[repr(C)]
pub struct Counts {
    pub begun: u64,
    pub committed: u64,
    pub aborted: u64,
    pub deadlocks: u64,
    pub waits: u64,
    pub withdrawn: u64,
    pub events: u64,
    pub reserved: u64,
}

#[derive(Clone, Copy)]
#[repr(C)]
pub struct Wait {
    pub key: Key,
    pub holder: Key,
    pub name: *const c_void,
    pub length: usize,
}

#[derive(Clone, Copy)]
#[repr(C)]
pub struct Request {
    pub name: *const c_void,
    pub length: usize,
    pub result: u32,
}

#[derive(Debug)]
#[repr(C)]
pub struct Locks {
    hidden: [u8; 0],
}

pub type WakeCall = extern "C" fn(context: *mut c_void, key: Key, result: u32);

extern "C" {
    pub fn pashkure_message(result: u32) -> *const c_char;
    pub fn pashkure_open(locks: *mut Manager, config: *const Config) -> u32;
    pub fn pashkure_close(locks: *mut Manager);
    pub fn pashkure_begin(locks: *mut Manager, key: *mut Key) -> u32;
    pub fn pashkure_lock(locks: *mut Manager, key: Key, name: *const c_void, length: usize) -> u32;
    pub fn pashkure_try_lock(locks: *mut Manager, key: Key, name: *const c_void, length: usize) -> u32;
    pub fn pashkure_unlock(locks: *mut Manager, key: Key, name: *const c_void, length: usize) -> u32;
    pub fn pashkure_commit(locks: *mut Manager, key: Key) -> u32;
    pub fn pashkure_abort(locks: *mut Manager, key: Key) -> u32;
    pub fn pashkure_cancel(locks: *mut Manager, key: Key) -> u32;
    pub fn pashkure_woken(locks: *const Manager, index: usize, woken: *mut Wake) -> bool;
    pub fn pashkure_look(locks: *const Manager, slot: u32, seen: *mut Seen) -> u32;
    pub fn pashkure_name(locks: *const Manager, number: u32, bytes: *mut c_void, room: usize, length: *mut usize, owner: *mut Key) -> u32;
    pub fn pashkure_owner(locks: *const Manager, name: *const c_void, length: usize, owner: *mut Key) -> u32;
    pub fn pashkure_totals(locks: *const Manager, counts: *mut Counts);

    pub fn pashkure_locks_open(locks: *mut *mut Locks, config: *const Config) -> u32;
    pub fn pashkure_locks_close(locks: *mut Locks) -> u32;
    pub fn pashkure_locks_begin(locks: *mut Locks, key: *mut Key) -> u32;
    pub fn pashkure_locks_lock(locks: *mut Locks, key: Key, name: *const c_void, length: usize, nanoseconds: i64) -> u32;
    pub fn pashkure_locks_lock_all(locks: *mut Locks, key: Key, requests: *mut Request, count: usize, nanoseconds: i64) -> u32;
    pub fn pashkure_locks_ask(locks: *mut Locks, key: Key, name: *const c_void, length: usize, wake: WakeCall, context: *mut c_void) -> u32;
    pub fn pashkure_locks_interrupt(locks: *mut Locks, key: Key) -> u32;
    pub fn pashkure_locks_unlock(locks: *mut Locks, key: Key, name: *const c_void, length: usize) -> u32;
    pub fn pashkure_locks_commit(locks: *mut Locks, key: Key) -> u32;
    pub fn pashkure_locks_abort(locks: *mut Locks, key: Key) -> u32;
    pub fn pashkure_locks_cycle(locks: *mut Locks, key: Key, waits: *mut Wait, room: usize) -> usize;
    pub fn pashkure_locks_hold_all(locks: *mut Locks) -> u32;
    pub fn pashkure_locks_let_go(locks: *mut Locks);
    pub fn pashkure_locks_look(locks: *mut Locks, slot: u32, seen: *mut Seen) -> u32;
    pub fn pashkure_locks_name(locks: *mut Locks, number: u32, bytes: *mut c_void, room: usize, length: *mut usize, owner: *mut Key) -> u32;
    pub fn pashkure_locks_owner(locks: *mut Locks, name: *const c_void, length: usize, owner: *mut Key) -> u32;
    pub fn pashkure_locks_totals(locks: *mut Locks, counts: *mut Counts);
}
