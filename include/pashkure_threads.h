/* pashkure_threads.h - exclusive locks on names for threads that sleep until they own one.               C99, C++98 and later; POSIX threads.
 *
 * A name that nobody else wants is locked by one compare-and-swap, and given back by another: no mutex is taken, and threads that lock different
 * names do not slow each other down. As soon as a second transaction asks for a name, a manager as that of pashkure.h knows its owner and all
 * waits, behind one mutex, until the name is free. So a deadlock is told at once, to the one who closed it. No thread sleeps while it has the
 * mutex. That a transaction owns a name is always the answer of a proved call, and no name has two owners: what a compare-and-swap takes and
 * what the manager grants is proved together. This layer is C, and tested.
 *
 *   THREADS. Any thread may make any call at any time, but for pashkure_locks_close, and for what stands at pashkure_locks_hold. A transaction is
 *   its key and belongs to no thread: to hand over the key is to hand over the transaction. It makes one request at a time: until that has
 *   returned, each other call for it is refused as WAITING, but pashkure_locks_interrupt. Rules 3 and 4 of pashkure.h hold here too. A thread is
 *   not cancelled in a call. A signal ends no sleep. What a transaction wrote before it gave a name back is seen by the one that owns the name
 *   next (it happens before). ThreadSanitizer is told so, name by name. helgrind and DRD know nothing of it, and report what is no race.
 *
 *   MEMORY. pashkure_locks_open takes all of it: that of pashkure_open, 16 bytes a bucket, 12 a name, and some 4,600 bytes a transaction, of which
 *   1,600 are first touched by a deadlock. No other call takes any. A name of more than 63 bytes, a name of a transaction after its sixteenth, and
 *   two names of one bucket are the manager's. Of names that are not, config.buckets bounds how many can be owned at a time; of those that are,
 *   config.names. NAMES_FULL says that the manager has no room for the name that was asked for, or for one that another transaction owns and that
 *   had to come to the manager. config.names_each bounds how many names of the manager a transaction may own when it asks for one more, and
 *   TOO_MANY_NAMES says that it does. Those of its first sixteen that the manager does not know of are not counted: so it may own sixteen more.
 *
 *   DEADLOCKS. A request whose wait would close a cycle of waits is answered DEADLOCK at once, and no other one of the cycle is told. The transaction
 *   does not wait, and goes on with what it owns. Give back what others wait for: undo the work and call pashkure_locks_abort, or undo what came
 *   after a savepoint and unlock what was locked since. Pause for a random time about as long as a transaction takes before you ask again. Who
 *   asks again at once is answered DEADLOCK again, and stops the whole cycle: each of the others waits, at the end, for this very transaction.
 *   Transactions that all lock in one order, such as that of the bytes of names, have no deadlocks. */
#ifndef PASHKURE_THREADS_H
#define PASHKURE_THREADS_H

#include "pashkure.h"

#ifdef __cplusplus
extern "C" {
#endif

typedef struct pashkure_locks pashkure_locks;

/* A wait of a deadlock: who waits, who owns the name, and its bytes, which stay until the next request or the end of the transaction that was
 * told. */
typedef struct pashkure_wait {
    pashkure_key key, holder;
    const void *name;
    size_t length;
} pashkure_wait;

/* One of several names, and the answer to it. */
typedef struct pashkure_request {
    const void *name;
    size_t length;
    pashkure_result result;
} pashkure_request;

#define PASHKURE_FOREVER INT64_MAX /* nanoseconds without an end. 0 and less is no time at all: a time that has run out never becomes a long one */

/* Opens a manager: OK. BAD_.. as of pashkure_open, NO_MEMORY: then *locks is NULL. config.buckets is 1 to 16,777,216, or 0 for one a
 * name, but 8,192 at least. */
pashkure_result pashkure_locks_open(pashkure_locks **locks, const pashkure_config *config) PASHKURE_CHECKED;

/* Gives all memory back: OK. IN_USE while a transaction is live: then nothing has changed. No other call may run, or come later. To shut down,
 * begin no more, interrupt all that are live (pashkure_locks_look has their keys), join the threads, and close. NULL is OK. */
pashkure_result pashkure_locks_close(pashkure_locks *locks);

/* Begins a transaction: OK, and its key. TRANSACTIONS_FULL. */
pashkure_result pashkure_locks_begin(pashkure_locks *locks, pashkure_key *key) PASHKURE_CHECKED;

/* Locks a name, and sleeps until the transaction owns it, or the time is over: OK, HELD, DEADLOCK (at once). BUSY: no time was given, and another
 * one owns it. TIMED_OUT, INTERRUPTED: it waits no longer. After each of these it keeps what it owns, and may go on. Refusals as of pashkure_lock.
 * It is TIMED_OUT when the time is over by CLOCK_MONOTONIC and never before. */
pashkure_result pashkure_locks_lock(pashkure_locks *locks, pashkure_key key, const void *name, size_t length, int64_t nanoseconds) PASHKURE_CHECKED;

/* Locks names in the order given, all within the time: OK, it owns all of them. Else the answer to the first that it was not given; those before
 * stay locked. Each request has its answer: OK or HELD, then that one, then NOT_ASKED. */
pashkure_result pashkure_locks_lock_all(
    pashkure_locks *locks, pashkure_key key, pashkure_request *requests, size_t count, int64_t nanoseconds) PASHKURE_CHECKED;

/* Asks for a name as pashkure_locks_lock does, and answers WAITS in place of sleeping: for event loops, futures, and sleep of your own. After WAITS,
 * and no other answer, `wake` is called once, with OK or INTERRUPTED, by the thread whose call ended the wait, without the mutex and before that
 * call returns; it may run before pashkure_locks_ask returns. Until then the transaction waits. `wake` may make any call, also for this
 * transaction, but best only passes the news on: to an eventfd, uv_async_send, a semaphore. To give up is pashkure_locks_interrupt. */
typedef void pashkure_wake_call(void *context, pashkure_key key, pashkure_result result);
pashkure_result pashkure_locks_ask(
    pashkure_locks *locks, pashkure_key key, const void *name, size_t length, pashkure_wake_call *wake, void *context) PASHKURE_CHECKED;

/* Interrupts a transaction, mostly another thread's (a killed query, a shut-down): OK. NO_TRANSACTION. Its wait ends as INTERRUPTED at once. If it
 * does not wait, its next lock, lock_all or ask is INTERRUPTED, whatever it asks for. It is told once, and never lost but by the transaction's
 * end. It takes no name away. */
pashkure_result pashkure_locks_interrupt(pashkure_locks *locks, pashkure_key key);

/* Gives one name back, to the one that has waited longest: OK. Refusals as of pashkure_unlock. */
pashkure_result pashkure_locks_unlock(pashkure_locks *locks, pashkure_key key, const void *name, size_t length) PASHKURE_CHECKED;

/* Ends the transaction, and gives back all that it owns: OK. NO_TRANSACTION, WAITING. An end is no moment: names pass on one after
 * another, so that others may own some while the transaction still owns the rest. After every 64 names other threads have their turn. */
pashkure_result pashkure_locks_commit(pashkure_locks *locks, pashkure_key key) PASHKURE_CHECKED;

/* The same. Undo its work first: others own its names when this returns. NO_TRANSACTION; WAITING of one that waits: interrupt it, and its own
 * thread undoes and aborts. */
pashkure_result pashkure_locks_abort(pashkure_locks *locks, pashkure_key key);

/* What the last DEADLOCK of this transaction was about, noted in the moment of the answer: how many waits, which are written as far as there is
 * room. The first one is the one that was refused, and each further one is that of the holder before it. At most 16, whose names have 1,024 bytes
 * together: the cycle is whole if the last holder is this transaction. 0 if it was told of none, has ended, or is in a call. Needs no mutex. */
size_t pashkure_locks_cycle(pashkure_locks *locks, pashkure_key key, pashkure_wait *waits, size_t room);

/* ---- Reading one moment ---- */

/* Takes the mutex, so that the four calls below see one moment of the manager: all waits, and each name that somebody asked for while another one
 * owned it. Until pashkure_locks_let_go by the same thread all other calls stand still that need the mutex; this thread
 * makes only these four. */
void pashkure_locks_hold(pashkure_locks *locks);

/* The same, and brings all names that are owned to the manager before, so that all locks are seen, and no name is locked or given back
 * meanwhile. Takes time by the number of buckets, as its end does. OK; or NAMES_FULL, COUNTS_FULL: it holds, but not all names are seen. */
pashkure_result pashkure_locks_hold_all(pashkure_locks *locks);

void pashkure_locks_let_go(pashkure_locks *locks);

/* As pashkure_look, pashkure_name, pashkure_owner and pashkure_totals. Of the counts, `events` are the manager's alone. */
pashkure_result pashkure_locks_look(pashkure_locks *locks, uint32_t slot, pashkure_seen *seen);
pashkure_result pashkure_locks_name(pashkure_locks *locks, uint32_t number, void *bytes, size_t room, size_t *length, pashkure_key *owner);
pashkure_result pashkure_locks_owner(pashkure_locks *locks, const void *name, size_t length, pashkure_key *owner);
void pashkure_locks_totals(pashkure_locks *locks, pashkure_counts *counts);

#ifdef __cplusplus
}
#endif
#endif
