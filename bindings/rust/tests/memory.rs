//! Memory: each request for memory of an opening is refused in turn, which leaks nothing; no call but the opening and
//! the drop takes or frees any; and a session holds none once it is dropped. This puts itself in place of `malloc`,
//! `realloc` and `free` of the GNU C library, and so is for Linux with that library.
#![cfg(all(target_os = "linux", target_env = "gnu"))]

use cundarrix::{Action, Function, Opcode, Options, Refusal, Request, Session};
use std::cell::Cell;
use std::ffi::c_void;

extern "C" {
    fn __libc_malloc(size: usize) -> *mut c_void;
    fn __libc_realloc(block: *mut c_void, size: usize) -> *mut c_void;
    fn __libc_free(block: *mut c_void);
}

thread_local! {
    /// How many more requests of this thread are granted. Below zero all are.
    static LEFT: Cell<i64> = const { Cell::new(-1) };
    /// How many blocks this thread has taken and not freed.
    static HELD: Cell<i64> = const { Cell::new(0) };
    /// How often it called any of the three.
    static CALLS: Cell<u64> = const { Cell::new(0) };
}

/// Counts a block that was taken (1) or freed (-1), unless there is none.
fn count(block: *const c_void, change: i64) {
    CALLS.set(CALLS.get() + 1);
    if !block.is_null() {
        HELD.set(HELD.get() + change);
    }
}

fn is_granted() -> bool {
    let left = LEFT.get();
    if left > 0 {
        LEFT.set(left - 1);
    }
    left != 0
}

/// # Safety
///
/// As `malloc`.
#[no_mangle]
pub unsafe extern "C" fn malloc(size: usize) -> *mut c_void {
    let block = match is_granted() {
        // SAFETY: as the caller owes it.
        true => unsafe { __libc_malloc(size) },
        false => std::ptr::null_mut(),
    };
    count(block, 1);
    block
}

/// # Safety
///
/// As `realloc`.
#[no_mangle]
pub unsafe extern "C" fn realloc(block: *mut c_void, size: usize) -> *mut c_void {
    let moved = match is_granted() {
        // SAFETY: as the caller owes it.
        true => unsafe { __libc_realloc(block, size) },
        false => std::ptr::null_mut(),
    };
    // A block that moves stays one.
    count(moved, i64::from(block.is_null()));
    moved
}

/// # Safety
///
/// As `free`.
#[no_mangle]
pub unsafe extern "C" fn free(block: *mut c_void) {
    count(block, -1);
    // SAFETY: as the caller owes it.
    unsafe { __libc_free(block) }
}

const CIDS: [u16; 2] = [1, 2];

fn open() -> Result<Session, Refusal> {
    Session::open(&Options::new().shared(true), &CIDS)
}

/// Each call of a session at least once, with many commands that start in one and stop in another. Gives how many
/// actions there were.
fn live(session: &mut Session) -> Result<u32, Refusal> {
    let mut actions = 0;
    let mut tell = |_: Action| actions += 1;
    let command = Request::new(Opcode::ScsiCommand);
    for cid in CIDS {
        session.join(cid, 1, &mut tell)?;
    }
    for number in (1..=30).rev() {
        session.arrive(1, &command.with_tag(number).with_cmd_sn(number), number.into(), &mut tell)?;
    }
    let mut data_in = *Request::from([0; 48]).with_transfer_tag(Request::NO_TAG);
    (data_in[0], data_in[1]) = (0x25, 0x80);
    session.put_data(1, &data_in, &mut tell)?;
    session.complete(1, 0, &mut tell)?;
    let mut message = data_in;
    message[0] = 0x32;
    session.put(2, &message, 31, &mut tell)?;
    let reset = Request::new(Opcode::TaskManagement).with_immediate(true).with_function(Function::LogicalUnitReset);
    session.arrive(2, &reset.with_cmd_sn(31).with_tag(31), 32, &mut tell)?;
    session.clear(0, &mut tell)?;
    session.cleared(0, &mut tell)?;
    for ticket in 2..=30 {
        session.stopped(ticket, &mut tell)?;
    }
    for cid in [1, 2, 1, 2] {
        while session.next(cid, &mut tell).is_ok() {
            session.written(cid, &mut tell)?;
        }
        session.heard(cid, &command.with_exp_stat_sn(2), &mut tell)?;
    }
    session.lose(2, &mut tell)?;
    let is_right = session.may_take() && !session.may_join(1) && !session.is_asked(2);
    assert!(is_right && session.numbers().exp_cmd_sn == 31);
    Ok(actions)
}

#[test]
fn each_refused_request_for_memory_refuses_the_opening_and_leaks_nothing() {
    let mut refused = 0;
    loop {
        let before = HELD.get();
        LEFT.set(refused);
        let session = open();
        let left = LEFT.replace(-1);
        match session {
            Err(refusal) => assert_eq!((refusal, left, HELD.get()), (Refusal::NoMemory, 0, before)),
            Ok(_) => break,
        }
        refused += 1;
    }
    assert!(refused > 0);
}

#[test]
fn no_call_but_the_opening_and_the_drop_takes_or_frees_memory() {
    let mut session = open().expect("memory for a session");
    LEFT.set(0);
    let before = CALLS.get();
    let lived = live(&mut session);
    let after = CALLS.get();
    LEFT.set(-1);
    assert_eq!(before, after);
    // 30 Starts, 29 Stops, a Reset, 32 Forgets, and Readys.
    assert!(lived.is_ok_and(|actions| actions > 92), "{lived:?}");
}

#[test]
fn a_dropped_session_gives_all_of_its_memory_back() {
    let before = HELD.get();
    let mut session = open().expect("memory for a session");
    live(&mut session).expect("all is right");
    assert!(HELD.get() > before);
    drop(session);
    assert_eq!(HELD.get(), before);
}
