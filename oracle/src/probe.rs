//! What the probes call: the bounds that types.rs has not (7, 8, 18) and two
//! things it keeps to itself.

use crate::LowerError;
use std::cell::{Cell, RefCell};

thread_local! {
    static LIMIT: Cell<u64> = const { Cell::new(0) };
    static CAPACITY: Cell<u64> = const { Cell::new(0) };
    static MOST: Cell<u64> = const { Cell::new(0) };
    static SCAN: Cell<Option<(usize, usize)>> = const { Cell::new(None) };
    static PRIVATE: RefCell<Vec<u16>> = const { RefCell::new(Vec::new()) };
}

/// Before each run: the step limit and how many entries the queue may hold.
pub(crate) fn begin(limit: u32, capacity: u64) {
    LIMIT.set(u64::from(limit));
    CAPACITY.set(capacity);
    MOST.set(1);
    SCAN.set(None);
    PRIVATE.with_borrow_mut(Vec::clear);
}
/// The most entries that the queue held.
pub(crate) fn most() -> u64 {
    MOST.get()
}
/// The instruction whose settled state was looked at last (16, 17).
pub(crate) fn scanned() -> Option<(usize, usize)> {
    SCAN.get()
}
/// The private masks with which the validation ran.
pub(crate) fn take_private_kinds() -> Vec<u16> {
    PRIVATE.take()
}

fn refuse(number: u8, chunk: usize, instruction: usize) -> Result<(), LowerError> {
    Err(LowerError::Probe { number, chunk, instruction })
}
pub(crate) fn due(chunk: usize, ip: usize) -> Result<(), LowerError> {
    if keleusma::told::takings() >= LIMIT.get() {
        return refuse(7, chunk, ip);
    }
    Ok(())
}
pub(crate) fn height(height: usize, most: usize, chunk: usize, ip: usize) -> Result<(), LowerError> {
    if height > most {
        return refuse(18, chunk, ip);
    }
    Ok(())
}
pub(crate) fn meet(old: Option<usize>, new: usize, chunk: usize, ip: usize) -> Result<(), LowerError> {
    if old.is_some_and(|old| old != new) {
        return refuse(18, chunk, ip);
    }
    Ok(())
}
pub(crate) fn queue(length: usize, chunk: usize, ip: usize) -> Result<(), LowerError> {
    if length as u64 >= CAPACITY.get() {
        return refuse(8, chunk, ip);
    }
    MOST.set(MOST.get().max(length as u64 + 1));
    Ok(())
}
pub(crate) fn scan(chunk: usize, ip: usize) {
    SCAN.set(Some((chunk, ip)));
}
pub(crate) fn private_kinds(kinds: &[u16]) {
    PRIVATE.with_borrow_mut(|all| all.extend_from_slice(kinds));
}
