//! A set of numbers that the library keeps.

use crate::{Detail, Error, BAD_KEY, DONE, NO_MEMORY, NO_ROOM};
use std::cell::UnsafeCell;
use std::ffi::c_void;
use std::fmt;

/// Why a number was not added. The set is as it was.
#[derive(Clone, Copy, Debug, PartialEq, Eq)]
pub enum InsertError {
    /// The number is greater than [`MAX_KEY`](crate::MAX_KEY).
    BadKey,
    /// A set of 196,608 numbers or more takes no more.
    Full,
    /// Memory was refused.
    Memory,
}

impl fmt::Display for InsertError {
    fn fmt(&self, f: &mut fmt::Formatter<'_>) -> fmt::Result {
        f.write_str(match self {
            InsertError::BadKey => "not a key",
            InsertError::Full => "the set is full",
            InsertError::Memory => "out of memory",
        })
    }
}

impl std::error::Error for InsertError {}

/// Why bytes give no set: the first fault in them, or want of memory.
#[derive(Clone, Copy, Debug, PartialEq, Eq)]
pub enum SnapshotError {
    NotSnapshot,
    Short,
    BadBits,
    Damaged,
    NotALayout,
    Long,
    Memory,
}

impl fmt::Display for SnapshotError {
    fn fmt(&self, f: &mut fmt::Formatter<'_>) -> fmt::Result {
        f.write_str(match self {
            SnapshotError::NotSnapshot => "not a snapshot",
            SnapshotError::Short => "snapshot ends early",
            SnapshotError::BadBits => "bits out of range",
            SnapshotError::Damaged => "seal does not match",
            SnapshotError::NotALayout => "cells are not a layout",
            SnapshotError::Long => "snapshot goes on after its seal",
            SnapshotError::Memory => "out of memory",
        })
    }
}

impl std::error::Error for SnapshotError {}

/// What `struct rhset_set` of `rhset.h` is.
#[repr(C)]
struct Held {
    held: *mut c_void,
}

/// A set of numbers up to [`MAX_KEY`](crate::MAX_KEY). Its table is freed with it.
///
/// ```
/// let mut set = rhset::Set::new();
/// assert_eq!(set.insert(17), Ok(true));
/// assert_eq!(set.numbers(), Ok(vec![17]));
/// assert!(rhset::Set::from_snapshot(&set.snapshot().unwrap()).unwrap().contains(17));
/// ```
pub struct Set {
    // A call that only looks takes the set in hand, too.
    held: UnsafeCell<Held>,
}

// Another thread may make the next call. `Sync` it is not: two at once may not.
unsafe impl Send for Set {}

impl Set {
    /// An empty set, which takes no memory.
    pub const fn new() -> Set {
        Set {
            held: UnsafeCell::new(Held {
                held: std::ptr::null_mut(),
            }),
        }
    }

    /// Adds a number, and answers whether it was not there.
    pub fn insert(&mut self, number: u64) -> Result<bool, InsertError> {
        let mut detail = Detail::default();
        // The struct began as null, only these calls wrote it, and it is in no other call: in each
        // call below too.
        match unsafe { rhset_set_insert(self.held.get(), number, &mut detail) } {
            DONE => Ok(detail.number == 1),
            BAD_KEY => Err(InsertError::BadKey),
            FULL => Err(InsertError::Full),
            NO_MEMORY => Err(InsertError::Memory),
            status => unreachable!("rhset.h has no status {status} here"),
        }
    }

    /// Takes a number out, and answers whether it was there.
    pub fn remove(&mut self, number: u64) -> bool {
        unsafe { rhset_set_remove(self.held.get(), number) }
    }

    /// Whether a number is there.
    pub fn contains(&self, number: u64) -> bool {
        unsafe { rhset_set_contains(self.held.get(), number) }
    }

    /// How many numbers there are.
    pub fn len(&self) -> usize {
        unsafe { rhset_set_length(self.held.get()) }
    }

    pub fn is_empty(&self) -> bool {
        self.len() == 0
    }

    /// Frees the table. The set is empty then.
    pub fn clear(&mut self) {
        unsafe { rhset_set_free(self.held.get()) }
    }

    /// The numbers, in rising order.
    pub fn numbers(&self) -> Result<Vec<u64>, Error> {
        filled(self.len(), |into, detail| unsafe {
            rhset_set_list(self.held.get(), into.as_mut_ptr(), into.len(), detail)
        })
    }

    /// A snapshot of the set, sealed by its SHA-256, which `rhset check` reads.
    pub fn snapshot(&self) -> Result<Vec<u8>, Error> {
        filled(0, |into, detail| unsafe {
            rhset_set_snapshot(self.held.get(), into.as_mut_ptr(), into.len(), detail)
        })
    }

    /// The set of a snapshot of either version.
    pub fn from_snapshot(bytes: &[u8]) -> Result<Set, SnapshotError> {
        let set = Set::new();
        match unsafe { rhset_set_restore(set.held.get(), bytes.as_ptr(), bytes.len()) } {
            DONE => Ok(set),
            NO_MEMORY => Err(SnapshotError::Memory),
            NOT_SNAPSHOT => Err(SnapshotError::NotSnapshot),
            SHORT => Err(SnapshotError::Short),
            BAD_BITS => Err(SnapshotError::BadBits),
            DAMAGED => Err(SnapshotError::Damaged),
            NOT_A_LAYOUT => Err(SnapshotError::NotALayout),
            LONG => Err(SnapshotError::Long),
            status => unreachable!("rhset.h has no status {status} here"),
        }
    }
}

/// What a call puts into room for so many, or, where there are more, into room for these.
fn filled<T: Clone + Default>(
    most: usize,
    call: impl Fn(&mut [T], &mut Detail) -> u32,
) -> Result<Vec<T>, Error> {
    let mut into = Vec::new();
    let mut room = most;
    loop {
        into.try_reserve_exact(room).map_err(|_| Error::Memory)?;
        into.resize(room, T::default());
        let mut detail = Detail::default();
        match call(&mut into, &mut detail) {
            DONE => {
                into.truncate(detail.number as usize);
                return Ok(into);
            }
            NO_ROOM => room = detail.number as usize,
            NO_MEMORY => return Err(Error::Memory),
            status => unreachable!("rhset.h has no status {status} here"),
        }
    }
}

impl fmt::Debug for Set {
    fn fmt(&self, f: &mut fmt::Formatter<'_>) -> fmt::Result {
        f.debug_struct("Set")
            .field("len", &self.len())
            .finish_non_exhaustive()
    }
}

impl Default for Set {
    fn default() -> Set {
        Set::new()
    }
}

impl Drop for Set {
    fn drop(&mut self) {
        self.clear();
    }
}

const FULL: u32 = 4;
const NOT_SNAPSHOT: u32 = 5;
const SHORT: u32 = 6;
const BAD_BITS: u32 = 7;
const DAMAGED: u32 = 8;
const NOT_A_LAYOUT: u32 = 9;
const LONG: u32 = 10;

extern "C" {
    fn rhset_set_insert(set: *mut Held, number: u64, detail: *mut Detail) -> u32;
    fn rhset_set_remove(set: *mut Held, number: u64) -> bool;
    fn rhset_set_contains(set: *mut Held, number: u64) -> bool;
    fn rhset_set_length(set: *mut Held) -> usize;
    fn rhset_set_list(set: *mut Held, into: *mut u64, room: usize, detail: *mut Detail) -> u32;
    fn rhset_set_snapshot(set: *mut Held, into: *mut u8, room: usize, detail: *mut Detail) -> u32;
    fn rhset_set_restore(set: *mut Held, bytes: *const u8, many: usize) -> u32;
    fn rhset_set_free(set: *mut Held);
}

#[cfg(test)]
mod tests {
    use super::*;
    use crate::MAX_KEY;
    use std::collections::BTreeSet;

    #[test]
    fn a_set_of_the_standard_library_goes_the_same_way() {
        let (mut set, mut meant) = (Set::new(), BTreeSet::new());
        let mut chance: u64 = 7;
        for _ in 0..20_000 {
            chance ^= chance << 13;
            chance ^= chance >> 7;
            chance ^= chance << 17;
            let number = chance % 3000;
            if chance >> 40 & 1 == 0 {
                assert_eq!(set.insert(number), Ok(meant.insert(number)));
            } else {
                assert_eq!(set.remove(number), meant.remove(&number));
            }
            assert_eq!(set.contains(number), meant.contains(&number));
            assert_eq!(set.len(), meant.len());
        }
        let rising: Vec<u64> = meant.into_iter().collect();
        let again = Set::from_snapshot(&set.snapshot().unwrap()).unwrap();
        assert_eq!(set.numbers(), Ok(rising.clone()));
        // A set goes to another thread.
        let there = std::thread::spawn(move || again.numbers());
        assert_eq!(there.join().unwrap(), Ok(rising));
        set.clear();
        assert!(set.is_empty() && !set.remove(1) && set.numbers() == Ok(vec![]));
    }

    #[test]
    fn what_is_refused_is_told_by_name() {
        let mut set = Set::new();
        assert_eq!(set.insert(MAX_KEY + 1), Err(InsertError::BadKey));
        for number in 0..196_608 {
            assert_eq!(set.insert(number), Ok(true));
        }
        assert_eq!(set.insert(0), Ok(false));
        assert_eq!(set.insert(MAX_KEY), Err(InsertError::Full));
        let mut snapshot = set.snapshot().unwrap();
        let refused = |bytes: &[u8]| Set::from_snapshot(bytes).err();
        assert_eq!(refused(&snapshot[1..]), Some(SnapshotError::NotSnapshot));
        assert_eq!(refused(&snapshot[..9]), Some(SnapshotError::Short));
        snapshot.push(0);
        assert_eq!(refused(&snapshot), Some(SnapshotError::Long));
        snapshot[20] ^= 1;
        assert_eq!(refused(&snapshot), Some(SnapshotError::Damaged));
    }
}
