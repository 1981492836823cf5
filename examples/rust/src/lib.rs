//! What lists of whole numbers have in common, and sets of them, by librhset, which is proved.
//!
//! `./install --prefix DIR --library` makes the library; cargo finds it where the variable
//! RHSET_LIBRARY names `DIR/lib`. Each call takes two lists of numbers up to [`MAX_KEY`], in any
//! order, with repeats, and gives the rising numbers that come of them, each once.
//!
//! ```
//! assert_eq!(rhset::intersect(&[4, 9, 16, 25, 36, 1], &[2, 4, 8, 16, 32]), Ok(vec![4, 16]));
//! ```
//!
//! [`Set`] is a set of such numbers, in a table of the library, which goes with it.

mod set;

pub use set::{InsertError, Set, SnapshotError};

use std::fmt;

/// The greatest number that a list may have.
pub const MAX_KEY: u64 = (1 << 62) - 2;

/// Why a call gives no numbers.
#[derive(Clone, Copy, Debug, PartialEq, Eq)]
pub enum Error {
    /// The number at this place of this list, both from 0, is greater than `MAX_KEY`. It is the
    /// first one that is.
    BadKey { list: usize, place: usize },
    /// Memory was refused.
    Memory,
}

impl fmt::Display for Error {
    fn fmt(&self, f: &mut fmt::Formatter<'_>) -> fmt::Result {
        match self {
            Error::BadKey { list, place } => {
                write!(f, "number {place} of list {list}: greater than {MAX_KEY}")
            }
            Error::Memory => f.write_str("out of memory"),
        }
    }
}

impl std::error::Error for Error {}

/// The numbers that stand in both lists.
pub fn intersect(first: &[u64], second: &[u64]) -> Result<Vec<u64>, Error> {
    combine(
        rhset_intersect,
        first,
        second,
        first.len().min(second.len()),
    )
}

/// The numbers that stand in one list or in both.
pub fn union(first: &[u64], second: &[u64]) -> Result<Vec<u64>, Error> {
    combine(rhset_union, first, second, first.len() + second.len())
}

/// The numbers that stand in the first list alone.
pub fn subtract(first: &[u64], second: &[u64]) -> Result<Vec<u64>, Error> {
    combine(rhset_subtract, first, second, first.len())
}

/// The numbers that stand in one of the lists alone.
pub fn xor(first: &[u64], second: &[u64]) -> Result<Vec<u64>, Error> {
    combine(rhset_xor, first, second, first.len() + second.len())
}

/// What `struct rhset_detail` of `rhset.h` is.
#[repr(C)]
#[derive(Default)]
struct Detail {
    list: u64,
    number: u64,
}

const DONE: u32 = 0;
const BAD_KEY: u32 = 1;
const NO_ROOM: u32 = 2;
const NO_MEMORY: u32 = 3;

type Call =
    unsafe extern "C" fn(*const u64, usize, *const u64, usize, *mut u64, usize, *mut Detail) -> u32;

/// Makes the call, with room for as many numbers as may come of the lists.
fn combine(call: Call, first: &[u64], second: &[u64], most: usize) -> Result<Vec<u64>, Error> {
    put(most, |into, detail| {
        // The pointers and lengths are those of slices, and what is written is lent to nobody else.
        unsafe {
            call(
                first.as_ptr(),
                first.len(),
                second.as_ptr(),
                second.len(),
                into.as_mut_ptr(),
                into.len(),
                detail,
            )
        }
    })
}

/// What a call puts where there is room for so many numbers, which are enough.
fn put(most: usize, call: impl FnOnce(&mut [u64], &mut Detail) -> u32) -> Result<Vec<u64>, Error> {
    let mut into = Vec::new();
    into.try_reserve_exact(most).map_err(|_| Error::Memory)?;
    into.resize(most, 0);
    let mut detail = Detail::default();
    match call(&mut into, &mut detail) {
        DONE => {
            into.truncate(detail.number as usize);
            Ok(into)
        }
        BAD_KEY => Err(Error::BadKey {
            list: detail.list as usize,
            place: detail.number as usize,
        }),
        NO_MEMORY => Err(Error::Memory),
        status => unreachable!("rhset.h has no status {status} where there is room"),
    }
}

/// The numbers of a list that lie in the range, in the list's order, with repeats.
///
/// So threads share the work on two lists: what the parts of both in ranges that follow one another
/// come to, one behind the other, is what the lists come to.
pub fn within(numbers: &[u64], range: std::ops::Range<u64>) -> Result<Vec<u64>, Error> {
    put(numbers.len(), |into, detail| {
        // (as in `combine`)
        unsafe {
            rhset_within(
                numbers.as_ptr(),
                numbers.len(),
                range.start,
                range.end,
                into.as_mut_ptr(),
                into.len(),
                detail,
            )
        }
    })
}

/// The version of the library, as in 0.1.0.
pub fn version() -> String {
    // It takes nothing and only answers a number.
    let number = unsafe { rhset_version() };
    format!(
        "{}.{}.{}",
        number / 10_000,
        number / 100 % 100,
        number % 100
    )
}

extern "C" {
    fn rhset_intersect(
        first: *const u64,
        firsts: usize,
        second: *const u64,
        seconds: usize,
        into: *mut u64,
        room: usize,
        detail: *mut Detail,
    ) -> u32;
    fn rhset_union(
        first: *const u64,
        firsts: usize,
        second: *const u64,
        seconds: usize,
        into: *mut u64,
        room: usize,
        detail: *mut Detail,
    ) -> u32;
    fn rhset_subtract(
        first: *const u64,
        firsts: usize,
        second: *const u64,
        seconds: usize,
        into: *mut u64,
        room: usize,
        detail: *mut Detail,
    ) -> u32;
    fn rhset_xor(
        first: *const u64,
        firsts: usize,
        second: *const u64,
        seconds: usize,
        into: *mut u64,
        room: usize,
        detail: *mut Detail,
    ) -> u32;
    fn rhset_within(
        numbers: *const u64,
        many: usize,
        from: u64,
        to: u64,
        into: *mut u64,
        room: usize,
        detail: *mut Detail,
    ) -> u32;
    fn rhset_version() -> u32;
}

#[cfg(test)]
mod tests {
    use super::*;
    use std::collections::BTreeSet;

    /// Numbers that look random (Marsaglia's xorshift).
    struct Chance(u64);

    impl Chance {
        fn below(&mut self, most: u64) -> u64 {
            self.0 ^= self.0 << 13;
            self.0 ^= self.0 >> 7;
            self.0 ^= self.0 << 17;
            self.0 % most
        }

        fn numbers(&mut self) -> Vec<u64> {
            let below = [5, 100, 5000, MAX_KEY + 1][self.below(4) as usize];
            let most = [0, 3, 40, 3000][self.below(4) as usize];
            let many = self.below(most + 1);
            (0..many).map(|_| self.below(below)).collect()
        }
    }

    #[test]
    fn sets_of_the_standard_library_come_to_the_same() {
        let mut chance = Chance(5);
        for _ in 0..250 {
            let (first, second) = (chance.numbers(), chance.numbers());
            let a: BTreeSet<u64> = first.iter().copied().collect();
            let b: BTreeSet<u64> = second.iter().copied().collect();
            let rising = |set: BTreeSet<u64>| Ok(set.into_iter().collect::<Vec<u64>>());
            assert_eq!(intersect(&first, &second), rising(&a & &b));
            assert_eq!(union(&first, &second), rising(&a | &b));
            assert_eq!(subtract(&first, &second), rising(&a - &b));
            assert_eq!(xor(&first, &second), rising(&a ^ &b));
        }
    }

    #[test]
    fn the_first_number_that_is_no_key_is_told() {
        let bad = |list, place| Err(Error::BadKey { list, place });
        assert_eq!(union(&[0, MAX_KEY + 1, u64::MAX], &[]), bad(0, 1));
        assert_eq!(subtract(&[MAX_KEY], &[0, u64::MAX]), bad(1, 1));
        let why = intersect(&[MAX_KEY + 1], &[]).unwrap_err().to_string();
        assert_eq!(why, "number 0 of list 0: greater than 4611686018427387902");
    }

    #[test]
    fn threads_share_two_lists_by_ranges() {
        let mut chance = Chance(9);
        let (first, second): (Vec<u64>, Vec<u64>) = (0..20_000)
            .map(|_| (chance.below(30_000), chance.below(30_000)))
            .unzip();
        let part = |range: std::ops::Range<u64>| {
            intersect(&within(&first, range.clone())?, &within(&second, range)?)
        };
        let parts = std::thread::scope(|scope| {
            let ranges = [0..7_000, 7_000..7_000, 7_000..29_999, 29_999..30_000];
            let workers = ranges.map(|range| scope.spawn(|| part(range)));
            workers.map(|worker| worker.join().unwrap().unwrap())
        });
        assert_eq!(Ok(parts.concat()), intersect(&first, &second));
    }

    #[test]
    fn empty_lists_come_to_none() {
        assert_eq!(union(&[], &[]), Ok(vec![]));
        assert_eq!(intersect(&[], &[1]), Ok(vec![]));
    }
}
