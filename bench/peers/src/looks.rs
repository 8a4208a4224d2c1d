//! Vectors and texts that are compared and hashed, each as a whole.

use crate::calls::refill;
use crate::items::Item;
use crate::report::Report;
use crate::vector::Vector;
use std::hash::{DefaultHasher, Hash, Hasher};

/// The rows of a list and one that is equal to it.
pub fn of_looks<V: PartialOrd + Hash>(report: &Report, n: usize, list: &V, other: &V) {
    report.row("equal", n, |x| equal(list, other, x));
    report.row("compare", n, |x| compare(list, other, x));
    report.row("hash", n, |x| hash(list, x));
}

/// Those of a list of the items, and of one whose first item is higher.
pub fn looks<T: Item, V: Vector<T> + PartialOrd + Hash>(report: &Report, vec: &mut V, other: &mut V, source: &[T]) {
    let n = source.len();
    refill(vec, source, 0);
    refill(other, source, 0);
    of_looks(report, n, vec, other);
    refill(other, &source[2..], 0);
    report.row("compare_first", n, |x| compare(&*vec, &*other, x));
}

#[inline(never)]
fn equal<V: PartialEq>(list: &V, other: &V, x: u64) -> u64 {
    x ^ u64::from(*list == *other)
}

#[inline(never)]
fn compare<V: PartialOrd>(list: &V, other: &V, x: u64) -> u64 {
    x ^ u64::from(*list < *other)
}

// The hash of the list as the key of a map, and `x`.
#[inline(never)]
fn hash<V: Hash>(list: &V, x: u64) -> u64 {
    let mut state = DefaultHasher::new();
    list.hash(&mut state);
    x.wrapping_add(state.finish())
}
