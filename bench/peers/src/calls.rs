//! The calls that users look up, as rows. Each has the loop of the row of the same name in `crates/tinyvec_bench`.

use crate::items::{look_at, Item};
use crate::report::Report;
use crate::vector::{Growing, Owned, Vector};
use std::hint::black_box;

/// The rows of any items.
pub fn of_items<T: Item, V: Owned<T>>(report: &Report, source: &[T]) {
    let (vec, other) = (&mut V::new(), &mut V::new());
    let n = source.len();
    refill(vec, source, 0);
    report.row("clone", n, |x| look_at(clone_of(vec, other, x).as_slice(), x));
    report.row("insert_front", n, |x| insert_front(vec, x));
    report.row("remove_front", n, |x| remove(vec, 0, x));
    filled_and_cut(report, vec, source);
    report.row("fill_and_empty", n, |x| fill_and_empty(vec, n, x));
    report.row("two_pushes", n, |x| look_at(two_pushes::<T, V>(x).as_slice(), x));
}

// Those that fill the list anew.
fn filled_and_cut<T: Item, V: Vector<T>>(report: &Report, vec: &mut V, source: &[T]) {
    let n = source.len();
    report.row("extend_from_slice", n, |x| refill(vec, source, x));
    report.row("clear", n, |x| {
        refill(vec, source, x);
        vec.clear();
        x.wrapping_add(vec.as_slice().len() as u64)
    });
    report.row("retain_half", n, |x| {
        refill(vec, source, x);
        vec.retain(|it| it.value() % 2 == 1);
        x.wrapping_add(vec.as_slice().len() as u64)
    });
    report.row("drain_taken", n, |x| {
        refill(vec, source, x);
        let len = vec.as_slice().len();
        sum_of(vec.drain(len / 4..len - len / 4), x)
    });
}

/// Those of a list of numbers, of any vector.
pub fn of_numbers<V: Vector<u64>>(report: &Report, vec: &mut V, other: &mut V, source: &[u64]) {
    let n = source.len();
    refill(vec, source, 0);
    report.row("insert_front", n, |x| insert_front(vec, x));
    report.row("remove_front", n, |x| remove(vec, 0, x));
    report.row("remove_middle", n, |x| remove(vec, n / 2, x));
    report.row("swap_remove", n, |x| swap_remove(vec, n / 2, x));
    filled_and_cut(report, vec, source);
    lengthened(report, vec, other, source);
    report.row("truncate", n, |x| {
        refill(vec, source, x);
        vec.truncate(vec.as_slice().len() / 2);
        x.wrapping_add(vec.as_slice().len() as u64)
    });
    report.row("dedup", n, |x| {
        refill(vec, source, x);
        vec.dedup();
        x.wrapping_add(vec.as_slice().len() as u64)
    });
    report.row("extract_half", n, |x| {
        refill(vec, source, x);
        vec.sum_of_extracted(x)
    });
    report.row("drain_dropped", n, |x| {
        refill(vec, source, x);
        let len = vec.as_slice().len();
        drop(vec.drain(len / 4..len - len / 4));
        x.wrapping_add(vec.as_slice().len() as u64)
    });
    report.row("splice_fewer", n, |x| splice(vec, source, n as u64 / 8, x));
    report.row("splice_more", n, |x| splice(vec, source, n as u64 / 2, x));
    report.row("replace_range", n, |x| replace_range(vec, source, x));
    report.row("editor", n, |x| editor(vec, source, x));
    report.row("fill_and_empty", n, |x| fill_and_empty(vec, n, x));
}

// Those that fill the first half of a list, and then the second by the call.
fn lengthened<V: Vector<u64>>(report: &Report, vec: &mut V, other: &mut V, source: &[u64]) {
    let n = source.len();
    let (front, back) = source.split_at(n / 2);
    report.row("extend_copy", n, |x| {
        refill(vec, front, x);
        vec.extend_from_slice(back);
        x.wrapping_add(vec.as_slice().len() as u64)
    });
    report.row("extend_from_range", n, |x| {
        refill(vec, front, x);
        let start = x % 65536;
        vec.extend(start..start.saturating_add(back.len() as u64));
        x.wrapping_add(vec.as_slice().len() as u64)
    });
    report.row("append", n, |x| {
        refill(vec, front, x);
        refill(other, back, x);
        vec.append(other);
        x.wrapping_add(vec.as_slice().len() as u64)
    });
    report.row("extend_from_within", n, |x| {
        refill(vec, front, x);
        vec.extend_from_within();
        x.wrapping_add(vec.as_slice().len() as u64)
    });
}

/// Those of a vector that owns its slots.
pub fn of_owned<V: Owned<u64>>(report: &Report, vec: &mut V, other: &mut V, source: &[u64]) {
    let n = source.len();
    refill(vec, source, 0);
    report.row("clone", n, |x| look_at(clone_of(vec, other, x).as_slice(), x));
    report.row("split_off", n, |x| split_off(vec, source, x));
    report.row("resize", n, |x| resize(vec, n, x));
}

/// Those that make a vector.
pub fn of_made<V: Owned<u64> + IntoIterator<Item = u64>>(report: &Report, source: &[u64], make: fn(&[u64]) -> V) {
    let n = source.len();
    if n <= 64 {
        report.row("two_pushes", n, |x| look_at(two_pushes::<u64, V>(x).as_slice(), x));
    }
    report.row("into_iter", n, |x| sum_of_new(source, make, x));
}

/// Those of a vector that grows out of its slots.
pub fn of_grown<V: Growing<u64>>(report: &Report, n: usize) {
    let (vec, count) = (&mut V::new(), n as u64);
    report.row("push", n, |x| push::<V>(count, x));
    report.row("from_iter", n, |x| from_iter::<V>(count, x));
    report.row("reserve_and_extend", n, |x| reserve_and_extend::<V>(n, x));
    report.row("reserve_and_shrink", n, |x| reserve_and_shrink(vec, n, x));
}

/// The sum of the items' values and `x`.
#[inline(always)]
pub fn sum_of<T: Item>(items: impl Iterator<Item = T>, x: u64) -> u64 {
    let mut sum = x;
    for item in items {
        sum = sum.wrapping_add(item.value());
    }
    sum
}

#[inline(never)]
pub fn refill<T: Item, V: Vector<T>>(vec: &mut V, source: &[T], x: u64) -> u64 {
    vec.empty();
    vec.extend_from_slice(source);
    x.wrapping_add(vec.as_slice().len() as u64)
}

fn fill_and_empty<T: Item, V: Vector<T>>(vec: &mut V, n: usize, x: u64) -> u64 {
    push_all(vec, n, x);
    pop_all(vec)
}

#[inline(never)]
fn push_all<T: Item, V: Vector<T>>(vec: &mut V, n: usize, x: u64) {
    for i in vec.as_slice().len()..n {
        vec.push(T::of(x.wrapping_add(i as u64)));
    }
}

#[inline(never)]
fn pop_all<T: Item, V: Vector<T>>(vec: &mut V) -> u64 {
    let mut sum: u64 = 0;
    while let Some(item) = vec.pop() {
        sum = sum.wrapping_add(item.value());
    }
    sum
}

#[inline(never)]
fn insert_front<T: Item, V: Vector<T>>(vec: &mut V, x: u64) -> u64 {
    let Some(last) = vec.pop() else {
        return 0;
    };
    vec.insert(0, T::of(x));
    last.value()
}

#[inline(never)]
fn remove<T: Item, V: Vector<T>>(vec: &mut V, i: usize, x: u64) -> u64 {
    if i >= vec.as_slice().len() {
        return 0;
    }
    let removed = vec.remove(i);
    vec.push(T::of(x));
    removed.value()
}

#[inline(never)]
fn swap_remove<T: Item, V: Vector<T>>(vec: &mut V, i: usize, x: u64) -> u64 {
    if i >= vec.as_slice().len() {
        return 0;
    }
    let removed = vec.swap_remove(i);
    vec.push(T::of(x));
    removed.value()
}

#[inline(never)]
fn splice<V: Vector<u64>>(vec: &mut V, source: &[u64], count: u64, x: u64) -> u64 {
    let quarter = source.len() / 4;
    refill(vec, &source[..3 * quarter], x);
    vec.splice(quarter..2 * quarter, 0..count);
    x.wrapping_add(vec.as_slice().len() as u64)
}

#[inline(never)]
fn replace_range<V: Vector<u64>>(vec: &mut V, source: &[u64], x: u64) -> u64 {
    let quarter = source.len() / 4;
    refill(vec, &source[..3 * quarter], x);
    vec.replace_range(quarter..2 * quarter, &source[2 * quarter..]);
    x.wrapping_add(vec.as_slice().len() as u64)
}

/// An editor's change, cut and undo.
#[inline(never)]
pub fn editor<V: Vector<u64>>(vec: &mut V, source: &[u64], x: u64) -> u64 {
    let quarter = source.len() / 4;
    replace_range(vec, source, x);
    let cut = sum_of(vec.drain(quarter..3 * quarter), x);
    vec.replace_range(quarter..quarter, &source[quarter..2 * quarter]);
    cut.wrapping_add(vec.as_slice().len() as u64)
}

#[inline(never)]
fn two_pushes<T: Item, V: Owned<T>>(x: u64) -> V {
    let mut vec = V::new();
    for _ in 0..2 {
        vec.push(T::of(x));
    }
    vec
}

#[inline(never)]
fn sum_of_new<V: IntoIterator<Item = u64>>(source: &[u64], make: fn(&[u64]) -> V, x: u64) -> u64 {
    let vec = make(source);
    // Else LLVM makes no list at all.
    black_box(&vec);
    sum_of(vec.into_iter(), x)
}

#[inline(never)]
fn clone_of<T: Item, V: Owned<T>>(even: &V, odd: &V, x: u64) -> V {
    let vec = if x % 2 == 0 { even } else { odd };
    vec.clone()
}

#[inline(never)]
fn split_off<V: Owned<u64>>(vec: &mut V, source: &[u64], x: u64) -> u64 {
    refill(vec, source, x);
    let tail = vec.split_off(vec.as_slice().len() / 2);
    look_at(tail.as_slice(), x)
}

#[inline(never)]
fn resize<V: Owned<u64>>(vec: &mut V, n: usize, x: u64) -> u64 {
    vec.empty();
    vec.resize(n, x);
    x.wrapping_add(vec.as_slice().len() as u64)
}

#[inline(never)]
fn push<V: Growing<u64>>(count: u64, x: u64) -> u64 {
    let mut vec = V::new();
    for k in 0..count {
        vec.push(x.wrapping_add(k));
    }
    look_at(vec.as_slice(), x)
}

#[inline(never)]
fn from_iter<V: Growing<u64>>(count: u64, x: u64) -> u64 {
    let start = x % 65536;
    look_at(V::collected(start..start.saturating_add(count)).as_slice(), x)
}

#[inline(never)]
fn reserve_and_extend<V: Growing<u64>>(count: usize, x: u64) -> u64 {
    let mut vec = V::new();
    vec.reserve(count);
    let start = x % 65536;
    vec.extend(start..start.saturating_add(count as u64));
    look_at(vec.as_slice(), x)
}

#[inline(never)]
fn reserve_and_shrink<V: Growing<u64>>(vec: &mut V, count: usize, x: u64) -> u64 {
    vec.reserve(count);
    vec.shrink_to_fit();
    x.wrapping_add(vec.as_slice().len() as u64)
}
