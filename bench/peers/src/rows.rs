//! Which rows a peer has, over which types.

use crate::calls::{of_grown, of_items, of_made, of_numbers, of_owned};
use crate::form::of_form;
use crate::items::{runs_of, Item, Node};
use crate::looks::looks;
use crate::report::Report;
use crate::texts::{of_dates, of_text};
use crate::vector::{Growing, Owned};
use smallvec::SmallVec;
use std::hash::Hash;
use tinyvec::{SliceVec, TinyVec};

/// The rows of a vector of each of these numbers of slots.
macro_rules! at {
    ($rows:ident $report:expr, $vector:ident $item:ty: $($n:literal)+) => {
        $($rows::<$item, $vector!($item, $n)>(&$report, &runs_of($n));)+
    };
}

/// Those of numbers, with how a vector is made of them.
macro_rules! numbers {
    ($report:expr, $vector:ident $make:expr; $($n:literal)+) => {
        $(of_owner::<$vector!(u64, $n)>(&$report, $n, $make);)+
    };
}

/// Those of other items.
macro_rules! items {
    ($vector:ident: $bytes:expr, $numbers:expr, $pairs:expr, $nodes:expr) => {
        at!(of_bytes $bytes, $vector u8: 16 64);
        at!(of_items $numbers, $vector u32: 16 64);
        at!(of_items $pairs, $vector (u64, u64): 16 64);
        at!(of_items $nodes, $vector Node: 4 16 64);
    };
}

/// Those in place of an `ArrayVec`.
macro_rules! fixed {
    ($report:ident, $vector:ident $make:expr) => {
        numbers!($report, $vector $make; 4 16 64 16384);
        let named = |prefix| $report.with_prefix(prefix);
        items!($vector: named("bytes_"), named("u32_"), named("pairs_"), named("nodes_"));
    };
}

/// Those in place of a `TinyVec`.
macro_rules! growing {
    ($report:ident, $vector:ident $make:expr) => {
        let named = |prefix| $report.with_prefix(prefix);
        numbers!(named("tiny_"), $vector $make; 4 16 64);
        of_heap(&named("tiny_heap_"), 16, <$vector!(u64, 16)>::on_heap);
        of_heap(&named("tiny_heap_"), 64, <$vector!(u64, 64)>::on_heap);
        for n in [64, 16384] {
            of_grown::<$vector!(u64, 4)>(&named("tiny_long_"), n);
            of_owner::<$vector!(u64, 4)>(&named("tiny_long_"), n, $make);
        }
        items!($vector: named("tiny_bytes_"), named("tiny_u32_"), named("tiny_pairs_"), named("tiny_nodes_"));
    };
}

macro_rules! tinyvec_array {
    ($item:ty, $n:literal) => { tinyvec::ArrayVec<[$item; $n]> };
}

macro_rules! tinyvec_tiny {
    ($item:ty, $n:literal) => { TinyVec<[$item; $n]> };
}

macro_rules! smallvec {
    ($item:ty, $n:literal) => { SmallVec<[$item; $n]> };
}

macro_rules! arrayvec {
    ($item:ty, $n:literal) => { arrayvec::ArrayVec<$item, $n> };
}

macro_rules! vec_of {
    ($item:ty, $n:literal) => { Vec<$item> };
}

/// Runs the peer's rows. Answers whether there is such a peer.
pub fn rows_of(peer: Option<&str>, rounds: u64) -> bool {
    let of = |lacks| Report { prefix: "", rounds, lacks };
    match peer {
        Some("tinyvec") => {
            // Its `dedup` needs a nightly compiler.
            let report = of(&["dedup", "extract_half", "extend_from_within"]);
            fixed!(report, tinyvec_array |it| tinyvec::ArrayVec::try_from(it).unwrap());
            growing!(report, tinyvec_tiny |it| TinyVec::from(it));
            let slices = of(&["dedup", "extract_half", "extend_from_within", "splice_fewer", "splice_more"]).with_prefix("slice_");
            of_slice(&slices, 64);
            of_slice(&slices, 16384);
            of_form::<64>(&report);
            of_form::<16384>(&report);
            of_dates::<TinyVec<[u8; 64]>>(&report);
        }
        Some("smallvec") => {
            let report = of(&["extract_half", "extend_from_within", "splice_fewer", "splice_more", "split_off"]);
            fixed!(report, smallvec |it| SmallVec::from_slice(it));
            growing!(report, smallvec |it| SmallVec::from_slice(it));
            of_dates::<SmallVec<[u8; 64]>>(&report);
        }
        Some("arrayvec") => {
            let report = of(&[
                "append", "dedup", "extract_half", "extend_from_within", "splice_fewer", "splice_more", "split_off", "resize",
            ]);
            fixed!(report, arrayvec |it| arrayvec::ArrayVec::try_from(it).unwrap());
            of_dates::<arrayvec::ArrayString<64>>(&report);
        }
        Some("vec") => {
            let report = of(&[]);
            fixed!(report, vec_of |it| it.to_vec());
            growing!(report, vec_of |it| it.to_vec());
            for n in [4, 16, 64, 16384] {
                of_text(&report.with_prefix("text_"), n);
            }
            of_dates::<String>(&report);
            of_text(&report.with_prefix("heap_text_"), 64);
        }
        _ => return false,
    }
    true
}

fn of_bytes<T: Item, V: Owned<T> + PartialOrd + Hash>(report: &Report, source: &[T]) {
    of_items::<T, V>(report, source);
    looks(report, &mut V::new(), &mut V::new(), source);
}

fn of_owner<V: Owned<u64> + PartialOrd + Hash + IntoIterator<Item = u64>>(report: &Report, n: usize, make: fn(&[u64]) -> V) {
    of_made(report, &runs_of(n), make);
    of_heap(report, n, V::new);
    looks(report, &mut V::new(), &mut V::new(), &runs_of(n));
}

fn of_heap<V: Owned<u64>>(report: &Report, n: usize, make: fn() -> V) {
    let (vec, other) = (&mut make(), &mut make());
    of_owned(report, vec, other, &runs_of(n));
    of_numbers(report, vec, other, &runs_of(n));
}

fn of_slice(report: &Report, n: usize) {
    let (mut slots, mut others) = (vec![0; n], vec![0; n]);
    let (mut vec, mut other) = (SliceVec::from_slice_len(&mut slots, 0), SliceVec::from_slice_len(&mut others, 0));
    of_numbers(report, &mut vec, &mut other, &runs_of(n));
}
