//! What the benchmarks' lists hold, and what they are filled with.

use smallvec::SmallVec;

/// An item that is made from a `u64` and adds up to one.
pub trait Item: Clone + Default {
    fn of(x: u64) -> Self;

    fn value(&self) -> u64;

    /// Appends the items. Those that are copied go as a block.
    fn extend_small<const N: usize>(vec: &mut SmallVec<[Self; N]>, source: &[Self]) {
        vec.extend(source.iter().cloned());
    }

    fn extend_array<const N: usize>(vec: &mut arrayvec::ArrayVec<Self, N>, source: &[Self]) {
        vec.extend(source.iter().cloned());
    }
}

macro_rules! copied {
    ($item:ty, $x:ident: $of:expr, $self:ident: $value:expr) => {
        impl Item for $item {
            fn of($x: u64) -> Self {
                $of
            }

            fn value(&$self) -> u64 {
                $value
            }

            fn extend_small<const N: usize>(vec: &mut SmallVec<[Self; N]>, source: &[Self]) {
                vec.extend_from_slice(source);
            }

            fn extend_array<const N: usize>(vec: &mut arrayvec::ArrayVec<Self, N>, source: &[Self]) {
                vec.try_extend_from_slice(source).unwrap();
            }
        }
    };
}

copied!(u64, x: x, self: *self);
copied!(u32, x: x as u32, self: u64::from(*self));
copied!(u8, x: x as u8, self: u64::from(*self));
copied!((u64, u64), x: (x, 1), self: self.0);

/// A node of a tree, which owns what follows it. The rows make nodes that have nothing.
#[derive(Clone, Default)]
pub struct Node {
    kind: u64,
    #[allow(dead_code)]
    next: Option<Box<u64>>,
}

impl Item for Node {
    fn of(x: u64) -> Node {
        Node { kind: x, next: None }
    }

    fn value(&self) -> u64 {
        self.kind
    }
}

/// How many items there are, the value of one of them and `x`, added up.
pub fn look_at<T: Item>(items: &[T], x: u64) -> u64 {
    let value = items.get((x % 64) as usize).map_or(0, Item::value);
    x.wrapping_add(value).wrapping_add(items.len() as u64)
}

/// Runs of two, so many items in all.
pub fn runs_of<T: Item>(n: usize) -> Vec<T> {
    (0..n as u64).map(|i| T::of(i / 2)).collect()
}
