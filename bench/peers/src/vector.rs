//! The calls that the benchmarks make, at each of the peers.

use crate::calls::sum_of;
use crate::items::Item;
use std::ops::Range;

/// A vector. A call that it lacks panics: its rows are left out.
pub trait Vector<T: Item> {
    fn as_slice(&self) -> &[T];
    fn as_mut_slice(&mut self) -> &mut [T];
    fn push(&mut self, x: T);
    fn pop(&mut self) -> Option<T>;
    fn insert(&mut self, i: usize, x: T);
    fn remove(&mut self, i: usize) -> T;
    fn swap_remove(&mut self, i: usize) -> T;
    fn truncate(&mut self, n: usize);
    fn clear(&mut self);
    fn extend(&mut self, items: impl Iterator<Item = T>);
    fn drain(&mut self, range: Range<usize>) -> impl Iterator<Item = T>;
    fn retain(&mut self, keeps: impl FnMut(&T) -> bool);
    fn extend_from_slice(&mut self, source: &[T]);

    /// Moves the border behind no item. What stood there is not written.
    fn empty(&mut self);

    fn append(&mut self, _other: &mut Self) {
        unreachable!()
    }

    fn extend_from_within(&mut self) {
        unreachable!()
    }

    fn dedup(&mut self)
    where
        T: PartialEq,
    {
        unreachable!()
    }

    fn sum_of_extracted(&mut self, _x: u64) -> u64 {
        unreachable!()
    }

    fn splice(&mut self, _range: Range<usize>, _items: impl Iterator<Item = T>) {
        unreachable!()
    }

    fn resize(&mut self, _n: usize, _x: T) {
        unreachable!()
    }

    fn split_off(&mut self, _at: usize) -> Self
    where
        Self: Sized,
    {
        unreachable!()
    }

    /// Puts the items in the place of a range, by block copies. A `splice` reads its iterator item by item, and that of `tinyvec`
    /// moves what follows for each; a rotation costs more at some lengths than at others.
    #[inline(always)]
    fn replace_range(&mut self, range: Range<usize>, items: &[T])
    where
        T: Copy,
    {
        let (start, end, len, new) = (range.start, range.end, self.as_slice().len(), items.len());
        let old = end - start;
        if new <= old {
            let list = self.as_mut_slice();
            list[start..start + new].copy_from_slice(items);
            if new < old {
                list.copy_within(end.., start + new);
                self.truncate(len - (old - new));
            }
            return;
        }
        let more = new - old;
        self.extend_from_slice(&items[..more]);
        let list = self.as_mut_slice();
        list.copy_within(end..len, end + more);
        list[start..start + new].copy_from_slice(items);
    }
}

/// One that owns its slots.
pub trait Owned<T: Item>: Vector<T> + Clone {
    fn new() -> Self;
}

/// One that grows.
pub trait Growing<T: Item>: Owned<T> {
    /// An empty one on the heap.
    fn on_heap() -> Self;
    fn reserve(&mut self, n: usize);
    fn shrink_to_fit(&mut self);
    fn collected(items: impl Iterator<Item = T>) -> Self;
}

/// Writes calls that go by the same name.
macro_rules! same {
    ($($name:ident($($x:ident: $type:ty),*) $(-> $result:ty)?;)*) => {
        $(#[inline(always)]
        fn $name(&mut self, $($x: $type),*) $(-> $result)? {
            self.$name($($x),*)
        })*
    };
}

/// Those that each peer has.
macro_rules! shared_calls {
    () => {
        same! {
            push(x: T);
            pop() -> Option<T>;
            insert(i: usize, x: T);
            remove(i: usize) -> T;
            swap_remove(i: usize) -> T;
            truncate(n: usize);
            clear();
            drain(range: Range<usize>) -> impl Iterator<Item = T>;
        }

        #[inline(always)]
        fn as_slice(&self) -> &[T] {
            self
        }

        #[inline(always)]
        fn as_mut_slice(&mut self) -> &mut [T] {
            self
        }

        #[inline(always)]
        fn extend(&mut self, items: impl Iterator<Item = T>) {
            Extend::extend(self, items)
        }
    };
}

macro_rules! retain {
    () => {
        #[inline(always)]
        fn retain(&mut self, keeps: impl FnMut(&T) -> bool) {
            self.retain(keeps)
        }
    };
    (mutable) => {
        #[inline(always)]
        fn retain(&mut self, mut keeps: impl FnMut(&T) -> bool) {
            self.retain(|x| keeps(x))
        }
    };
}

macro_rules! splice {
    () => {
        #[inline(always)]
        fn splice(&mut self, range: Range<usize>, items: impl Iterator<Item = T>) {
            drop(self.splice(range, items))
        }
    };
}

macro_rules! empty {
    () => {
        #[inline(always)]
        fn empty(&mut self) {
            // No item that a benchmark leaves owns anything.
            unsafe { self.set_len(0) }
        }
    };
}

macro_rules! owned {
    () => {
        #[inline(always)]
        fn new() -> Self {
            Self::new()
        }
    };
}

macro_rules! growing {
    () => {
        same! {
            reserve(n: usize);
            shrink_to_fit();
        }

        #[inline(always)]
        fn collected(items: impl Iterator<Item = T>) -> Self {
            items.collect()
        }
    };
}

impl<T: Item, const N: usize> Vector<T> for tinyvec::ArrayVec<[T; N]> {
    shared_calls!();
    retain!();
    splice!();
    same! {
        extend_from_slice(source: &[T]);
        append(other: &mut Self);
        resize(n: usize, x: T);
        split_off(at: usize) -> Self;
    }

    #[inline(always)]
    fn empty(&mut self) {
        self.set_len(0)
    }
}

impl<T: Item, const N: usize> Owned<T> for tinyvec::ArrayVec<[T; N]> {
    owned!();
}

impl<T: Item> Vector<T> for tinyvec::SliceVec<'_, T> {
    shared_calls!();
    retain!();
    same! {
        extend_from_slice(source: &[T]);
        append(other: &mut Self);
    }

    #[inline(always)]
    fn empty(&mut self) {
        self.set_len(0)
    }
}

impl<T: Item, const N: usize> Vector<T> for tinyvec::TinyVec<[T; N]>
where
    [T; N]: tinyvec::Array<Item = T>,
{
    shared_calls!();
    retain!();
    splice!();
    same! {
        extend_from_slice(source: &[T]);
        append(other: &mut Self);
        resize(n: usize, x: T);
        split_off(at: usize) -> Self;
    }

    #[inline(always)]
    fn empty(&mut self) {
        self.truncate(0)
    }
}

impl<T: Item, const N: usize> Owned<T> for tinyvec::TinyVec<[T; N]>
where
    [T; N]: tinyvec::Array<Item = T>,
{
    owned!();
}

impl<T: Item, const N: usize> Growing<T> for tinyvec::TinyVec<[T; N]>
where
    [T; N]: tinyvec::Array<Item = T>,
{
    growing!();

    fn on_heap() -> Self {
        Self::Heap(Vec::new())
    }
}

impl<T: Item, const N: usize> Vector<T> for smallvec::SmallVec<[T; N]> {
    shared_calls!();
    retain!(mutable);
    empty!();
    same! {
        append(other: &mut Self);
        resize(n: usize, x: T);
    }

    #[inline(always)]
    fn extend_from_slice(&mut self, source: &[T]) {
        T::extend_small(self, source)
    }

    #[inline(always)]
    fn dedup(&mut self)
    where
        T: PartialEq,
    {
        self.dedup()
    }
}

impl<T: Item, const N: usize> Owned<T> for smallvec::SmallVec<[T; N]> {
    owned!();
}

impl<T: Item, const N: usize> Growing<T> for smallvec::SmallVec<[T; N]> {
    growing!();

    fn on_heap() -> Self {
        // Room for `N` items would be that of the array.
        Self::with_capacity(N + 1)
    }
}

impl<T: Item, const N: usize> Vector<T> for arrayvec::ArrayVec<T, N> {
    shared_calls!();
    retain!(mutable);
    empty!();

    #[inline(always)]
    fn extend_from_slice(&mut self, source: &[T]) {
        T::extend_array(self, source)
    }
}

impl<T: Item, const N: usize> Owned<T> for arrayvec::ArrayVec<T, N> {
    owned!();
}

impl<T: Item> Vector<T> for Vec<T> {
    shared_calls!();
    retain!();
    splice!();
    empty!();
    same! {
        extend_from_slice(source: &[T]);
        append(other: &mut Self);
        resize(n: usize, x: T);
        split_off(at: usize) -> Self;
    }

    #[inline(always)]
    fn extend_from_within(&mut self) {
        self.extend_from_within(..)
    }

    #[inline(always)]
    fn dedup(&mut self)
    where
        T: PartialEq,
    {
        self.dedup()
    }

    #[inline(always)]
    fn sum_of_extracted(&mut self, x: u64) -> u64 {
        sum_of(self.extract_if(.., |it| it.value() % 2 == 1), x)
    }
}

impl<T: Item> Owned<T> for Vec<T> {
    owned!();
}

impl<T: Item> Growing<T> for Vec<T> {
    growing!();

    fn on_heap() -> Self {
        Self::new()
    }
}
