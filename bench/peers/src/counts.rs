//! Two programs: each line of standard input is a number, and is answered by one.

use crate::calls::editor;
use crate::graph::{edges_of, graph};
use crate::items::runs_of;
use crate::vector::Owned;
use std::io;

/// A graph has so many nodes, and a list up to so many items.
const MOST: usize = 1000;

/// Answers each line by the walk through a graph with three times as many edges.
pub fn answer_graphs<V: Owned<u32>>() -> io::Result<()> {
    let edges = edges_of(MOST);
    answer(|number| graph::<V>(&edges[..edges.len().min(3 * number)], MOST, 0))
}

/// Answers each line by an edit of a list of so many items. One list serves all lines.
pub fn answer_edits<V: Owned<u64>>() -> io::Result<()> {
    let source = runs_of(MOST);
    let mut list = V::new();
    answer(|number| editor(&mut list, &source[..source.len().min(number)], number as u64))
}

fn answer(mut answer_to: impl FnMut(usize) -> u64) -> io::Result<()> {
    for line in io::stdin().lines() {
        println!("{}", answer_to(line?.parse().unwrap_or(1)));
    }
    Ok(())
}
