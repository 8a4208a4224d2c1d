//! A graph that is built, pruned and walked. Its nodes list those that follow them.

use crate::items::Item;
use crate::vector::Owned;

/// An edge, by the numbers of its nodes.
#[derive(Clone, Copy)]
pub struct Edge {
    from: usize,
    to: u32,
}

/// Three edges for each node, from any to any.
pub fn edges_of(count: usize) -> Vec<Edge> {
    let nodes = count as u64;
    let mut state: u64 = 1;
    let mut next = || {
        // A step of Knuth's linear congruential generator.
        state = state.wrapping_mul(6364136223846793005).wrapping_add(1442695040888963407);
        let number = state / 4294967296;
        Edge { from: (number % nodes) as usize, to: u32::of(number / nodes % nodes) }
    };
    (0..3 * count).map(|_| next()).collect()
}

/// Builds a graph of so many nodes, drops some of its edges, and adds up what is reached.
#[inline(never)]
pub fn graph<V: Owned<u32>>(edges: &[Edge], count: usize, x: u64) -> u64 {
    let mut nodes = built::<V>(edges, count);
    prune(&mut nodes);
    walk(&nodes, x)
}

#[inline(never)]
fn built<V: Owned<u32>>(edges: &[Edge], count: usize) -> Vec<V> {
    let mut nodes = Vec::new();
    nodes.resize_with(count, V::new);
    for edge in edges {
        nodes[edge.from].push(edge.to);
    }
    nodes
}

// Drops the edges to every fourth node, and the first of those that are left of a node with more than two.
#[inline(never)]
fn prune<V: Owned<u32>>(nodes: &mut [V]) {
    for node in nodes {
        node.retain(|to| to % 4 != 0);
        if node.as_slice().len() > 2 {
            node.swap_remove(0);
        }
    }
}

// Goes from a node to those that follow it, and on from these, each once, and mixes their numbers in that order.
#[inline(never)]
fn walk<V: Owned<u32>>(nodes: &[V], x: u64) -> u64 {
    let mut marks = vec![false; nodes.len()];
    let mut reached = Vec::with_capacity(nodes.len());
    reached.push(u32::of(x % 64));
    let mut sum = x;
    let mut at = 0;
    while let Some(&node) = reached.get(at) {
        sum = sum.rotate_left(5) ^ node as u64;
        for &to in nodes[node as usize].as_slice() {
            let mark = &mut marks[to as usize];
            if !*mark {
                *mark = true;
                reached.push(to);
            }
        }
        at += 1;
    }
    sum
}
