//! Questions about two nodes, or about the first of them. Each answer is a number.

use crate::{mixed, Graph};
use petgraph::graph::NodeIndex;
use petgraph::visit::{Bfs, Dfs, DfsPostOrder, VisitMap};
use std::collections::VecDeque;

/// A sum over nodes in any order.
fn set_sum(nodes: impl Iterator<Item = NodeIndex>) -> u64 {
    nodes.fold(0, |sum, n| {
        let i = n.index() as u64;
        sum.wrapping_add(i.wrapping_mul(i)).wrapping_add(1)
    })
}

/// A sum over nodes in their order.
fn list_sum(nodes: impl Iterator<Item = NodeIndex>) -> u64 {
    nodes.fold(0, |sum, n| mixed(sum, n.index() as u64))
}

/// The nodes of a shortest path, found by a search that goes breadth first and notes from where it came to each node.
fn shortest_path<G: Graph>(graph: G, a: NodeIndex, b: NodeIndex) -> Option<Vec<NodeIndex>> {
    let mut parents = vec![NodeIndex::end(); graph.node_bound()];
    let mut seen = graph.visit_map();
    seen.visit(a);
    let mut queue = VecDeque::from([a]);
    while let Some(n) = queue.pop_front() {
        if n == b {
            let mut path = vec![b];
            let mut last = b;
            while last != a {
                last = parents[last.index()];
                path.push(last);
            }
            path.reverse();
            return Some(path);
        }
        for child in graph.neighbors(n) {
            if seen.visit(child) {
                parents[child.index()] = n;
                queue.push_back(child);
            }
        }
    }
    None
}

pub fn path<G: Graph>(graph: G, a: NodeIndex, b: NodeIndex) -> u64 {
    list_sum(shortest_path(graph, a, b).into_iter().flatten())
}

pub fn descendants<G: Graph>(graph: G, a: NodeIndex) -> u64 {
    let mut found = Vec::new();
    let mut walk = Dfs::new(graph, a);
    while let Some(n) = walk.next(graph) {
        if n != a {
            found.push(n);
        }
    }
    set_sum(found.into_iter())
}

pub fn breadth_first<G: Graph>(graph: G, a: NodeIndex) -> u64 {
    let mut walk = Bfs::new(graph, a);
    list_sum(std::iter::from_fn(|| walk.next(graph)))
}

/// petgraph goes on with the last neighbor of a node, and ours with the first.
pub fn depth_first<G: Graph>(graph: G, a: NodeIndex) -> u64 {
    let mut walk = Dfs::new(graph, a);
    set_sum(std::iter::from_fn(|| walk.next(graph)))
}

pub fn in_postorder<G: Graph>(graph: G, a: NodeIndex) -> u64 {
    let mut walk = DfsPostOrder::new(graph, a);
    set_sum(std::iter::from_fn(|| walk.next(graph)))
}
