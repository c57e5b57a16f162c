//! Both kinds of dag of the Rust crate, by plain indices.

use crate::words::Triple;
use daggy::stable_dag::StableDag;
use daggy::{Dag, EdgeIndex, NodeIndex, Walker};
use petgraph::algo::is_cyclic_directed;
use petgraph::visit::NodeIndexable;
use serde_json::Value;

pub type Compact = Dag<i64, i64, u32>;
pub type Stable = StableDag<i64, i64, u32>;

/// A dag of either kind. Calls that add edges are given nodes that exist.
pub trait Kind {
    fn empty() -> Self;
    /// One more than the greatest index of a node, or more.
    fn node_slots(&self) -> usize;
    fn has_node(&self, n: usize) -> bool;
    fn add_node(&mut self, weight: i64) -> usize;
    fn add_edge(&mut self, a: usize, b: usize, weight: i64) -> Result<usize, i64>;
    fn update_edge(&mut self, a: usize, b: usize, weight: i64) -> Result<usize, i64>;
    /// Adds a child of a node, or a parent. Returns the indices of the edge and the node.
    fn add_near(&mut self, n: usize, edge: i64, node: i64, child: bool) -> (usize, usize);
    /// Whether the graph would have a cycle with all these edges.
    fn would_be_cyclic(&self, items: &[Triple]) -> bool;
    fn find_edge(&self, a: usize, b: usize) -> Option<usize>;
    fn ends(&self, e: usize) -> Option<(usize, usize)>;
    /// The edges that leave a node with its children, or those that enter it with its parents.
    fn near(&self, n: usize, children: bool) -> Vec<(usize, usize)>;
    fn remove_node(&mut self, n: usize) -> Option<i64>;
    fn remove_edge(&mut self, e: usize) -> Option<i64>;
    fn clear_edges(&mut self);
    fn clear(&mut self);
    fn json(&self) -> Value;
}

fn node(n: usize) -> NodeIndex<u32> {
    NodeIndex::new(n)
}

fn edge(e: usize) -> EdgeIndex<u32> {
    EdgeIndex::new(e)
}

macro_rules! kind {
    ($name:ident) => {
        impl Kind for $name {
            fn empty() -> Self {
                Self::new()
            }
            fn node_slots(&self) -> usize {
                self.graph().node_bound()
            }
            fn has_node(&self, n: usize) -> bool {
                self.node_weight(node(n)).is_some()
            }
            fn add_node(&mut self, weight: i64) -> usize {
                $name::add_node(self, weight).index()
            }
            fn add_edge(&mut self, a: usize, b: usize, weight: i64) -> Result<usize, i64> {
                let added = $name::add_edge(self, node(a), node(b), weight);
                added.map(|e| e.index()).map_err(|refused| refused.0)
            }
            fn update_edge(&mut self, a: usize, b: usize, weight: i64) -> Result<usize, i64> {
                let updated = $name::update_edge(self, node(a), node(b), weight);
                updated.map(|e| e.index()).map_err(|refused| refused.0)
            }
            fn add_near(&mut self, n: usize, of_edge: i64, of_node: i64, child: bool) -> (usize, usize) {
                let (e, m) = if child {
                    self.add_child(node(n), of_edge, of_node)
                } else {
                    self.add_parent(node(n), of_edge, of_node)
                };
                (e.index(), m.index())
            }
            fn would_be_cyclic(&self, items: &[Triple]) -> bool {
                let mut graph = self.graph().clone();
                for (a, b, weight) in items {
                    graph.add_edge(node(*a), node(*b), *weight);
                }
                is_cyclic_directed(&graph)
            }
            fn find_edge(&self, a: usize, b: usize) -> Option<usize> {
                $name::find_edge(self, node(a), node(b)).map(|e| e.index())
            }
            fn ends(&self, e: usize) -> Option<(usize, usize)> {
                let ends = self.edge_endpoints(edge(e));
                ends.map(|(a, b)| (a.index(), b.index()))
            }
            fn near(&self, n: usize, children: bool) -> Vec<(usize, usize)> {
                let plain = |(e, m): (EdgeIndex<u32>, NodeIndex<u32>)| (e.index(), m.index());
                if children {
                    self.children(node(n)).iter(self).map(plain).collect()
                } else {
                    self.parents(node(n)).iter(self).map(plain).collect()
                }
            }
            fn remove_node(&mut self, n: usize) -> Option<i64> {
                $name::remove_node(self, node(n))
            }
            fn remove_edge(&mut self, e: usize) -> Option<i64> {
                $name::remove_edge(self, edge(e))
            }
            fn clear_edges(&mut self) {
                $name::clear_edges(self)
            }
            fn clear(&mut self) {
                $name::clear(self)
            }
            fn json(&self) -> Value {
                serde_json::to_value(self).expect("numbers can be written")
            }
        }
    };
}

kind!(Compact);
kind!(Stable);
