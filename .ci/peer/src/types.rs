//! Graphs with indices and weights of other types, and what the two kinds do each by a method of its own.

use crate::{median, mixed, Request};
use petgraph::data::Create;
use petgraph::graph::{DiGraph, EdgeIndex, IndexType, NodeIndex};
use petgraph::stable_graph::StableDiGraph;

pub trait Kind<W, Ix>:
    Create<NodeId = NodeIndex<Ix>, EdgeId = EdgeIndex<Ix>, NodeWeight = W, EdgeWeight = W>
{
    /// The index of an edge from a node to another, or the greatest number if there is none.
    fn found(&self, a: NodeIndex<Ix>, b: NodeIndex<Ix>) -> u64;

    /// A number of the walk over the children of a node.
    fn walked(&self, n: NodeIndex<Ix>) -> u64;
}

macro_rules! kind {
    ($graph:ident) => {
        impl<W, Ix: IndexType> Kind<W, Ix> for $graph<W, W, Ix> {
            fn found(&self, a: NodeIndex<Ix>, b: NodeIndex<Ix>) -> u64 {
                self.find_edge(a, b).map_or(u64::MAX, |e| e.index() as u64)
            }

            fn walked(&self, n: NodeIndex<Ix>) -> u64 {
                let mut walker = self.neighbors(n).detach();
                let mut sum = 0;
                while let Some((e, child)) = walker.next(self) {
                    sum = mixed(sum, e.index() as u64 ^ child.index() as u64);
                }
                sum
            }
        }
    };
}

kind!(DiGraph);
kind!(StableDiGraph);

/// The graph of these edges. Its lists grow as it does.
fn build<W, Ix: IndexType, G: Kind<W, Ix>>(
    nodes: Vec<W>,
    pairs: &[(u32, u32)],
    edges: Vec<W>,
) -> G {
    let mut graph = G::with_capacity(0, 0);
    for weight in nodes {
        graph.add_node(weight);
    }
    for (&(parent, child), weight) in pairs.iter().zip(edges) {
        graph.add_edge(
            NodeIndex::new(parent as usize),
            NodeIndex::new(child as usize),
            weight,
        );
    }
    graph
}

fn numbers(count: usize) -> Vec<i64> {
    (0..count as i64).collect()
}

fn texts(count: usize) -> Vec<String> {
    (0..count).map(|i| i.to_string()).collect()
}

/// Walks over the children of each node, ten times.
pub fn walk<Ix: IndexType, G: Kind<i64, Ix>>(
    request: &Request,
    pairs: &[(u32, u32)],
) -> (f64, u64) {
    let graph: G = build(numbers(request.nodes as usize), pairs, numbers(pairs.len()));
    median(request.reps, || {
        let mut check = 0u64;
        for _ in 0..request.rounds {
            for n in 0..request.nodes {
                check = check.wrapping_add(graph.walked(NodeIndex::new(n as usize)));
            }
        }
        check
    })
}

/// Looks for each edge by its ends.
pub fn find_edges<G: Kind<i64, u32>>(request: &Request, pairs: &[(u32, u32)]) -> (f64, u64) {
    let graph: G = build(numbers(request.nodes as usize), pairs, numbers(pairs.len()));
    median(request.reps, || {
        pairs.iter().fold(0, |check, &(a, b)| {
            mixed(
                check,
                graph.found(NodeIndex::new(a as usize), NodeIndex::new(b as usize)),
            )
        })
    })
}

/// Copies weights that own memory, and builds and drops a graph of the copies.
pub fn build_texts<G: Kind<String, u32>>(request: &Request, pairs: &[(u32, u32)]) -> (f64, u64) {
    let nodes = texts(request.nodes as usize);
    let edges = texts(pairs.len());
    median(request.reps, || {
        let graph: G = build(nodes.clone(), pairs, edges.clone());
        drop(graph);
        pairs.len() as u64
    })
}
