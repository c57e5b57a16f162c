//! Reductions by petgraph's `algo::tred`, which makes a new graph and a closure.
use crate::inputs::{chain_pairs, complete_pairs, diamond_pairs, local_pairs, low_high_pairs};
use crate::{build, median, Request};
use petgraph::algo::toposort;
use petgraph::algo::tred::{dag_to_toposorted_adjacency_list, dag_transitive_reduction_closure};
use petgraph::graph::{DiGraph, NodeIndex};

/// The edges of the dag that a workload reduces, if it reduces one.
pub fn pairs_of(request: &Request) -> Option<Vec<(u32, u32)>> {
    let (nodes, edges) = (request.nodes, request.edges);
    match request.name.as_str() {
        "reduce_random" => Some(low_high_pairs(nodes, edges)),
        "reduce_local" => Some(local_pairs(nodes, edges)),
        "reduce_chain" => Some(chain_pairs(nodes)),
        "reduce_complete" => Some(complete_pairs(nodes)),
        "reduce_diamonds" => Some(diamond_pairs(nodes)),
        _ => None,
    }
}

/// The time of a reduction, and how many of the edges have ends that it still joins.
pub fn reduce(request: &Request, pairs: &[(u32, u32)]) -> (f64, u64) {
    let graph: DiGraph<i64, i64> = build(request.nodes, pairs);
    let (time, (reduced, places)) = median(request.reps, || {
        let order = toposort(&graph, None).expect("the graph is acyclic");
        let (sorted, places) = dag_to_toposorted_adjacency_list::<_, NodeIndex>(&graph, &order);
        let (reduced, _closure) = dag_transitive_reduction_closure(&sorted);
        (reduced, places)
    });
    let is_kept =
        |&&(a, b): &&(u32, u32)| reduced.contains_edge(places[a as usize], places[b as usize]);
    (time, pairs.iter().filter(is_kept).count() as u64)
}
