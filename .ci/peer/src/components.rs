//! Components, condensations and cycles of graphs that may have cycles.

use crate::inputs::Shape;
use crate::{build, median, median_after, Graph, Request};
use petgraph::algo::{
    condensation, greedy_feedback_arc_set, has_path_connecting, is_cyclic_directed, tarjan_scc,
    DfsSpace,
};
use petgraph::graph::{DiGraph, NodeIndex};
use petgraph::stable_graph::StableDiGraph;
use petgraph::visit::{EdgeRef, IntoEdges};

type Condensed = DiGraph<Vec<i64>, i64>;

/// A number of the components that does not depend on their order.
fn sizes_sum(components: &[Vec<NodeIndex>]) -> u64 {
    components
        .iter()
        .fold(components.len() as u64, |sum, members| {
            let size = members.len() as u64;
            sum.wrapping_add(size.wrapping_mul(size))
        })
}

/// How many nodes a condensation has, and how many edges between two of them.
fn count_sum(graph: &Condensed) -> u64 {
    let edges = graph.edge_references().filter(|e| e.source() != e.target());
    (graph.node_count() as u64)
        .wrapping_mul(31)
        .wrapping_add(edges.count() as u64)
}

/// The same with the sum of the weights of these edges.
fn weight_sum(graph: &Condensed) -> u64 {
    graph
        .edge_references()
        .filter(|e| e.source() != e.target())
        .fold(count_sum(graph), |sum, e| {
            sum.wrapping_add(*e.weight() as u64)
        })
}

/// The time of a condensation, which consumes a copy of the graph that is not timed, and a number of it.
fn condense(
    request: &Request,
    graph: &DiGraph<i64, i64>,
    make_acyclic: bool,
    number: fn(&Condensed) -> u64,
) -> (f64, u64) {
    let (time, condensed) = median_after(
        request.reps,
        || graph.clone(),
        |copy| condensation(copy, make_acyclic),
    );
    (time, number(&condensed))
}

/// The edges of a cycle: a walk depth first that keeps the edges along its way.
fn find_cycle<G: Graph + IntoEdges>(graph: G) -> Option<Vec<G::EdgeId>> {
    let mut places = vec![usize::MAX; graph.node_bound()];
    let mut way = Vec::new();
    for root in graph.node_identifiers() {
        if places[root.index()] != usize::MAX {
            continue;
        }
        places[root.index()] = 0;
        let mut open = vec![(root, graph.edges(root))];
        while let Some((n, edges)) = open.last_mut() {
            let Some(edge) = edges.next() else {
                places[n.index()] = usize::MAX - 1;
                open.pop();
                way.pop();
                continue;
            };
            let child = edge.target();
            match places[child.index()] {
                usize::MAX => {
                    places[child.index()] = open.len();
                    way.push(edge.id());
                    open.push((child, graph.edges(child)));
                }
                done if done == usize::MAX - 1 => {}
                place => {
                    way.push(edge.id());
                    return Some(way.split_off(place));
                }
            }
        }
    }
    None
}

/// The edges that are refused if each is added unless a path leads back from its child.
fn refused(graph: &DiGraph<i64, i64>) -> Vec<usize> {
    let mut kept: DiGraph<(), ()> = DiGraph::with_capacity(graph.node_count(), graph.edge_count());
    for _ in graph.node_indices() {
        kept.add_node(());
    }
    let mut space = DfsSpace::new(&kept);
    let mut refused = Vec::new();
    for edge in graph.edge_references() {
        let (a, b) = (edge.source(), edge.target());
        if has_path_connecting(&kept, b, a, Some(&mut space)) {
            refused.push(edge.id().index());
        } else {
            kept.add_edge(a, b, ());
        }
    }
    refused
}

/// The time and the number of a question to a graph of either kind, if it is one.
fn ask<G: Graph + IntoEdges>(graph: G, request: &Request, question: &str) -> Option<(f64, u64)> {
    let figures = match question {
        "components" => {
            let (time, components) = median(request.reps, || tarjan_scc(graph));
            (time, sizes_sum(&components))
        }
        "find_cycle" => {
            let (time, cycle) = median(request.reps, || find_cycle(graph));
            (time, u64::from(cycle.is_some()))
        }
        "is_acyclic" => {
            let (time, cyclic) = median(request.reps, || is_cyclic_directed(graph));
            (time, u64::from(cyclic))
        }
        _ => return None,
    };
    Some(figures)
}

/// The time and the number of a question that petgraph answers for compact graphs alone, if it is one.
fn ask_compact(graph: &DiGraph<i64, i64>, request: &Request, question: &str) -> Option<(f64, u64)> {
    let figures = match question {
        "condensed_dag" => condense(request, graph, true, count_sum),
        "all_edges" => condense(request, graph, false, weight_sum),
        "fold" => condense(request, graph, true, weight_sum),
        "feedback_arc_set" => {
            let (time, edges) = median(request.reps, || refused(graph));
            (time, edges.len() as u64)
        }
        "greedy_feedback_arc_set" => {
            let (time, count) = median(request.reps, || greedy_feedback_arc_set(graph).count());
            (time, count as u64)
        }
        _ => return None,
    };
    Some(figures)
}

/// The time and the check value of a workload, if it is one of these: a question, and a shape.
pub fn run(request: &Request) -> Option<(f64, u64)> {
    let (question, shape) = Shape::split(&request.name)?;
    let pairs = shape.pairs(request.nodes, request.edges);
    if request.stable {
        let graph: StableDiGraph<i64, i64> = build(request.nodes, &pairs);
        return ask(&graph, request, question);
    }
    let graph: DiGraph<i64, i64> = build(request.nodes, &pairs);
    ask(&graph, request, question).or_else(|| ask_compact(&graph, request, question))
}
