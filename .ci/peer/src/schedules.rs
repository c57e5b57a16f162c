//! Orders and schedules of all nodes.

use crate::{mixed, Graph};
use petgraph::algo::toposort;
use petgraph::graph::NodeIndex;
use petgraph::visit::EdgeRef;
use std::collections::VecDeque;

/// A topological order.
pub fn sorted<G: Graph>(graph: G) -> Vec<NodeIndex> {
    toposort(graph, None).unwrap_or_default()
}

/// The nodes as they become ready, each after its parents.
pub fn ready<G: Graph>(graph: G) -> Vec<NodeIndex> {
    let mut waiting = vec![0u32; graph.node_bound()];
    for edge in graph.edge_references() {
        waiting[edge.target().index()] += 1;
    }
    let mut queue: VecDeque<_> = graph
        .node_identifiers()
        .filter(|n| waiting[n.index()] == 0)
        .collect();
    let mut order = Vec::new();
    while let Some(n) = queue.pop_front() {
        order.push(n);
        for child in graph.neighbors(n) {
            waiting[child.index()] -= 1;
            if waiting[child.index()] == 0 {
                queue.push_back(child);
            }
        }
    }
    order
}

/// A number that is the same for each topological order of the nodes.
pub fn order_sum(order: &[NodeIndex], pairs: &[(u32, u32)]) -> u64 {
    let mut place = vec![0; order.len()];
    let mut sum = 0u64;
    for (i, n) in order.iter().enumerate() {
        place[n.index()] = i;
        sum = sum.wrapping_add(n.index() as u64);
    }
    let ascending = pairs
        .iter()
        .filter(|(parent, child)| place[*parent as usize] < place[*child as usize])
        .count();
    mixed(sum, ascending as u64)
}

/// When each node starts at the earliest, how much later it may, and a critical path.
pub struct Schedule {
    starts: Vec<u64>,
    slack: Vec<u64>,
    makespan: u64,
    critical: Vec<NodeIndex>,
}

impl Schedule {
    /// A number of it that does not depend on which critical path it has.
    pub fn sum<G: Graph>(&self, graph: G) -> u64 {
        let mut sum = self.makespan;
        for (start, slack) in self.starts.iter().zip(&self.slack) {
            sum = mixed(mixed(sum, *start), *slack);
        }
        let length = self.critical.iter().map(|n| duration(graph, *n)).sum();
        mixed(sum, length)
    }
}

fn duration<G: Graph>(graph: G, n: NodeIndex) -> u64 {
    graph
        .node_weight(n)
        .map_or(0, |weight| *weight as u64 % 100 + 1)
}

pub fn schedule<G: Graph>(graph: G) -> Schedule {
    let order = sorted(graph);
    let bound = graph.node_bound();
    let mut starts = vec![0u64; bound];
    let mut finishes = vec![0u64; bound];
    let mut parents = vec![NodeIndex::end(); bound];
    let mut makespan = 0;
    let mut last = NodeIndex::end();
    for &n in &order {
        let finish = starts[n.index()] + duration(graph, n);
        finishes[n.index()] = finish;
        if finish >= makespan {
            makespan = finish;
            last = n;
        }
        for child in graph.neighbors(n) {
            if starts[child.index()] <= finish {
                starts[child.index()] = finish;
                parents[child.index()] = n;
            }
        }
    }
    let mut slack = vec![0u64; bound];
    for &n in order.iter().rev() {
        let latest = graph
            .neighbors(n)
            .map(|child| starts[child.index()] + slack[child.index()])
            .fold(makespan, u64::min);
        slack[n.index()] = latest - finishes[n.index()];
    }
    let mut critical = Vec::new();
    while last != NodeIndex::end() {
        critical.push(last);
        last = parents[last.index()];
    }
    critical.reverse();
    Schedule {
        starts,
        slack,
        makespan,
        critical,
    }
}
