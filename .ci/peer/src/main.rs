//! Times what is written over petgraph alone, on the dags of `crates/benchmarks`:
//! `peer NAME NODES EDGES` prints `NAME NODES SECONDS`, and a check value on standard error. After
//! these, `--kind stable` selects a stable graph, `--reps COUNT` the median of COUNT runs, and
//! `--rounds COUNT` how often a run goes through a graph (10).

mod components;
mod inputs;
mod questions;
mod reductions;
mod schedules;
mod types;

use inputs::{asked_pairs, random_pairs};
use petgraph::algo::{has_path_connecting, DfsSpace};
use petgraph::data::{Create, DataMap};
use petgraph::graph::{DiGraph, NodeIndex};
use petgraph::stable_graph::StableDiGraph;
use petgraph::visit::{
    GraphBase, IntoEdgeReferences, IntoNeighborsDirected, IntoNodeIdentifiers, NodeIndexable,
    Visitable,
};
use std::process::exit;

/// A reference to a graph of either kind.
trait Graph:
    GraphBase<NodeId = NodeIndex>
    + DataMap<NodeWeight = i64>
    + IntoEdgeReferences
    + IntoNeighborsDirected
    + IntoNodeIdentifiers
    + NodeIndexable
    + Visitable
{
}

impl<G> Graph for G where
    G: GraphBase<NodeId = NodeIndex>
        + DataMap<NodeWeight = i64>
        + IntoEdgeReferences
        + IntoNeighborsDirected
        + IntoNodeIdentifiers
        + NodeIndexable
        + Visitable
{
}

/// What the arguments ask for.
struct Request {
    name: String,
    stable: bool,
    nodes: u32,
    edges: usize,
    reps: usize,
    rounds: usize,
}

impl Request {
    fn of_words(words: &[String]) -> Option<Request> {
        let [name, nodes, edges, options @ ..] = words else {
            return None;
        };
        let mut request = Request {
            name: name.clone(),
            stable: false,
            nodes: nodes.parse().ok()?,
            edges: edges.parse().ok()?,
            reps: 1,
            rounds: 10,
        };
        for option in options.chunks(2) {
            match option {
                [flag, kind] if flag == "--kind" && kind == "compact" => request.stable = false,
                [flag, kind] if flag == "--kind" && kind == "stable" => request.stable = true,
                [flag, count] if flag == "--reps" => request.reps = count.parse().ok()?,
                [flag, count] if flag == "--rounds" => request.rounds = count.parse().ok()?,
                _ => return None,
            }
        }
        (request.nodes >= 2 && request.reps > 0).then_some(request)
    }
}

/// The number so far with one more item in it.
fn mixed(sum: u64, item: u64) -> u64 {
    sum.wrapping_mul(31).wrapping_add(item)
}

/// The processor time that this process has used, in seconds.
fn processor_seconds() -> f64 {
    let mut time = libc::timespec {
        tv_sec: 0,
        tv_nsec: 0,
    };
    // The clock exists on each system that this is run on, and `time` outlives the call.
    let status = unsafe { libc::clock_gettime(libc::CLOCK_PROCESS_CPUTIME_ID, &mut time) };
    assert_eq!(status, 0, "no clock of processor time");
    time.tv_sec as f64 + time.tv_nsec as f64 / 1e9
}

/// Runs `run` `reps` times. Returns the median of the times, and the result of the last run.
fn median<T>(reps: usize, mut run: impl FnMut() -> T) -> (f64, T) {
    median_after(reps, || (), |()| run())
}

/// Runs `run` `reps` times, on what `make` returns, which is not timed. Returns the median of the times, and the result of the
/// last run.
fn median_after<A, T>(
    reps: usize,
    mut make: impl FnMut() -> A,
    mut run: impl FnMut(A) -> T,
) -> (f64, T) {
    let mut times = Vec::new();
    loop {
        let made = make();
        let start = processor_seconds();
        let result = run(made);
        times.push(processor_seconds() - start);
        if times.len() == reps {
            times.sort_by(f64::total_cmp);
            return (times[reps / 2], result);
        }
    }
}

/// The graph of these edges.
fn build<G>(nodes: u32, pairs: &[(u32, u32)]) -> G
where
    G: Create<NodeId = NodeIndex, NodeWeight = i64, EdgeWeight = i64>,
{
    let mut graph = G::with_capacity(nodes as usize, pairs.len());
    for i in 0..nodes {
        graph.add_node(i64::from(i));
    }
    for (i, &(parent, child)) in pairs.iter().enumerate() {
        graph.add_edge(node(parent), node(child), i as i64);
    }
    graph
}

fn node(i: u32) -> NodeIndex {
    NodeIndex::new(i as usize)
}

/// The time of asking a question about each pair of nodes, and a number of the answers.
fn ask(request: &Request, mut answer: impl FnMut(NodeIndex, NodeIndex) -> u64) -> (f64, u64) {
    let asked = asked_pairs(request.nodes);
    median(request.reps, || {
        asked
            .iter()
            .fold(0, |check, &(a, b)| mixed(check, answer(node(a), node(b))))
    })
}

/// The time and the check value of a workload, if it exists.
fn run<G: Graph>(graph: G, request: &Request, pairs: &[(u32, u32)]) -> Option<(f64, u64)> {
    let mut space = DfsSpace::new(graph);
    let figures = match request.name.as_str() {
        "reaches" => ask(request, |a, b| {
            u64::from(has_path_connecting(graph, a, b, Some(&mut space)))
        }),
        "path" => ask(request, |a, b| questions::path(graph, a, b)),
        "descendants" => ask(request, |a, _| questions::descendants(graph, a)),
        "bfs" => ask(request, |a, _| questions::breadth_first(graph, a)),
        "dfs" => ask(request, |a, _| questions::depth_first(graph, a)),
        "postorder" => ask(request, |a, _| questions::in_postorder(graph, a)),
        "toposort" => {
            let (time, order) = median(request.reps, || schedules::sorted(graph));
            (time, schedules::order_sum(&order, pairs))
        }
        "ready" => {
            let (time, order) = median(request.reps, || schedules::ready(graph));
            (time, schedules::order_sum(&order, pairs))
        }
        "schedule" => {
            let (time, schedule) = median(request.reps, || schedules::schedule(graph));
            (time, schedule.sum(graph))
        }
        _ => return None,
    };
    Some(figures)
}

/// The time and the check value of a workload over a graph that it builds itself, if it is one.
fn run_built(request: &Request, pairs: &[(u32, u32)]) -> Option<(f64, u64)> {
    let figures = match (request.name.as_str(), request.stable) {
        ("find_edge", false) => types::find_edges::<DiGraph<i64, i64>>(request, pairs),
        ("find_edge", true) => types::find_edges::<StableDiGraph<i64, i64>>(request, pairs),
        ("walk_u16", false) => types::walk::<u16, DiGraph<i64, i64, u16>>(request, pairs),
        ("walk_u16", true) => types::walk::<u16, StableDiGraph<i64, i64, u16>>(request, pairs),
        ("walk_usize", false) => types::walk::<usize, DiGraph<i64, i64, usize>>(request, pairs),
        ("walk_usize", true) => {
            types::walk::<usize, StableDiGraph<i64, i64, usize>>(request, pairs)
        }
        ("build_texts", false) => types::build_texts::<DiGraph<String, String>>(request, pairs),
        ("build_texts", true) => {
            types::build_texts::<StableDiGraph<String, String>>(request, pairs)
        }
        _ => return None,
    };
    Some(figures)
}

fn main() {
    let words: Vec<String> = std::env::args().skip(1).collect();
    let figures = Request::of_words(&words).and_then(|request| {
        if let Some((time, check)) = components::run(&request) {
            return Some((request, time, check));
        }
        if let Some(pairs) = reductions::pairs_of(&request) {
            let (time, check) = reductions::reduce(&request, &pairs);
            return Some((request, time, check));
        }
        let pairs = random_pairs(request.nodes, request.edges);
        let built = run_built(&request, &pairs);
        let figures = if built.is_some() {
            built
        } else if request.stable {
            run(
                &build::<StableDiGraph<i64, i64>>(request.nodes, &pairs),
                &request,
                &pairs,
            )
        } else {
            run(
                &build::<DiGraph<i64, i64>>(request.nodes, &pairs),
                &request,
                &pairs,
            )
        };
        figures.map(|(time, check)| (request, time, check))
    });
    let Some((Request { name, nodes, .. }, time, check)) = figures else {
        eprintln!("usage: peer NAME NODES EDGES [--kind compact|stable] [--reps COUNT] [--rounds COUNT], with two nodes or more");
        exit(2);
    };
    eprintln!("check {name} {nodes} {check}");
    println!("{name} {nodes} {time:.9}");
}
