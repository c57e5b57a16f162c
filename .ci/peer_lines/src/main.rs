//! The line program over the Rust crate: `peer_lines compact|stable` reads the commands of
//! docs/COMMANDS.md from standard input and writes a reply to each. What the crate has no call for
//! is done by the definition: a batch by a test for cycles of the whole, a reduction by the nodes
//! that each node reaches. It never replies `full` or `memory`.

mod kinds;
mod words;

use kinds::Kind;
use std::collections::HashSet;
use std::fmt::{Display, Write as _};
use std::io::{self, BufRead, Write};
use std::process::exit;
use words::{Command, Triple};

fn joined<T: Display>(items: impl IntoIterator<Item = T>) -> String {
    let words: Vec<String> = items.into_iter().map(|item| item.to_string()).collect();
    if words.is_empty() {
        "-".to_owned()
    } else {
        words.join(" ")
    }
}

/// The reply to an edge that the crate was asked to add.
fn edge_reply(added: Result<usize, i64>) -> String {
    match added {
        Ok(e) => format!("e{e}"),
        Err(weight) => format!("cycle {weight}"),
    }
}

/// A word, and the weights of a batch from that of the item at `last` down to the first.
fn refused(word: &str, items: &[Triple], last: usize) -> String {
    let weights = items[..=last].iter().rev().map(|item| item.2);
    format!("{word} {}", joined(weights))
}

fn add_all<K: Kind>(dag: &mut K, items: &[Triple]) -> String {
    let stranger = |item: &Triple| !dag.has_node(item.0) || !dag.has_node(item.1);
    if let Some(at) = items.iter().position(stranger) {
        return refused("missing", items, at);
    }
    if dag.would_be_cyclic(items) {
        return refused("cycle", items, items.len() - 1);
    }
    let mut added = Vec::new();
    for (a, b, weight) in items {
        match dag.add_edge(*a, *b, *weight) {
            Ok(e) => added.push(format!("e{e}")),
            Err(_) => panic!("a batch without a cycle was refused"),
        }
    }
    joined(added)
}

/// The nodes that a path of at least one edge leads to from each node.
fn reached<K: Kind>(dag: &K, slots: usize) -> Vec<HashSet<usize>> {
    let mut found = Vec::new();
    for n in 0..slots {
        let (mut met, mut waiting) = (HashSet::new(), vec![n]);
        while let Some(at) = waiting.pop() {
            for (_, child) in dag.near(at, true) {
                if met.insert(child) {
                    waiting.push(child);
                }
            }
        }
        found.push(met);
    }
    found
}

/// Removes the edges that are redundant below the roots, from the highest index down.
fn reduce<K: Kind>(dag: &mut K, roots: &[usize]) {
    let slots = dag.node_slots();
    let below = reached(dag, slots);
    let is_below = |n: usize| {
        roots
            .iter()
            .any(|root| dag.has_node(*root) && (*root == n || below[*root].contains(&n)))
    };
    let mut redundant = Vec::new();
    for n in (0..slots).filter(|n| is_below(*n)) {
        let near = dag.near(n, true);
        for (e, child) in &near {
            if near
                .iter()
                .any(|(_, other)| other != child && below[*other].contains(child))
            {
                redundant.push(*e);
            }
        }
    }
    redundant.sort_unstable();
    for e in redundant.into_iter().rev() {
        dag.remove_edge(e);
    }
}

fn near_reply<K: Kind>(dag: &K, n: usize, children: bool) -> String {
    joined(
        dag.near(n, children)
            .iter()
            .map(|(e, other)| format!("e{e}:{other}")),
    )
}

fn weight_reply(removed: Option<i64>) -> String {
    removed.map_or("none".to_owned(), |weight| format!("weight {weight}"))
}

fn add_near<K: Kind>(dag: &mut K, n: usize, edge: i64, node: i64, child: bool) -> String {
    if !dag.has_node(n) {
        return "missing".to_owned();
    }
    let (e, m) = dag.add_near(n, edge, node, child);
    format!("e{e} n{m}")
}

fn reply<K: Kind>(dag: &mut K, command: Command) -> String {
    match command {
        Command::Node(weight) => format!("n{}", dag.add_node(weight)),
        Command::Edge((a, b, _)) | Command::Update((a, b, _))
            if !dag.has_node(a) || !dag.has_node(b) =>
        {
            "missing".to_owned()
        }
        Command::Edge((a, b, weight)) => edge_reply(dag.add_edge(a, b, weight)),
        Command::Update((a, b, weight)) => edge_reply(dag.update_edge(a, b, weight)),
        Command::Child(n, edge, node) => add_near(dag, n, edge, node, true),
        Command::Parent(n, edge, node) => add_near(dag, n, edge, node, false),
        Command::Edges(items) => add_all(dag, &items),
        Command::Find(a, b) => dag.find_edge(a, b).map_or("none".to_owned(), |e| format!("e{e}")),
        Command::Ends(e) => dag
            .ends(e)
            .map_or("none".to_owned(), |(a, b)| format!("n{a} n{b}")),
        Command::Children(n) => near_reply(dag, n, true),
        Command::Parents(n) => near_reply(dag, n, false),
        Command::RemoveNode(n) => weight_reply(dag.remove_node(n)),
        Command::RemoveEdge(e) => weight_reply(dag.remove_edge(e)),
        Command::ClearEdges => {
            dag.clear_edges();
            "ok".to_owned()
        }
        Command::Clear => {
            dag.clear();
            "ok".to_owned()
        }
        Command::Reduce(roots) => {
            reduce(dag, &roots);
            "ok".to_owned()
        }
        Command::Json => document(dag),
    }
}

/// The document that the crate writes, with the orders of the lists of each node.
fn document<K: Kind>(dag: &K) -> String {
    let list = |n, children| -> Vec<usize> { dag.near(n, children).iter().map(|it| it.0).collect() };
    let orders: Vec<_> = (0..dag.node_slots())
        .filter(|n| dag.has_node(*n))
        .map(|n| [list(n, true), list(n, false)])
        .collect();
    let mut value = dag.json();
    value["orders"] = serde_json::json!(orders);
    value.to_string()
}

fn serve<K: Kind>() -> io::Result<()> {
    let mut dag = K::empty();
    let (mut input, mut output) = (io::stdin().lock(), io::BufWriter::new(io::stdout().lock()));
    let (mut line, mut text) = (Vec::new(), String::new());
    while input.read_until(b'\n', &mut line)? > 0 {
        if line.last() == Some(&b'\n') {
            line.pop();
        }
        text.clear();
        match words::command(&line) {
            Some(command) => text.push_str(&reply(&mut dag, command)),
            None => text.push_str("bad line"),
        }
        let _ = writeln!(text);
        output.write_all(text.as_bytes())?;
        line.clear();
    }
    output.flush()
}

fn main() {
    let kind = std::env::args().nth(1).unwrap_or_default();
    let served = match kind.as_str() {
        "compact" => serve::<kinds::Compact>(),
        "stable" => serve::<kinds::Stable>(),
        _ => {
            eprintln!("usage: peer_lines compact|stable < lines");
            exit(2);
        }
    };
    if let Err(error) = served {
        eprintln!("peer_lines: {error}");
        exit(1);
    }
}
