"""Which items an example shows: its own, or one that names it."""
import importlib.machinery
import importlib.util
import os
import re

from markdown import place_of
from sources import ROOT, blocks_of

# Items that no example names, each with the item beside which it stands and which examples name: the call that returns it,
# or the alias or the method of the trait that it belongs to.
BESIDE = {
    "Ahead": "Peekable",
    "Attribute": "node_attribute",
    "Clusters": "clusters",
    "Dag[e]": "edge_weight",
    "Dag[n]": "node_weight",
    "DiGraph[e]": "edge_weight",
    "DiGraph[n]": "node_weight",
    "EdgeSlots": "condensation_slots",
    "EdgeTable": "edge_table",
    "EdgeWeightsMut": "edge_weights_mut",
    "EdgesConnecting": "edges_connecting",
    "Externals": "externals",
    "GraphBase::EdgeId": "GraphBase",
    "Iter": "iter",
    "Led": "Recursive",
    "Mermaid": "mermaid",
    "NodeSlots": "condensation_slots",
    "NodeTable": "node_table",
    "NodeWeightsMut": "node_weights_mut",
    "RawEdges": "raw_edges",
    "RawNodes": "raw_nodes",
    "RecursiveWalk": "recursive_walk",
    "TopologicalKeys": "topological_keys",
    "Visitable::Map": "visit_map",
    "Walker::Item": "walk_next",
}


def words_of_examples():
    """The words of all examples and recipes."""
    loader = importlib.machinery.SourceFileLoader("examples_made", os.path.join(ROOT, ".ci", "examples"))
    made = importlib.util.module_from_spec(importlib.util.spec_from_loader("examples_made", loader))
    loader.exec_module(made)
    return {word for _, _, lines in made.examples() + made.recipes() for word in re.findall(r"\w+", "\n".join(lines))}


def examples(ref):
    """What no example shows, as lines, and how many items are shown by examples and how many stand beside one."""
    words, faults, shown, beside = words_of_examples(), [], 0, set()
    for entry in ref.all():
        if entry.kind in ("variant", "field"):
            continue
        if entry.name in words or any("Examples" in blocks_of(item.doc) for _, item in entry.items):
            shown += 1
        elif BESIDE.get(entry.full) in words:
            beside.add(entry.full)
        else:
            path, line = place_of(entry.item)
            faults.append(f"{path}:{line}: {entry.full} is in no example, and examples.py does not say beside which it stands")
    faults += [f"examples.py: {name} is no item without an example" for name in sorted(set(BESIDE) - beside)]
    return faults, shown, len(beside)
