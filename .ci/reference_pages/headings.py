"""The headings that the doc comment of a call must have: `# Requires`, `# Errors` and `# Complexity`."""
import re
from collections import Counter

from markdown import place_of
from sources import blocks_of, told_clauses

# The calls that take O(1), by the type that they belong to ("" for functions); all others need a `# Complexity`. A call that
# returns an iterator counts as O(1) if each of its steps does, and so does a call that exists only for proofs.
CONSTANT = {
    "": "edge_table graphml mermaid node_table reduction_is_least reductions_are_alike tables_are_read_back values_are_decided "
    "values_stay_computed",
    "AddError": "into_parts",
    "AdjMatrix": "has join",
    "Ahead": "new",
    "Chain": "new",
    "ChildError": "into_weights",
    "Components": "component_of count iter members",
    "Computed": "can_add changed contains_node dag formula invalidate last_value new set try_invalidate try_set",
    "Cycle": "new",
    "Dag": "allocator can_add_edge can_add_node children contains_node edge_count edge_endpoints edge_weight "
    "edge_weight_mut edge_weights_mut edges edges_directed graph into_graph into_parts neighbors "
    "neighbors_directed new node_count node_weight node_weight_mut node_weights_mut order parents "
    "raw_edges raw_nodes recursive_walk",
    "DataMap": "edge_weight node_weight",
    "DataMapMut": "edge_weight_mut node_weight_mut",
    "DependError": "into_weight",
    "DependenciesError": "into_items",
    "DiGraph": "can_add_edge can_add_node contains_edge_index contains_node edge_count edge_endpoints edge_weight "
    "edge_weight_mut edge_weights_mut edges edges_directed first_edge into_raw neighbors "
    "neighbors_directed new next_edge node_count node_weight node_weight_mut node_weights_mut raw_edges "
    "raw_nodes",
    "Direction": "opposite",
    "Document": "new",
    "Dot": "edge_labels left_to_right new no_edge_labels node_labels of_graph rank_dir ranks title",
    "Edge": "next_edge source target",
    "EdgeError": "into_weight",
    "EdgeIndex": "end index new",
    "EdgeReference": "from_parts id source target weight",
    "EdgeSource": "contains_node count_looks first look",
    "EdgeWeightsMut": "next",
    "EdgesError": "into_weights",
    "ElementError": "into_weights",
    "Filter": "new",
    "FallibleReady": "failed_count is_failed is_out is_over out_count ready_count",
    "FiniteWalker": "ends_over",
    "Escape": "write_char",
    "Format": "write_footer write_header",
    "FromGraphError": "into_graph",
    "FusedWalker": "rests_over",
    "GetAdjacencyMatrix": "is_adjacent",
    "GraphProp": "is_directed",
    "GuardedDag": "can_add_edge can_add_node child_edge edge_endpoints first_child has_node",
    "IndexType": "index max new",
    "IndexedSource": "look_at",
    "Inputs": "get",
    "Inspect": "new",
    "IntoWeightedEdge": "into_weighted_edge",
    "Led": "new",
    "Link": "edge end index new node of_edge of_node",
    "Looks": "add new take",
    "Named": "dag is_empty key_of new node_count",
    "Node": "next_edge",
    "NodeCount": "node_count",
    "NodeError": "into_weight",
    "NodeIndex": "end index new",
    "NodeIndexable": "from_index to_index",
    "NodeSet": "is_visited visit",
    "NodeWeightsMut": "next",
    "Order": "clear holds len new",
    "ParentsError": "into_items",
    "ReadStore": "can_add_edge can_add_node contains_edge_index edge_count edge_endpoints edge_slots edge_weight "
    "first_edge invariant next_edge node_count node_slots node_weight",
    "Reading": "into_looks new store",
    "Ready": "is_finished is_out out_count ready_count",
    "ReadyByKey": "is_finished is_out",
    "Reversed": "into_looks new",
    "ScheduleByKey": "critical_path makespan",
    "Scratch": "allocator fits new",
    "Skip": "new",
    "SkipWhile": "new",
    "StableDiGraph": "edge_slots node_slots replace_edge_weight",
    "Store": "edge_mut new node_mut replace_edge_weight slots_with_node take_back_node",
    "Take": "new",
    "TakeWhile": "new",
    "TryChildError": "into_weights",
    "VisitMap": "is_visited visit",
    "Walker": "iter",
    "WouldCycle": "into_weight",
}


def tests_of(item):
    """The calls that test what a call requires, as its doc comment tells them."""
    named, free = told_clauses(item.doc)
    told = [found[1] for text in [*named.values(), *free] if (found := re.search(r"Test: (`[^`]*`)", text))]
    return [name for it in told for name in re.findall(r"(\w+)\(", it)]


def lacks(entry, item, calls):
    """What the doc comment of a call lacks."""
    sections, faults = blocks_of(item.doc), []
    if item.requires and "Requires" not in sections:
        faults.append("no # Requires")
    elif "Requires" in sections:
        named, free = told_clauses(item.doc)
        names = Counter(clause.name for clause in item.requires if clause.name)
        faults += [f"# Requires has no `{name}`" for name in names if name not in named]
        faults += [f"# Requires has `{name}`, which is no clause" for name in named if name not in names]
        faults += [f"# Requires tests by `{name}`, which is no call" for name in tests_of(item) if name not in calls]
        # Clauses without a name that say the same may share a line.
        without = {clause.text for clause in item.requires if not clause.name}
        if len(free) != len(without):
            faults.append(f"# Requires has {len(free)} lines without a name, for {len(without)} clauses")
    if re.search(r"-> (?:fmt::|io::)?Result\b", item.signature) and "Errors" not in sections:
        faults.append("no # Errors")
    owner, _, name = entry.full.rpartition("::")
    if "Complexity" not in sections and name not in CONSTANT.get(owner, "").split():
        faults.append("no # Complexity, and headings.py does not list it as O(1)")
    return faults


def headings(ref):
    """What doc comments lack, as lines, and how many calls and headings there are."""
    faults, count, found, plain = [], 0, Counter(), set()
    calls = {entry.name for entry in ref.all() if entry.kind == "fn"} | {"is_some"}
    for entry in ref.all():
        for _, item in entry.items:
            if item.kind == "fn":
                count += 1
                sections = blocks_of(item.doc)
                found.update(name for name in ("Requires", "Errors", "Complexity", "Examples") if name in sections)
                if "Complexity" not in sections:
                    plain.add(entry.full)
                path, line = place_of(item)
                faults += [f"{path}:{line}: {entry.full}: {fault}" for fault in lacks(entry, item, calls)]
    listed = {f"{owner}::{name}" if owner else name for owner, names in CONSTANT.items() for name in names.split()}
    faults += [f"headings.py: {name} is no call without # Complexity" for name in sorted(listed - plain)]
    return faults, count, found
