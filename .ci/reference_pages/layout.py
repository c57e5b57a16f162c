"""What stands where: the pages of the reference, the groups of calls, and what comes first on a page."""

# The pages: file, title, the module whose `//!` comment opens it, and words after that.
PAGES = [
    ("dag", "Dags", "", "`Dag` and `StableDag` are the two kinds of `Acyclic`. An entry applies to both, unless it is "
     "marked with one of them."),
    ("paths", "Paths, order and reduction", "", "Queries beyond the neighbors of a node, the order that a dag maintains, and its "
     "reduction. All are methods of `Dag` and `StableDag`, unless marked; [`Paths`] answers the same queries for a borrowed "
     "dag."),
    ("walkers", "Walkers", "walker", ""),
    ("traversal", "Traversals", "traversal", ""),
    ("schedule", "Ready queues and schedules", "schedule", ""),
    ("named", "Dags by names", "named", ""),
    ("computed", "Computed values", "computed", ""),
    ("operators", "Dags made from dags", "operators", ""),
    ("run", "Commands and plans", "run", ""),
    ("json", "JSON documents", "json", ""),
    ("dot", "Pictures", "dot", ""),
    ("formats", "Formats of other programs", "formats", ""),
    ("search", "Searches of any graph", "search", ""),
    ("components", "Components and cycles", "components", ""),
    ("stores", "Stores", "", "The graphs that dags are built on: `daggy::graph` is compact, `daggy::stable_graph` has slots. "
     "They may have cycles. Methods that both have are listed once."),
    ("visit", "Visit traits", "visit", ""),
    ("indices", "Indices", "index", ""),
    ("errors", "Errors", "", "The error of a method that changes a dag holds the weights that the call took. Exceptions: "
     "`extend_with_edges`, `from_edges` and `from_elements` return only the weight of the item that failed, and `from_slots` "
     "returns none."),
]

# The methods of a dag by page and group, in order. One that is named nowhere is a fault.
GROUPS = [
    ("dag", "Creating", "new with_capacity from_edges from_elements from_slots try_from_graph from_dag try_clone"),
    ("dag", "Nodes", "node_count can_add_node contains_node add_node try_add_node remove_node retain_nodes node_identifiers "
     "node_indices node_references externals clear"),
    ("dag", "Edges one by one", "edge_count can_add_edge edge_endpoints find_edge contains_edge add_edge try_add_edge update_edge "
     "try_update_edge add_child try_add_child add_parent try_add_parent remove_edge retain_edges clear_edges edge_identifiers "
     "edge_indices edge_references edges_connecting"),
    ("dag", "Batches of edges", "add_edges extend_with_edges set_parents try_set_parents contains_parents"),
    ("dag", "Weights", "[n] [e] node_weight edge_weight node_weights edge_weights node_weight_mut edge_weight_mut "
     "node_weights_mut edge_weights_mut update_node_weights update_edge_weights recompute try_recompute update_two_nodes "
     "update_two_edges update_node_and_edge map filter_map"),
    ("dag", "Neighbors of a node", "neighbors neighbors_directed edges edges_directed"),
    ("dag", "Walkers of a dag", "children parents recursive_walk"),
    ("dag", "Capacity", "reserve_nodes reserve_exact_nodes reserve_edges reserve_exact_edges shrink_to_fit "
     "shrink_to_fit_nodes shrink_to_fit_edges allocator"),
    ("dag", "The graph inside", "graph into_graph into_parts raw_nodes raw_edges set_orders"),
    ("paths", "Paths between nodes", "reaches would_close_cycle path path_edges paths"),
    ("paths", "Descendants and ancestors", "affected descendants ancestors"),
    ("paths", "The maintained order", "topological_order order stands_before"),
    ("paths", "Reduction and closure", "transitive_reduce transitive_reduce_all transitive_closure same_reachability"),
]
STORES = ("DiGraph", "StableDiGraph")
# What comes first on a page; the rest follows in the order of its `use`.
FIRST = {
    "dag": ["Dag", "StableDag", "Acyclic"],
    "paths": ["Paths"],
    "stores": ["DiGraph, StableDiGraph", "ReadStore", "Store"],
    "schedule": ["Ready", "ReadyByKey", "topological_order_by", "Schedule", "bottom_levels", "schedule_on",
                 "Assignment"],
    "named": ["Named"],
    "computed": ["Computed", "ComputedDag", "StableComputedDag", "Inputs", "Cell", "RefreshError"],
    "operators": ["subgraph", "reverse", "merge", "MergeError", "transitive_closure_dag", "ClosureError", "lowest_common_ancestors", "all_simple_paths",
                  "SimplePaths", "have_same_reachability"],
    "run": ["run", "perform", "Command", "Reply", "Back", "plan", "Plan", "GuardedDag"],
    "json": ["dag_to_json", "stable_to_json", "write_json", "write_short_json", "dag_from_json", "stable_from_json"],
    "formats": ["mermaid", "graphml", "node_table", "edge_table", "Document", "Format", "Escape"],
    "search": ["reaches", "is_acyclic", "path_in", "reaches_in", "affected", "descendants", "redundant_edges",
               "redundant_edges_in", "redundant_edges_by_blocks", "transitive_reduce", "transitive_closure", "order_edge",
               "EdgeSource", "IndexedSource", "Reversed", "Reading", "Scratch", "Order"],
    "components": ["strongly_connected_components", "weakly_connected_components", "find_cycle", "condensation",
                   "condensed_dag", "condensed_dag_with_all_edges", "condensed_dag_with_fold", "condensation_slots",
                   "Components"],
    "visit": ["GraphBase", "Data", "DataMap", "DataMapMut", "NodeCount", "NodeIndexable", "NodeCompactIndexable", "Visitable",
              "VisitMap", "NodeSet", "GetAdjacencyMatrix", "AdjMatrix"],
    "indices": ["NodeIndex", "EdgeIndex", "Direction"],
    "errors": ["NodeError", "EdgeError", "ChildError", "TryChildError", "EdgesError", "ParentsError", "ElementError",
               "SlotsError", "FromGraphError", "WouldCycle"],
}
MODULE_PAGE = {"index": "indices", "walker": "walkers", "graph": "stores", "stable_graph": "stores", "stable_dag": "dag"}
ELSEWHERE = {"TopologicalOrder": "paths", "same_reachability": "paths", "Paths": "paths", "Store": "stores",
             "ReadStore": "stores", "Walker": "walkers"}
NAMES = [name for name, *_ in PAGES]
TITLES = [title for _, title, _ in GROUPS]


def page_of(path, item):
    """The page that an item belongs to, by its path below the crate."""
    if item.name in ELSEWHERE:
        return ELSEWHERE[item.name]
    module = path.rpartition("::")[0]
    if not module and (item.name.endswith("Error") or item.name == "WouldCycle"):
        return "errors"
    page = MODULE_PAGE.get(module, module or "dag")
    return page if page in NAMES else "dag"


def group_of(name, page=None):
    """The page and group of a call of a dag, with its place there, or None. With a page, that of its own groups alone."""
    for own, title, names in GROUPS:
        if (page is None or own == page) and name in names.split():
            return own, title, names.split().index(name)
    return None
