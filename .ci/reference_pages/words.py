"""What the promises that occur most often say."""
import re

G = r"\(?(?:(?:Self|S|D)\.)?(?:graph )?(?:self|source|dag|graph)\.(?:new|old|now)(?:\.graph)?\)?"  # a graph of a promise
ENSURES = [(re.compile(it.replace("%G", G) + r"\Z"), text) for it, text in [
    (r"IsAcyclic %G", "afterwards there is no cycle"),
    (r"IfOk result \(λ (\w)\. IsAcyclic \1\.graph\)", "the result has no cycle"),
    (r"IsAcyclic result\.graph", "the result has no cycle"),
    (r"IsDag Ix\.greatest %G", "the graph is well formed and has no cycle"),
    (r"IsWellFormed Ix\.greatest %G", "the graph is well formed"),
    (r"(?:OnErr|IfErr) result \(?(?:self\.new|%G) ≡ (?:self\.old|%G)\)?", "if it fails, nothing has changed"),
    (r"IfNone result \((?:self\.new ≡ self\.old|%G ≡ %G)\)", "if it returns `None`, nothing has changed"),
    (r"IsNone result → self\.new ≡ self\.old", "if it returns `None`, nothing has changed"),
    (r"S\.graph source\.new ≡ S\.graph source\.old", "the graph of `source` is unchanged"),
    (r"scratch\.new ≡ scratch\.old", "the capacity of `scratch` is unchanged"),
    (r"order\.new ≡ order\.old", "`order` is unchanged"),
    (r"self\.new(?:\.graph)? ≡ self\.old(?:\.graph)?", "nothing changes"),
    (r"(?:self\.new\.looks ≡ self\.old\.looks|(?:S|Self)\.looks (\w+)\.new ≡ (?:S|Self)\.looks \1\.old)", "no search reads an edge"),
    (r"(?:self\.old\.looks ≤ self\.new\.looks|S\.looks source\.old ≤ S\.looks source\.new)", "the number of edge reads does not decrease"),
    (r"(?:self\.new\.looks ≤ self\.old\.looks|S\.looks source\.new ≤ S\.looks source\.old) \+ edge_count(?:_of)? %G",
     "it reads at most as many edges as there are"),
    (r"S\.looks source\.new ≤ S\.looks source\.old \+ \(node_count %G \+ 2\) \* edge_count %G",
     "it reads at most (nodes + 2) * edges edges"),
    (r"Reaches %G \(Ix\.number (\w+)\) \(Ix\.number (\w+)\) → self\.new\.looks ≡ self\.old\.looks",
     r"if a path leads from `\1` to `\2` already, no edge is read"),
    (r"IfOk result \(λ (\w)\. \1\.looks ≡ 0\)", "the result has a count of 0 edge reads"),
    (r"(?:S\.)?KIND ≡ Stable → KeepsIndices %G %G", "in the stable kind all other indices stay valid"),
    (r"(?:S\.|Self\.)?KIND ≡ Compact → IsCompact %G", "in the compact kind no slot is vacant"),
    (r"length result < 2 \^ 64", "the length fits a `u64`"),
    (r"OnOk result \(length self\.new\.graph\.(node|edge)s \+ additional < 2 \^ 63\)", r"if it succeeds, that many \1s can exist"),
    (r"IsTrue result ↔ HasNode %G \(Ix\.number (\w+)\)", "it is true if and only if the node exists"),
    (r"IsTrue result ↔ HasEdge %G \(Ix\.number (\w+)\)", "it is true if and only if the edge exists"),
    (r"IsTrue result ↔ \(?(node|edge)_count(?:_of)? %G < Ix\.greatest\)?", r"it is true if and only if an index is left for one more \1"),
    (r"IsTrue result ↔ Reaches %G \(Ix\.number (\w+)\) \(Ix\.number (\w+)\)", r"it is true if and only if a path leads from `\1` to `\2`"),
    (r"\(result ≡ Err \(ByCycle \(record \{ 0 = weight \}\)\)\) ↔ Reaches %G \(Ix\.number (\w+)\) \(Ix\.number (\w+)\)",
     r"it returns `WouldCycle` if and only if a path leads from `\1` to `\2`"),
    (r"IfErr result \(λ e\. \(e ≡ ByCycle \(record \{ 0 = weight \}\)\) ⊎ \(e ≡ EdgeMemory weight\)\)",
     "any error is `WouldCycle` or `Memory`, and holds the weight"),
    (r"IfErr result \(λ e\. e ≡ (?:Node|Edge|Child)Memory (?:weight|edge node)\)", "any error is `Memory`, and holds the weights that the call took"),
    (r"IfOk result \(λ (\w)\. \(Ix\.number \1 ≡ next_edge %G\) × \(%G ≡ with_edge .*\)\)",
     "if it succeeds, the edge has the next free index, and the graph is the old one with it"),
    (r"IfOk result \(λ (\w)\. \(Ix\.number \1 ≡ next_node %G\) × \(%G ≡ with_node .*\)\)",
     "if it succeeds, the node has the next free index, and the graph is the old one with it"),
    (r"result ≡ (?:node_|edge_)?weight(?:_at)? %G \(Ix\.number \w+\)", "it returns the weight that was there, or `None`"),
    (r"option_copied result ≡ (?:node_|edge_)?weight(?:_at)? %G \(Ix\.number \w+\)", "it returns the weight there, or `None`"),
    (r"OnSome result \((?:self\.new ≡ with_graph self\.old \(without_(node|edge) .*\)|%G ≡ without_.*)\)",
     "if it returns a weight, the graph is the old one without it"),
    (r"option_map Ix\.number result ≡ edge_between %G \(Ix\.number (\w+)\) \(Ix\.number (\w+)\)",
     r"it returns the newest edge from `\1` to `\2`, or `None`"),
    (r"result ≡ (node|edge)_count(?:_of)? %G", r"it returns how many \1s there are"),
    (r"result ≡ node_bound(?:_of)? %G", "it returns one more than the greatest node index"),
    (r"result ≡ edge_bound(?:_of)? %G", "it returns one more than the greatest edge index"),
    (r"result ≡ (node|edge)_identifiers_of %G", r"it yields the index of each \1, ascending"),
    (r"IsUnderWay(?:ByKey)? dag\.now\.graph self\.new", "the queue still belongs to this `dag`"),
    (r"IfSome result \(λ n\. ¬ Contains self\.old\.given \(Ix\.number n\)\)", "no node is yielded twice"),
    (r"result\.index ≡ 0", "it starts before the first element"),
]]


def gloss_of(clause):
    """What a frequent promise says, or nothing."""
    for pattern, text in ENSURES:
        found = pattern.match(clause)
        if found:
            return found.expand(text)
    return ""
