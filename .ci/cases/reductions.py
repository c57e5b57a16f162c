#!/usr/bin/env python3
"""Makes reductions.txt: 1,000 random dags, and what networkx keeps of each in its transitive reduction.

  /usr/bin/python3 .ci/cases/reductions.py > .ci/cases/reductions.txt

It needs networkx (Debian's python3-networkx 2.8.8); the check that reads the cases does not. The same seed gives the same
cases. A line has the number of nodes, the edges in the order in which they are to be added, and the edges that are kept,
in ascending order: 3; 0-2 1-2 0-1; 0-1 1-2. No two lines have the same dag, and none has parallel edges.
"""
import random

import networkx

COUNT = 1000
MOST_NODES = 12


def random_edges(draw, nodes):
    """Edges of a random density between nodes in a random order, in a random sequence."""
    order = list(range(nodes))
    draw.shuffle(order)
    density = draw.random()
    edges = [(a, b) for i, a in enumerate(order) for b in order[i + 1:] if draw.random() < density]
    draw.shuffle(edges)
    return edges


def kept_edges(nodes, edges):
    """What networkx keeps."""
    dag = networkx.DiGraph()
    dag.add_nodes_from(range(nodes))
    dag.add_edges_from(edges)
    return sorted(networkx.transitive_reduction(dag).edges)


def text(edges):
    return ' '.join(f'{a}-{b}' for a, b in edges)


def main():
    draw = random.Random(20261123)
    seen = set()
    while len(seen) < COUNT:
        nodes = draw.randint(1, MOST_NODES)
        edges = random_edges(draw, nodes)
        dag = (nodes, frozenset(edges))
        if dag not in seen:
            seen.add(dag)
            print(f'{nodes}; {text(edges)}; {text(kept_edges(nodes, edges))}'.rstrip())


main()
