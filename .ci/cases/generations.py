#!/usr/bin/env python3
"""Makes generations.txt: the topological generations that networkx finds of each dag of reductions.txt.

  /usr/bin/python3 .ci/cases/generations.py < .ci/cases/reductions.txt > .ci/cases/generations.txt

It needs networkx (Debian's python3-networkx 2.8.8); the check that reads the cases does not. A line has the generations of
the dag of the same line there, each with its nodes in ascending order: 0,1 2.
"""
import sys

import networkx

for line in sys.stdin:
    nodes, edges, _ = line.split(';')
    dag = networkx.DiGraph()
    dag.add_nodes_from(range(int(nodes)))
    dag.add_edges_from(tuple(map(int, edge.split('-'))) for edge in edges.split())
    print(' '.join(','.join(map(str, sorted(generation))) for generation in networkx.topological_generations(dag)))
