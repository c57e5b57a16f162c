#!/usr/bin/env bash
# The line program's transitive reduction keeps the edges that networkx keeps, of each dag of .ci/cases/reductions.txt, in both
# kinds, and of two more: forty diamonds in a row below one root, with more paths than could be walked, and the complete dag of
# 600 nodes, which is reduced by blocks. All cases of a kind go through one process.
set -u
. "$(dirname "$0")/../refusing.sh"
program=$(built dagbench dagbench) || exit 1

python3 - "$program" "$top/.ci/cases/reductions.txt" <<'EOS'
import subprocess
import sys


def pairs(text):
    return [tuple(map(int, pair.split('-'))) for pair in text.split()]


def diamonds(count):
    """A row of diamonds with an edge from the first node to the last, reduced below the first: that edge goes."""
    row = [(a + 3 * k, b + 3 * k) for k in range(count) for a, b in ((0, 1), (0, 2), (1, 3), (2, 3))]
    return 3 * count + 1, [*row, (0, 3 * count)], sorted(row), [0]


def complete(count):
    """An edge from each node to each later one, reduced below all: a chain is left."""
    edges = [(a, b) for a in range(count) for b in range(a + 1, count)]
    return count, edges, [(n, n + 1) for n in range(count - 1)], range(count)


def lines_of(nodes, edges, _, roots):
    """The lines that build a dag, reduce it below its roots, ask for its edges and clear it."""
    lines = ['node 1'] * nodes + [f'edge {a} {b} 1' for a, b in edges]
    lines.append(' '.join(['reduce', *map(str, roots)]))
    return lines + [f'children {n}' for n in range(nodes)] + ['clear']


def wrong(case, replies):
    """What is wrong with the replies to a case, if anything."""
    nodes, edges, kept, _ = case
    built = [f'n{n}' for n in range(nodes)] + [f'e{e}' for e in range(len(edges))] + ['ok']
    if replies[:len(built)] != built or replies[-1] != 'ok':
        return f'replies {replies[:1000]}'
    joined = []
    for n, reply in enumerate(replies[len(built):-1]):
        joined += [(n, int(item.split(':')[1])) for item in reply.split() if item != '-']
    return None if sorted(joined) == kept else f'kept {sorted(joined)[:1000]}'


program, path = sys.argv[1:]
cases = []
with open(path) as file:
    for line in file:
        nodes, edges, kept = line.split(';')
        cases.append((int(nodes), pairs(edges), pairs(kept), range(int(nodes))))
if len(cases) != 1000:
    sys.exit(f'{len(cases)} cases')
cases += [diamonds(40), complete(600)]
parts = [lines_of(*case) for case in cases]
sent = ''.join(line + '\n' for part in parts for line in part)
for kind in ['compact', 'stable']:
    run = subprocess.run([program, kind], input=sent, capture_output=True, text=True)
    replies = run.stdout.splitlines()
    if run.returncode != 0 or len(replies) != sum(map(len, parts)):
        sys.exit(f'{kind}: status {run.returncode}, {len(replies)} replies, error {run.stderr}')
    start = 0
    for number, (case, part) in enumerate(zip(cases, parts), 1):
        fault = wrong(case, replies[start:start + len(part)])
        if fault:
            sys.exit(f'{kind}, line {number}: {fault}')
        start += len(part)
print(f'ok: {len(cases)} dags')
EOS
