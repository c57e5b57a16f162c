#!/usr/bin/env bash
# The line program's plan of each dag of .ci/cases/reductions.txt, in both kinds: its stages are the generations that networkx
# finds, and its chain is a path with a node of each. In the stable kind the lowest index is vacant. A chain and a star of a
# million nodes are planned too.
set -u
. "$(dirname "$0")/../refusing.sh"
program=$(built dagbench dagbench) || exit 1

python3 - "$program" "$top/.ci/cases" <<'EOS'
import subprocess
import sys

program, cases = sys.argv[1:]
LARGE = 1_000_000


def plan(kind, lines, after):
    """The stages and the chain of a run of these lines, whose own replies are checked for their number alone."""
    text = ''.join(line + '\n' for line in lines)
    run = subprocess.run([program, 'plan', kind], input=text, capture_output=True, text=True)
    said = run.stdout.splitlines()[len(lines):]
    if run.returncode != 0 or run.stderr or not said or not said[-1].startswith('chain '):
        sys.exit(f'{kind}, {after}: status {run.returncode}, error {run.stderr}, end {said[-3:]}')
    if any(not line.startswith('stage ') for line in said[:-1]):
        sys.exit(f'{kind}, {after}: {said}')
    words = [[int(word[1:]) for word in line.split()[1:] if word != '-'] for line in said]
    return words[:-1], words[-1]


def built(nodes, edges, vacant):
    """The lines that build a dag whose nodes come after that many vacant indices."""
    lines = ['node 1'] * (vacant + nodes) + [f'edge {a + vacant} {b + vacant} 1' for a, b in edges]
    return lines + [f'rmnode {n}' for n in range(vacant)]


with open(f'{cases}/reductions.txt') as dags, open(f'{cases}/generations.txt') as found:
    pairs = list(zip(dags, found, strict=True))
if len(pairs) != 1000:
    sys.exit(f'{len(pairs)} cases')
for number, (dag, found) in enumerate(pairs, 1):
    nodes, edges, _ = dag.split(';')
    edges = [tuple(map(int, edge.split('-'))) for edge in edges.split()]
    wanted = [list(map(int, stage.split(','))) for stage in found.split()]
    for kind, vacant in [('compact', 0), ('stable', 1)]:
        stages, chain = plan(kind, built(int(nodes), edges, vacant), f'line {number}')
        if [[n - vacant for n in stage] for stage in stages] != wanted:
            sys.exit(f'{kind}, line {number}: {stages}')
        chain = [n - vacant for n in chain]
        steps = all(step in edges for step in zip(chain, chain[1:]))
        if not steps or len(chain) != len(wanted) or any(n not in stage for n, stage in zip(chain, wanted)):
            sys.exit(f'{kind}, line {number}: chain {chain}')

for kind in ['compact', 'stable']:
    stages, chain = plan(kind, ['node 1'] + [f'child {n} 1 1' for n in range(LARGE - 1)], 'a long chain')
    if stages != [[n] for n in range(LARGE)] or chain != list(range(LARGE)):
        sys.exit(f'{kind}: a long chain')
    stages, chain = plan(kind, ['node 1'] + ['child 0 1 1'] * (LARGE - 1), 'a star')
    if stages != [[0], list(range(1, LARGE))] or chain != [0, 1]:
        sys.exit(f'{kind}: a star')
print(f'ok: {len(pairs)} dags')
EOS
