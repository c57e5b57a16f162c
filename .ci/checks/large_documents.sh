#!/usr/bin/env bash
# Reduces documents of 20,000 nodes and nearly 40,000 edges, of both kinds: a chain with a shortcut past each node, whose
# nodes are numbered against it. The chain is left. If its last node leads to its first, the document is refused.
set -u
. "$(dirname "$0")/../refusing.sh"
program=$(built example_reduce example_reduce) || exit 1

python3 - "$program" <<'EOS'
import json
import subprocess
import sys

program = sys.argv[1]
COUNT = 20_000


def reduced(edges, *options):
    """The status, the edges that are left, and the error."""
    document = {
        'nodes': list(range(COUNT)),
        'node_holes': [],
        'edge_property': 'directed',
        'edges': edges,
    }
    ran = subprocess.run([program, *options], input=json.dumps(document), capture_output=True, text=True)
    left = json.loads(ran.stdout)['edges'] if ran.stdout else []
    return ran.returncode, sorted(edge for edge in left if edge is not None), ran.stderr


chain = [[n, n - 1, 'chain'] for n in range(1, COUNT)]
shortcuts = [[n, n - 2, 'shortcut'] for n in range(2, COUNT)]
for options in [], ['--stable']:
    status, left, error = reduced(shortcuts + chain, *options)
    if status != 0 or error or left != sorted(chain):
        sys.exit(f'{options}: status {status}, {len(left)} edges left, error {error[:200]}')
    status, left, error = reduced(shortcuts + chain + [[0, COUNT - 1, 'back']], *options)
    if status != 1 or left or 'cycle' not in error:
        sys.exit(f'{options}: a cycle has status {status}, error {error[:200]}')
print('ok: 4 documents')
EOS
