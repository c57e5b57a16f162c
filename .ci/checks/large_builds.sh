#!/usr/bin/env bash
# Builds and plans by four workers of a million targets that take a second each: a chain, a star, and layers of a thousand.
set -u
. "$(dirname "$0")/../refusing.sh"
program=$(built example_build example_build) || exit 1

python3 - "$program" <<'EOS'
import subprocess
import sys

program = sys.argv[1]
COUNT = 1_000_000
WIDTH = 1_000
WORKERS = 4


def run(lines, *options):
    """What is printed: the lines of the targets, and the words of the last line."""
    ran = subprocess.run([program, *options], input=lines, capture_output=True, text=True)
    if ran.returncode != 0 or ran.stderr:
        sys.exit(f'{options}: status {ran.returncode}, error {ran.stderr[:200]}')
    *targets, last = ran.stdout.splitlines()
    return targets, last.split()


def begins(targets):
    """When each target begins, by its number. Each takes a second, and a worker does one at a time."""
    starts, busy = [None] * COUNT, set()
    for line in targets:
        time, _, _, worker, name = line.split()
        starts[int(name)] = int(time)
        busy.add((int(time), int(worker.rstrip(':'))))
    if len(busy) != len(targets) or max(worker for _, worker in busy) >= WORKERS:
        sys.exit('a worker has two targets at a time, or there are more workers')
    return starts


shapes = {  # what a target needs, how many targets the longest path has, and how long four workers take
    'chain': (lambda n: n - 1, COUNT, COUNT),
    'star': (lambda n: 0 if n else -1, 2, 1 + COUNT // WORKERS),
    'layers': (lambda n: n - WIDTH, COUNT // WIDTH, COUNT // WORKERS),
}
for shape, (needs, depth, time) in shapes.items():
    lines = ''.join(f'{n} 1:' + (f' {needs(n)}\n' if needs(n) >= 0 else '\n') for n in range(COUNT))
    for plan in [], ['--plan']:
        targets, last = run(lines, '--workers', str(WORKERS), *plan)
        starts = begins(targets)
        wrong = [n for n in range(COUNT) if starts[n] is None or needs(n) >= 0 and starts[n] <= starts[needs(n)]]
        if wrong or last[0] != str(time):
            sys.exit(f'{shape}, {plan}: {last[:6]}, missing or too early: {wrong[:3]}')
        if plan and (last[3:5] != ['least', str(depth)] or len(last) != 6 + depth):
            sys.exit(f'{shape}: a longest path of {len(last) - 6} targets, {last[:6]}')
print(f'ok: {len(shapes)} shapes')
EOS
