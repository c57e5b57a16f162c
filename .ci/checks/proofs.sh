#!/usr/bin/env bash
# No crate's proofs have more motives that are used once, or more repeated lines, than docs/internals/PROOFS.md says.
set -u
cd "$(dirname "$0")/../.." || exit 1
python3 - <<'EOS'
import subprocess
import sys


def rows_of(text):
    found = {}
    for line in text.splitlines():
        words = [it.strip().strip('`').replace(',', '') for it in line.strip('|').split('|')]
        if line.startswith('| ') and len(words) == 7 and words[1].isdigit():
            found[words[0]] = [int(it) for it in words[5:]]
    return found


with open('docs/internals/PROOFS.md', encoding='utf-8') as file:
    told = rows_of(file.read())
run = subprocess.run(['.ci/proofs'], capture_output=True, text=True)
now = rows_of(run.stdout)
if run.returncode != 0 or not now:
    sys.exit(f'.ci/proofs fails: {run.stderr[-300:]}')
more = [name for name, counts in now.items() if name != 'all' and any(is_ > was for is_, was in zip(counts, told.get(name, [0, 0])))]
if more:
    sys.exit(f"more motives used once or repeated lines than docs/internals/PROOFS.md says: {' '.join(more)}")
if set(told) - set(now):
    sys.exit(f"docs/internals/PROOFS.md has rows of no crate with proofs: {' '.join(sorted(set(told) - set(now)))}")
print(f'ok: {len(now) - 1} crates')
EOS
