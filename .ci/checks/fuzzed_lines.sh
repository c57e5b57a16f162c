#!/usr/bin/env bash
# The line program on the inputs of .ci/cases/fuzzed.txt, which a fuzzer found: each ends with status 0, and the replies are those of a
# driver of the Rust crate, in both kinds. With a plan behind them they are the same.
set -u
. "$(dirname "$0")/../refusing.sh"
program=$(built dagbench dagbench) || exit 1

python3 - "$program" "$top/.ci/cases/fuzzed.txt" <<'EOS'
import ast
import subprocess
import sys

program, path = sys.argv[1:]


def replies(sent, *arguments):
    run = subprocess.run([program, *arguments], input=sent, capture_output=True)
    if run.returncode != 0 or run.stderr:
        sys.exit(f'{arguments} on {sent}: status {run.returncode}, error {run.stderr}')
    return run.stdout


with open(path) as file:
    cases = [ast.literal_eval(line) for line in file]
if not cases:
    sys.exit('no cases')
for sent, *wanted in cases:
    for kind, said in zip(['compact', 'stable'], wanted, strict=True):
        if replies(sent, kind) != said:
            sys.exit(f'{kind}: other replies to {sent}')
        planned = replies(sent, 'plan', kind)
        if not planned.startswith(said) or not planned.splitlines()[-1].startswith(b'chain '):
            sys.exit(f'plan {kind}: other replies to {sent}')
print(f'ok: {len(cases)} inputs')
EOS
