#!/usr/bin/env bash
# The checks, the planted edits, the tests and the examples are those of .ci/listed.txt, by name (`.ci/list` makes it), and the
# table of edits in docs/internals/TESTING.md has as many of each crate.
set -u
cd "$(dirname "$0")/../.." || exit 1
diff .ci/listed.txt <(.ci/list) || { echo 'what .ci/list prints is not .ci/listed.txt'; exit 1; }
exec python3 - <<'PYTHON'
import collections
import re
import sys

edits = [line.split()[1].split("/") for line in open(".ci/listed.txt", encoding="utf-8") if line.startswith("edit ")]
there = collections.Counter(crate for crate, folder, _ in edits if folder == "refused")
text = open("docs/internals/TESTING.md", encoding="utf-8").read()
rows = text.partition("| Crate | edits | that add a return |")[2].partition("\n\n")[0]
said = {crate: int(count) for crate, count in re.findall(r"^\| `(\w+)` \| (\d+) \|", rows, re.M)}
table = text.partition("| Wrong body | Edit | Clause |")[2].partition("\n\n")[0]
shown = [f"{crate}/{name[:-5]}" for crate, folder, name in edits if folder == "must-fail"]
untold = [it for it in shown if it.partition("/")[2] not in re.findall(r"\w+", table)]
if said != there:
    sys.exit(f"docs/internals/TESTING.md has other numbers of edits: {sorted(set(said.items()) ^ set(there.items()))}")
if untold:
    sys.exit(f"the table of wrong bodies in docs/internals/TESTING.md lacks {untold}")
print(f"ok: {sum(1 for _ in open('.ci/listed.txt', encoding='utf-8'))} names")
PYTHON
