#!/usr/bin/env bash
# What README and the docs name is there: the file of each link, each path in backticks (also that of an edit, which stands
# without `.edit`), and each name in backticks that has a `_`, as a crate, an edit, a test or a function has. Of pages that
# name what is in a user's own repository, in the kit or in other libraries, only the links and the scripts in .ci; and of
# docs/MIGRATING.md each name in the column `Here`. Not of docs/reference, which api.sh looks at.
set -u
cd "$(dirname "$0")/../.." || exit 1
exec python3 - <<'PYTHON'
import glob
import os
import re
import sys

# Names of other libraries and of the system, and parts of a path that the reader fills in.
ELSEWHERE = set(
    "MALLOC_MMAP_THRESHOLD_ MALLOC_TRIM_THRESHOLD_ index_twice_mut_edges index_twice_mut_node_edge "
    "index_twice_mut_nodes weights_mut write_all move_to".split()
)
FILLED_IN = re.compile(r"/.*\b[A-Z]{3,}\b|^/var/|\bout/$|\.\.$")


def text_of(path):
    with open(path, encoding="utf-8") as file:
        return file.read()


OTHERS = {"docs/USING.md", "docs/RATTLE.md", "docs/MIGRATING.md"}
docs = ["README.md", *sorted(glob.glob("docs/*.md") + glob.glob("docs/internals/*.md"))]
files = []
for at, folders, names in os.walk("."):
    folders[:] = sorted(set(folders) - {"out", ".git"})
    files += [os.path.relpath(f"{at}/{it}") for it in names + folders]
words = {part for it in files for part in re.split(r"[/.]", it)}
for path in files:
    if path.endswith((".rt", ".antt", ".sh", ".py", ".c", ".rs", ".txt")) or re.fullmatch(r"\.ci/\w+", path) and os.path.isfile(path):
        words.update(re.findall(r"[\w-]+", text_of(path)), re.findall(r"\w+", text_of(path)))
ends = {it[at:] for it in files for at in [0, *(m.end() for m in re.finditer("/", it))]}
ends |= {re.sub(r"\.(edit|rt|antt)$", "", it) for it in ends}

looked, bad = 0, 0
for path in docs:
    text, here = text_of(path), os.path.dirname(path)
    for link in re.findall(r"\]\(([^)#\s]+)[^)]*\)", text):
        if not link.startswith("http"):
            looked += 1
            if not os.path.exists(os.path.join(here, link)):
                bad += 1
                print(f"{path}: no file {link}")
    for name in sorted(set(re.findall(r"`([\w./-]+)`", text))):
        is_path = "/" in name or re.search(r"\.(rt|antt|sh|edit|py|c)$", name)
        if path in OTHERS and not name.startswith(".ci/") or not is_path and "_" not in name:
            continue
        looked += 1
        there = name.rstrip("/") in ends if is_path else words.issuperset(re.split(r"\.", name))
        if not there and name not in ELSEWHERE and not FILLED_IN.search(name):
            bad += 1
            print(f"{path}: nothing is named {name}")
for line in text_of("docs/MIGRATING.md").split("\n"):
    cells = [it.strip() for it in re.split(r"(?<!\\)\|", line)[1:-1]]
    if len(cells) == 3 and cells[1] != "---":
        for name in re.findall(r"\w+", " ".join(re.findall(r"`([^`]*)`", cells[1]))):
            looked += 1
            if name not in words:
                bad += 1
                print(f"docs/MIGRATING.md: nothing here is named {name}")
print(f"ok: {looked} names" if not bad else f"{bad} of {looked} names are of nothing")
sys.exit(bad > 0)
PYTHON
