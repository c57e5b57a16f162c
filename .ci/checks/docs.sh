#!/usr/bin/env bash
# The README has parts of the program that `.ci/use` makes, and what it prints; each block of code in docs/USING.md and in the pages
# of the examples stands in a file that the gate checks or is an example that examples.sh runs; and each run in the README,
# in docs/COMMANDS.md and in those pages prints what stands there.
set -u
cd "$(dirname "$0")/../.." || exit 1
exec python3 - <<'PYTHON'
import glob
import importlib.machinery
import importlib.util
import os
import re
import shlex
import subprocess
import sys
import tempfile

EXAMPLE = "crates/example_tasks"
bad = 0


def complain(text):
    global bad
    bad += 1
    print(text)


def text_of(path):
    with open(path, encoding="utf-8") as file:
        return file.read()


def blocks(text, language):
    return re.findall(rf"^```{language}\n(.*?)^```$", text, re.M | re.S)


# What `.ci/examples` makes tests of.
sys.dont_write_bytecode = True
loader = importlib.machinery.SourceFileLoader("examples", os.path.abspath(".ci/examples"))
made = importlib.util.module_from_spec(importlib.util.spec_from_loader("examples", loader))
loader.exec_module(made)

readme = text_of("README.md")
if blocks(readme, "text") != [text_of(f"{EXAMPLE}/stdout")]:
    complain(f"the README does not have what the program of {EXAMPLE} prints")


# Code without doc comments, attributes, blank lines and the indentation that all of it has. A line `// ..` parts a block.
def code_of(text):
    lines = [line for line in text.split("\n") if line.strip() and not re.match(r"\s*(//[/!]|#\[)", line)]
    margin = min((len(line) - len(line.lstrip()) for line in lines), default=0)
    return [line[margin:] for line in lines]


def stand_in(parts, lines):
    """Whether the parts stand in a file one after another, the lines of each part together, at any indentation."""
    at = 0
    for part in parts:
        while at < len(lines):
            margin = lines[at][: len(lines[at]) - len(lines[at].lstrip())]
            if lines[at : at + len(part)] == [margin + it for it in part]:
                break
            at += 1
        if at >= len(lines):
            return False
        at += len(part)
    return True


def parts_of(block):
    parts = [code_of(part) for part in re.split(r"^ *// \.\.$", block, flags=re.M)]
    return [part for part in parts if part]


example = code_of(text_of(f"{EXAMPLE}/src/main.rt"))
if [stand_in(parts_of(block), example) for block in blocks(readme, "rust")] != [True]:
    complain(f"the README does not have parts of the program of {EXAMPLE}")
gated = [line.split(":")[0].split()[0] for line in text_of("crates.txt").split("\n") if ":" in line.split("#")[0]]
files = [path for name in gated for path in glob.glob(f"crates/{name}/src/**/*.rt", recursive=True)]
sources = {path: code_of(text_of(path)) for path in files}
for path, item, lines in made.examples():
    sources[f"{path}, {item}, {len(sources)}"] = code_of("\n".join(lines))
page = text_of("docs/USING.md")
if blocks(page, "text") != [text_of(f"{EXAMPLE}/stdout")]:
    complain("docs/USING.md: the program of .ci/use prints something else")
pages = {"docs/SHEET.md": "example_sheet", "docs/PACKAGES.md": "example_packages", "docs/BUILD.md": "example_build"}
using = [(path, block) for path in [*made.RECIPE_PAGES, *pages] for block in blocks(made.RECIPE.sub("", text_of(path)), "rust")]
for path, block in using:
    if not any(stand_in(parts_of(block), lines) for lines in sources.values()):
        complain(f"{path}: no file has this:\n{block}")
proofs = [text_of(path) for name in gated for path in glob.glob(f"crates/{name}/proofs/**/*.antt", recursive=True)]
for block in blocks(page, "antt"):
    if not any(block in text for text in proofs):
        complain(f"docs/USING.md: no file has this:\n{block}")

# The runs of the line program: arguments, input, output, and what is on standard error.
runs = []
quick = re.search(r"printf '(.*?)' > /tmp/lines && \(cd crates/dagbench && rt try -- (.*?) < /tmp/lines\)", readme)
prints = re.search(r"It prints ((?:`[^`]*`,\s+)*`[^`]*`)", readme[quick.end() :]) if quick else None
if prints:
    said = re.findall(r"`([^`]*)`", prints[1])
    runs.append((quick[2].split(), quick[1].encode().decode("unicode_escape"), "".join(f"{it}\n" for it in said), ""))
else:
    complain("README.md has no run of the line program")
commands = text_of("docs/COMMANDS.md")
shown = re.findall(r"^```sh\nrt try -- ([^\n]*?) <<'END'\n(.*?)^END\n```\n\nIt prints:\n\n```text\n(.*?)^```$", commands, re.M | re.S)
if not shown or len(shown) != len(blocks(commands, "sh")):
    complain("docs/COMMANDS.md has a run of another form")
runs += [(shlex.split(words), sent, said, "") for words, sent, said in shown]

# Those of the examples.
examples = []
for path, name in pages.items():
    shown = re.findall(
        r"^```sh\nrt try(?: -- ([^\n]*?))? <<'END'\n(.*?)^END\n```\n\nIt prints:\n\n```text\n(.*?)^```\n\nand on standard error:\n\n```text\n(.*?)^```$",
        text_of(path),
        re.M | re.S,
    )
    if not shown or len(shown) != len(blocks(text_of(path), "sh")):
        complain(f"{path} has a run of another form")
    examples.append((name, [(shlex.split(words), *texts) for words, *texts in shown]))


def compare(name, runs):
    """Runs the program of that name, which ends with status 1 if it complains on standard error."""
    program = os.path.abspath(f"crates/{name}/out/{name}")
    if os.access(program, os.X_OK):
        for words, sent, said, told in runs:
            run = subprocess.run([program, *words], input=sent, capture_output=True, text=True)
            if (run.returncode, run.stdout, run.stderr) != (1 if told else 0, said, told):
                complain(f"{name} {' '.join(words)} prints\n{run.stdout}{run.stderr}and not\n{said}{told}")
        return
    # `rt ci` has not built the program, so it is tried.
    with tempfile.TemporaryDirectory() as cases:
        for at, (words, sent, _, _) in enumerate(runs):
            for end, text in [("", sent), (".args", "".join(f"{it}\n" for it in words))]:
                with open(f"{cases}/run{at}{end}", "w", encoding="utf-8") as file:
                    file.write(text)
        run = subprocess.run(["rt", "try", "--cases", cases], cwd=f"crates/{name}", capture_output=True, text=True)
        wanted = "".join(f"== run{at}\n{said}" for at, (_, _, said, _) in enumerate(runs))
        if run.stdout != wanted or not all(told in run.stderr for _, _, _, told in runs):
            complain(f"{name} prints\n{run.stdout}{run.stderr}")


compare("dagbench", runs)
for name, shown in examples:
    compare(name, shown)

count = f"{len(using)} blocks of code and {len(runs) + sum(len(shown) for _, shown in examples)} runs"
print(f"{count}, {bad} bad" if bad else f"ok: {count}")
sys.exit(bad > 0)
PYTHON
