"""What is wrong with the pages: items, clauses and links that they lack."""
import os
import re

from markdown import place_of
from sources import ROOT

HEADING = re.compile(r'\n<a id="[^\n]*</a>\n\n#')


def scanned(item):
    """The clause names of an item, found by another way than the parser's: (requires, ensures), by a plain search of lines."""
    lines, at = item.where.lines, item.line
    indent = len(lines[at]) - len(lines[at].lstrip())
    found = {"requires": [], "ensures": []}
    while at < len(lines):
        line = lines[at]
        told = re.match(r"\s+(requires|ensures)\*?(?: (\w+))? \{", line)
        if told:
            found[told[1]].append(told[2] or "")
        own = len(line) - len(line.lstrip())
        if at > item.line and line.strip() and own <= indent and not re.match(r"\s*(\)|>|where\b)", line):
            break
        ends = re.search(r"(\{|\{\}|;)\s*$", line) and not told and own <= indent
        if ends and not re.match(r"\s*\) ->.*[^{;]$", line):
            break
        at += 1
    return found["requires"], found["ensures"]


class Links:
    """The links of all pages, and what is wrong with them."""

    def __init__(self, pages):
        self.pages, self.count, self.faults, self.lengths = pages, 0, [], {}
        self.anchors = {name: set(re.findall(r'<a id="([^"]+)"', text)) for name, text in pages.items()}
        for name, text in pages.items():
            self.look(name, re.sub(r"```.*?```", "", text, flags=re.S))

    def look(self, name, plain):
        told = dict(re.findall(r"(?m)^\[([^\]]+)\]: (\S+)$", plain))
        used = re.findall(r"\]\[([^\]]+)\]", plain)
        here = [it.lower() for it in [*told, *self.anchors[name]]]  # names of links are alike in either case, anchors may be
        self.faults += [f"{name}: two names or anchors {it}" for it in sorted(set(here)) if here.count(it) > 1]
        heads = {re.sub(r"[^\w -]", "", it).strip().lower().replace(" ", "-") for it in re.findall(r"(?m)^#+ ([^`\n]+)$", plain)}
        both = sorted(heads & {it.lower() for it in self.anchors[name]})
        self.faults += [f"{name}: a heading and an entry are both {it}" for it in both]
        self.faults += [f"{name}: [{it}] is not told" for it in used if it not in told]
        self.faults += [f"{name}: [{it}] is told, and not used" for it in told if it not in used]
        for target in [*re.findall(r"\]\(([^)]+)\)", plain), *(told[it] for it in used if it in told)]:
            self.count += 1
            fault = self.fault_of(name, target)
            self.faults += [f"{name}: {target} {fault}"] if fault else []

    def fault_of(self, name, target):
        path, _, anchor = target.partition("#")
        if path.startswith("../../"):
            file = os.path.join(ROOT, path[len("../../") :])
            if not os.path.isfile(file):
                return "is no file"
            if file not in self.lengths:
                with open(file, encoding="utf-8") as lines:
                    self.lengths[file] = sum(1 for _ in lines)
            return "is past the end" if anchor and int(anchor[1:]) > self.lengths[file] else ""
        if (path or name) not in self.pages:
            return "is no page"
        return "is no anchor" if anchor and anchor not in self.anchors[path or name] else ""


def text_of(page, anchor):
    """The part of a page that begins at an anchor and ends before the next entry."""
    start = page.index("\n", page.index(f'<a id="{anchor}">'))
    end = HEADING.search(page, start)
    return page[start : end.start() if end else len(page)]


def call_faults(it, entry, own):
    """What the text of an entry lacks of a call's clauses, and how many of them have names."""
    head, faults, count = own.split("<details>")[0], [], 0
    for kind, names, parsed in zip(("requires", "ensures"), scanned(it), (it.requires, it.ensures)):
        if len(names) != len(parsed):
            faults.append(f"{it.where.path}:{it.line + 1}: {it.name}: {len(names)} {kind} in the source")
        for clause in filter(None, names):
            count += 1
            if f"\n{kind} {clause}" not in own:
                faults.append(f"{entry.page}.md: {entry.full}: no {kind} {clause}")
            if kind == "requires" and f"- `{clause}`: " not in head:
                faults.append(f"{entry.page}.md: {entry.full}: {clause} has no words")
    return faults, count


def check(ref, pages):
    """What is wrong, as lines, and the numbers of items, of named clauses and of links."""
    links, items, clauses = Links(pages), 0, 0
    faults = list(links.faults)
    for item, _ in ref.items:
        for it in [item, *item.members]:
            items += 1
            entry = ref.places.get(id(it))
            if entry is None:
                faults.append(f"{item.name}: {it.name} has no entry")
                continue
            page = pages[f"{entry.page}.md"]
            lost = [f"{entry.page}.md: {anchor} has no anchor" for anchor in entry.anchors if f'<a id="{anchor}">' not in page]
            if it.kind == "fn" and not lost:
                lost, count = call_faults(it, entry, text_of(page, entry.anchor))
                clauses += count
            faults += lost
            path, line = place_of(it)
            if not re.search(rf"\b{re.escape(it.name)}\b", it.where.lines[line - 1]) and it.kind != "index":
                faults.append(f"{path}:{line} does not name {it.name}")
    for item, link in ref.links_lost:
        faults.append(f"{os.path.relpath(item.where.path, ROOT)}:{item.line + 1}: {link} leads to no item")
    return list(dict.fromkeys(faults)), (items, clauses, links.count)
