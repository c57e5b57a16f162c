"""The reference as Markdown pages."""
import os
import re
from collections import OrderedDict

from entries import Entry, normal
from layout import NAMES, PAGES, STORES
from signatures import set_signature
from sources import CRATE, ROOT, Item, blocks_of, display_of, file_of, resolve
from words import gloss_of

MADE_BY = "<!-- Made by .ci/reference from the sources; do not edit. -->"
HOW_TO_READ = [
    "*Requires* lists the preconditions of a method or function, clause by clause. The names are those in the checker's "
    "messages: `add_edge-requires-clause-parent` is the clause `parent` of `add_edge`, and `add_node-requires` is a clause "
    "without a name. The checker proves each clause at each call. Without this list there is no precondition.",
    "*Promises* names the clauses of the contract. Unfolded, it shows the contract itself; the files that define the names "
    "in it are listed at the end of the page.",
    "A mark such as *Only `StableDag`* names the only kind that has the item; in a signature, `// Dag` and `// StableDag` "
    "mark the forms for the two kinds.",
    "`Ix` is the type of the indices. If the signature of a type or trait has `= DefaultIx`, `Ix` can be left out where the "
    "type is written, and is then `u32`; otherwise it has to be written. An example is the body of a function that has a "
    "runtime `rt` and returns a `Result`.",
]


def small(member):
    """Whether a member is told in a line of its owner's entry."""
    return member.kind in ("variant", "field") or (member.kind in ("type", "const") and member.owner)


def parted(sections, name):
    """The blocks of a section, those that all kinds share once: [(label, item, blocks)]."""
    lists = [(label, item, told.get(name, [])) for label, item, told in sections]
    label, item, first = lists[0]
    if all(blocks == first for _, _, blocks in lists):
        return [("", item, first)] if first else []
    start = stop = 0
    while all(len(blocks) > start and blocks[start] == first[start] for _, _, blocks in lists):
        start += 1
    while all(len(blocks) - start > stop and blocks[-1 - stop] == first[-1 - stop] for _, _, blocks in lists):
        stop += 1
    own = [(label, item, blocks[start : len(blocks) - stop]) for label, item, blocks in lists]
    told = [("", item, first[:start]), *own, ("", item, first[len(first) - stop :])]
    return [it for it in told if it[2]]


def about(module):
    """The file of a module of the crate."""
    what = file_of(CRATE, [module]) or (resolve(CRATE, [], (module,)) or ("", None))[1]
    return what


def place_of(item):
    """The file of an item, and its line."""
    return os.path.relpath(item.where.path, ROOT).replace(os.sep, "/"), item.line + 1


def mark(it):
    """The kind that an entry is only of."""
    return "" if it.all_kinds() else next(iter({label for label, _ in it.items}))


def same_but_kind(it):
    """Whether the signatures of two kinds differ in the kind's name alone."""
    return len(it.items) > 1 and len({normal(item.signature) for _, item in it.items}) == 1


def signatures_of(it):
    """The forms of a signature, and a comment that says how the other kind's reads."""
    alike = same_but_kind(it)
    forms = it.variants(lambda item: normal(set_signature(item)) if alike else set_signature(item))
    if not alike or len({item.signature for _, item in it.items}) == 1:
        return forms, ""
    other = "StableDiGraph" if it.items[-1][0] in STORES or it.items[-1][0] == "stable_graph" else "StableDag"
    return forms, f"// in the other kind: {other} for {other[6:]}"


def docs_of(it):
    """The doc comments of an entry by kind, in sections."""
    docs = it.variants(lambda item: item.doc)
    return [(label, next(own for _, own in it.items if own.doc == doc), blocks_of(doc)) for label, doc in docs]


def other_sections(sections):
    """The names of the sections that have no place of their own."""
    names = OrderedDict((name, 0) for _, _, own in sections for name in own)
    return [name for name in names if name not in ("", "Errors", "Complexity", "Examples", "Requires")]


class Markdown:
    def __init__(self, ref):
        self.ref, self.returned, self.lines_of, self.words_on = ref, ref.returned_by(), {}, {}

    # ---- texts and links

    def link(self, here, it):
        if not it.anchor:
            return f"{it.page}.md"
        return f"#{it.anchor}" if it.page == here else f"{it.page}.md#{it.anchor}"

    def led(self, item, text, name):
        """The entry that a link of a doc comment leads to, or None, which is noted."""
        target = self.ref.reached(item, name.strip("`"))
        if target is None:
            self.ref.links_lost.append((item, text))
        return target

    def prose(self, it, item, text):
        """A text of a doc comment, with its links and the errors that it names led to entries."""

        def linked(found):
            if found[3]:
                target = self.ref.reached(item, found[3])
                return f"[`{found[3]}`]({self.link(it.page, target)})" if target else found[0]
            target = self.led(item, found[0], found[2] or found[1])
            return f"[`{found[1]}`]({self.link(it.page, target)})" if target else f"`{found[1]}`"

        return re.sub(r"\[`([^`]*)`\](?:\(([^)]*)\))?|`(\w+Error::\w+)`", linked, text)

    def blocks(self, it, item, blocks):
        lines = []
        for kind, block in blocks:
            if kind == "p":
                lines += [self.prose(it, item, block), ""]
            elif kind == "li":
                lines += [*[f"- {self.prose(it, item, part)}" for part in block], ""]
            else:
                lines += ["```rust" if kind == "code" else "```text", *block, "```", ""]
        return lines

    def anchors(self, it):
        return "".join(f'<a id="{a}"></a>' for a in it.anchors)

    def sources(self, it):
        """The files of an entry, as links whose lines stand at the end of the page."""
        told = OrderedDict()
        for label, item in it.items:
            told.setdefault(place_of(item), []).append(label)
        parts = []
        for at, ((path, line), labels) in enumerate(told.items()):
            name = f"{it.anchor}.{it.kind}" + (f".{at + 1}" if len(told) > 1 else "")
            self.lines_of.setdefault(it.page, []).append(f"[{name}]: ../../{path}#L{line}")
            whose = ", ".join(filter(None, labels)) if len(told) > 1 else ""
            parts.append(f"[{whose or 'source'}][{name}]")
        return ("Source: " if len(told) > 1 else "") + ", ".join(parts)

    # ---- the parts of an entry

    def entry(self, it, level):
        sections = docs_of(it)
        lines = [*self.head(it, level), *self.signature(it), *self.section(it, sections, "")]
        for name in other_sections(sections):
            lines += self.section(it, sections, name)
        lines += self.section(it, sections, "Requires")
        lines += self.section(it, sections, "Errors") + self.errors(it)
        lines += self.section(it, sections, "Complexity") + self.section(it, sections, "Examples")
        lines += self.members(it) + self.implements(it) + self.promises(it) + self.laws(it)
        paths = ", ".join(f"`{path}`" for path in self.ref.also(it))
        lines += [f"Path: {paths}. {self.sources(it)}" if paths else self.sources(it), ""]
        group = ""
        for m in it.members:
            if m.group != group:
                group = m.group
                lines += [f"{'#' * (level + 1)} {group}", ""]
            if not small(m):
                lines += self.entry(m, level + 2 if group else level + 1)
        return lines

    def head(self, it, level):
        lines = [self.anchors(it), "", f"{'#' * level} `{self.ref.title(it)}`", ""]
        if mark(it):
            lines += [f"*Only `{mark(it)}`.*", ""]
        if it.owner and it.owner.kind == "trait" and it.kind == "fn":
            lines += [f"*{self.ref.kind_word(it).capitalize()}.*", ""]
        return lines

    def signature(self, it):
        forms, note = signatures_of(it)
        lines = ["```rust"]
        for label, text in forms:
            lines += [f"// {label}"] if label and len(forms) > 1 else []
            lines += text.split("\n")
        return [*lines, *([note] if note else []), "```", ""]

    def section(self, it, sections, name):
        lines = []
        for label, item, blocks in parted(sections, name):
            if name and not lines:
                lines += [f"**{name}**", ""]
            own = self.blocks(it, item, blocks)
            if label and blocks[0][0] == "p":
                own[0] = f"*{label}:* {own[0]}"
            elif label:
                own = [f"*{label}:*", "", *own]
            lines += own
        return lines

    def errors(self, it):
        """The variants that a call returns and its doc comment does not name, linked."""
        told = []
        for _, item in it.items:
            found = self.ref.errors(item) if item.kind == "fn" else None
            if found:
                error, enum, names = found
                texts = [self.variant(it, enum, name) for name in names] if enum else [f"`{error}`"]
                section = str(blocks_of(item.doc).get("Errors", ""))
                told += [text for text in texts if re.search(r"`([^`]*)`", text)[1] not in section and text not in told]
        return [f"*Error values:* {', '.join(told)}.", ""] if told else []

    def variant(self, it, enum, name):
        place = self.ref.places.get(id(next(m for m in enum.members if m.name == name)))
        return f"[`{enum.name}::{name}`]({self.link(it.page, place)})" if place else f"`{enum.name}::{name}`"

    def members(self, it):
        """Variants, fields and associated types, in a line each."""
        lines = []
        for m in filter(small, it.members):
            text = re.sub(r"^pub ", "", set_signature(m.item)).replace("\n", " ")
            words = " ".join(self.prose(it, m.item, block) for kind, block in blocks_of(m.item.doc)[""] if kind == "p")
            shown = display_of(m.item)
            calls = ", ".join(f"[`{c.full}`]({self.link(it.page, c)})" for c in self.returned.get(id(m.item), []))
            lines.append(f"- {self.anchors(m)}`{text}`: {words}" + (f' Displays "{shown}".' if shown else "")
                         + (f" Returned by {calls}." if calls else ""))
        return [*lines, ""] if lines else []

    def implements(self, it):
        """The traits of a type, and the bounds of its methods."""
        told = []
        for label, item in it.items:
            parts = []
            for name, only, impl in self.ref.traits(item):
                target = self.ref.reached(item, re.sub(r"<.*", "", name)) if impl else None
                linked = target is not None and target.items and target.kind == "trait"
                text = f"[`{name}`]({self.link(it.page, target)})" if linked else f"`{name}`"
                parts.append(text + (f" (`{only}`)" if only else ""))
            told += [(label, ", ".join(parts))] if parts else []
        if len({text for _, text in told}) == 1:
            told = [("", told[0][1])]
        lines = [f"*Implements{f' ({label})' if label else ''}:* {text}." for label, text in told]
        impls = OrderedDict((head, names) for _, item in it.items for head, names in item.impls.items())
        heads = []
        for head, names in impls.items():
            if re.search(r"\w: ", head.replace("Ix: IndexType", "")):  # it asks for more than an index type
                few = len(impls) > 1 and len(names) <= 3
                heads.append(f"`{head}`" + (f" ({', '.join(f'`{name}`' for name in names)})" if few else ""))
        if heads:
            lines.insert(0, f"*Methods in:* {'; '.join(heads)}.")
        return [line for text in lines for line in (text, "")]

    def promises(self, it):
        """The contract, folded below the names of its promises."""
        told, needs = it.clauses("ensures"), it.clauses("requires")
        if not told and not needs:
            return []
        names = [f"<code>{name}</code>" for name in dict.fromkeys(c.name for _, c in told if c.name)]
        free = sum(1 for _, c in told if not c.name)
        if free:
            names.append(("and " if names else "") + ("one" if free == 1 else str(free)) + " without a name")
        lines = [f"<details><summary>Promises: {', '.join(names) or 'nothing by itself'}</summary>", "", "```text"]
        for kind, them in (("requires", needs), ("ensures", told)):
            for label, c in them:
                words = gloss_of(c.text) if kind == "ensures" else ""
                lines.append(f"{kind}{f' {c.name}' if c.name else ''}{f' ({label})' if label else ''}"
                             + (f"  -- {words}" if words else ""))
                lines += [f"    {t}" for t in c.lines]
        for file, words in self.ref.definitions(it).items():
            self.words_on.setdefault(it.page, {}).setdefault(file, set()).update(words)
        return [*lines, "```", "", "</details>", ""]

    def laws(self, it):
        lines = []
        for _, item in it.items:
            if item.ghosts:
                lines += ["<details><summary>Laws, which an implementation has to prove</summary>", "", "```text"]
                for note, text in item.ghosts:
                    lines += ([f"-- {note}"] if note else []) + text + [""]
                lines += ["```", "", "</details>", ""]
        return lines

    # ---- pages

    def page(self, name, title, module, words):
        them = self.ref.of_page(name)
        stub = Entry(name, [])
        stub.page = name
        file = about(module) if module else None
        lines = [MADE_BY, "", f"# {title}", "", "[All pages and items](README.md)", ""]
        if file:
            lines += self.blocks(stub, Item("module", module, file, 0), blocks_of(file.about)[""])
        lines += [self.prose(stub, Item("module", CRATE, file_of(CRATE, []), 0), words), ""] if words else []
        lines += ["**Contents**", "", *self.contents(them), ""]
        group = ""
        for it in them:
            if it.group != group:
                group = it.group
                lines += [f"## {group}", ""]
            lines += self.entry(it, 3 if group else 2)
        defined = self.words_on.get(name, {})
        if defined:
            lines += ["## Where the words of the contracts are defined", ""]
            lines += [f"- [{file[len('crates/'):]}](../../{file}): {', '.join(f'`{word}`' for word in sorted(defined[file]))}"
                      for file in sorted(defined)]
        # Line numbers change often: they stand together at the end of the page, so that the diff is there.
        lines += ["", "<!-- The lines of the sources. -->", "", *self.lines_of.get(name, [])]
        return re.sub(r"\n{3,}", "\n\n", "\n".join(lines)).rstrip() + "\n"

    def contents(self, them):
        """The links at the head of a page: by group, each type with its calls."""

        def links(own):
            return ", ".join(f"[`{self.ref.title(it)}`](#{it.anchor})" for it in own)

        lines = []
        for group in OrderedDict.fromkeys(it.group for it in them):
            own = [it for it in them if it.group == group]
            if group:
                lines.append(f"- {group}: {links(own)}")
            for it in own:
                inner = [m for m in it.members if m.kind in ("fn", "index")]
                if group and inner:
                    lines.append(f"  - `{it.name}`: {links(inner)}")
                elif not group and any(m.group for m in inner):
                    lines.append(f"- [`{it.name}`](#{it.anchor})")
                    lines += [f"  - {part}: {links([m for m in inner if m.group == part])}"
                              for part in OrderedDict.fromkeys(m.group for m in inner)]
                elif not group:
                    lines.append(f"- {links([it])}" + (f": {links(inner)}" if inner else ""))
        return lines

    def index(self):
        file, stub = file_of(CRATE, []), Entry("", [])
        lines = [MADE_BY, "", f"# Reference of `{CRATE}`", ""]
        lines += self.blocks(stub, Item("module", CRATE, file, 0), blocks_of(file.about)[""])
        lines += ["## How to read it", "", *[f"- {it}" for it in HOW_TO_READ], "", "## Pages", "", "| Page | Holds |", "|---|---|"]
        for name, title, *_ in PAGES:
            them = self.ref.of_page(name)
            groups = list(dict.fromkeys(it.group for it in them))
            first = [next(it for it in them if it.group == group) for group in groups]
            text = [f"[{it.group}]({name}.md#{it.anchor})" for it in first] if groups != [""] else [
                f"[`{it.name}`]({name}.md#{it.anchor})" for it in them]
            lines.append(f"| [{title}]({name}.md) | {', '.join(text)} |")
        lines += ["", "## All items", "", *self.all_items()]
        return re.sub(r"\n{3,}", "\n\n", "\n".join(lines)).rstrip() + "\n"

    def by_letter(self):
        """All entries by name, and the names by letter: {letter: {name: [entry]}}."""
        found = OrderedDict()
        for it in self.ref.all():
            found.setdefault(it.name if it.kind != "index" else "[]", []).append(it)
        letters = OrderedDict()
        for name in sorted(found, key=lambda t: (t.lstrip("[").lower(), t)):
            letter = name[0].upper() if name[0].isalpha() else "index"
            letters.setdefault(letter, OrderedDict())[name] = sorted(found[name], key=lambda it: NAMES.index(it.page))
        return letters

    def whose(self, it):
        """What an entry is, or what it belongs to, for the list of all items."""
        if it.owner is None:
            return self.ref.kind_word(it)
        if it.owner.name == "Acyclic":
            return "`Dag`" if mark(it) != "StableDag" else "`StableDag`"
        if it.owner.name in STORES and len(it.items) > 1:
            return "`DiGraph`, `StableDiGraph`"
        return f"`{it.owner.name}`"

    def all_items(self):
        lines = []
        for letter, names in self.by_letter().items():
            lines += [f"**{'`[]`' if letter == 'index' else letter}**", ""]
            for name, them in names.items():
                lines.append(f"- `{name}`: " + ", ".join(f"[{self.whose(it)}]({it.page}.md#{it.anchor})" for it in them))
            lines.append("")
        return lines

    def pages(self):
        yield "README.md", self.index()
        for name, title, module, words in PAGES:
            yield f"{name}.md", self.page(name, title, module, words)
