"""The reference as one HTML file with a search box, which needs no other file."""
import html
import json
import os
import re
from collections import OrderedDict

from entries import Entry
from layout import NAMES, PAGES, STORES
from markdown import HOW_TO_READ, Markdown, about, docs_of, mark, other_sections, parted, place_of, signatures_of, small
from signatures import set_signature
from sources import CRATE, Item, blocks_of, display_of, file_of, first_sentence, resolve

KEYWORDS = set(
    "fn let mut pub struct enum trait type impl const for in if else match while loop return use where self Self move ref as dyn "
    "true false requires ensures".split()
)
TOKEN = re.compile(
    r"//[^\n]*|\"(?:\\.|[^\"\\])*\"|'[a-z_]\w*\b(?!')|'(?:\\.|[^'\\])'|\b[A-Za-z_]\w*(?:::[A-Za-z_]\w*)*"
)


def beside(name):
    """The text of a file in this folder."""
    with open(os.path.join(os.path.dirname(os.path.abspath(__file__)), name), encoding="utf-8") as file:
        return file.read()


def crate_item():
    """The crate as an item, whose doc comment has links."""
    return Item("module", CRATE, file_of(CRATE, []), 0)


class Html(Markdown):
    def __init__(self, ref, base):
        super().__init__(ref)
        self.base = base.rstrip("/")

    # ---- texts and links

    def id(self, it, anchor=None):
        return f"{it.page}.{anchor or it.anchor}" if it.anchor else it.page

    def a(self, it, text):
        return f'<a href="#{self.id(it)}">{text}</a>'

    def code_of(self, text):
        return f"<code>{html.escape(text)}</code>"

    def inline(self, it, item, text):
        """A text of a doc comment."""
        told = []
        for part in re.split(r"(\[`[^`]*`\](?:\([^)]*\))?|`[^`]*`)", text):
            link = re.match(r"\[`([^`]*)`\](?:\(([^)]*)\))?", part)
            if link:
                target = self.led(item, part, link[2] or link[1])
                told.append(self.a(target, self.code_of(link[1])) if target else self.code_of(link[1]))
            elif part.startswith("`"):
                error = re.fullmatch(r"`(\w+Error::\w+)`", part)
                target = self.ref.reached(item, error[1]) if error else None
                told.append(self.a(target, self.code_of(part[1:-1])) if target else self.code_of(part[1:-1]))
            else:
                told.append(re.sub(r"\*\*?(?=\S)([^*]+)(?<=\S)\*\*?", r"<b>\1</b>", html.escape(part, quote=False)))
        return "".join(told)

    def code(self, text, item=None):
        """Code in colors, in which names of the reference are links."""
        told, at = [], 0
        for found in TOKEN.finditer(text):
            told.append(html.escape(text[at : found.start()]))
            told.append(self.token(found[0], item))
            at = found.end()
        return "".join(told) + html.escape(text[at:])

    def token(self, word, item):
        safe = html.escape(word)
        if word.startswith("//"):
            return f"<span class=c>{safe}</span>"
        if word[0] in "\"'":
            return f"<span class=s>{safe}</span>"
        if word in KEYWORDS:
            return f"<span class=k>{safe}</span>"
        if not word[0].isupper() and "::" not in word:
            return safe
        place = None
        if item is None:
            place = self.ref.reached(crate_item(), word)
        elif word.split("::")[-1][0].isupper():
            what = resolve(item.where.crate, item.where.module, tuple(word.split("::")))
            place = self.ref.places.get(id(what[1])) if what and what[0] == "item" else None
        if place and item in [own for _, own in place.items]:
            place = None  # no link from a signature to itself
        return self.a(place, safe) if place else f"<span class=t>{safe}</span>"

    def blocks(self, it, item, blocks):
        told = []
        for kind, block in blocks:
            if kind == "p":
                told.append(f"<p>{self.inline(it, item, block)}</p>")
            elif kind == "li":
                told.append("<ul>" + "".join(f"<li>{self.inline(it, item, part)}</li>" for part in block) + "</ul>")
            else:
                text = "\n".join(block)
                told.append(f"<pre><code>{self.code(text) if kind == 'code' else html.escape(text)}</code></pre>")
        return told

    def sources(self, it):
        told = OrderedDict()
        for label, item in it.items:
            path, line = place_of(item)
            told.setdefault(f"{self.base}/{path}#L{line}", []).append(label)
        if len(told) == 1:
            return f'<a href="{next(iter(told))}">source</a>'
        links = [f'<a href="{link}">{html.escape(", ".join(labels) or "1")}</a>' for link, labels in told.items()]
        return "source: " + ", ".join(links)

    def from_markdown(self, it, lines):
        """Lines of Markdown that hold nothing but links, code and words in italics at their beginning."""

        def linked(found):
            page, _, anchor = found[2].partition("#")
            return f'<a href="#{page[:-3] if page else it.page}.{anchor}">{self.code_of(found[1])}</a>'

        told = []
        for line in filter(None, lines):
            line = re.sub(r"\[`([^`]*)`\]\(([^)]*)\)", linked, line)
            line = re.sub(r"`([^`]*)`", lambda found: self.code_of(found[1]), line)
            told.append("<p class=small>" + re.sub(r"^\*([^*]*)\*", r"\1", line) + "</p>")
        return told

    # ---- the parts of an entry

    def entry(self, it, level):
        sections = docs_of(it)
        told = [*self.head(it, level), *self.signature(it), *self.section(it, sections, "")]
        for name in other_sections(sections):
            told += self.section(it, sections, name)
        told += self.section(it, sections, "Requires")
        told += self.section(it, sections, "Errors") + self.from_markdown(it, Markdown.errors(self, it))
        told += self.section(it, sections, "Complexity") + self.section(it, sections, "Examples")
        told += self.members(it) + self.from_markdown(it, Markdown.implements(self, it)) + self.promises(it) + self.laws(it)
        paths = ", ".join(f"<code>{path}</code>" for path in self.ref.also(it))
        told += [f"<p class=small>Path: {paths}</p>"] if paths else []
        group = ""
        for m in it.members:
            if m.group != group:
                group = m.group
                told.append(f"<h4 class=group>{group}</h4>")
            if not small(m):
                told += self.entry(m, min(level + 1, 4))
        return [*told, "</article>"]

    def head(self, it, level):
        told = [f'<article id="{self.id(it)}">', *(f'<span id="{self.id(it, a)}"></span>' for a in it.anchors[1:])]
        only = f'<span class="tag only">only {html.escape(mark(it))}</span>' if mark(it) else ""
        told.append(f"<div class=head><h{level}>{self.a(it, self.code_of(self.ref.title(it)))}</h{level}>"
                    f"<span class=tag>{self.ref.kind_word(it)}</span>{only}<span class=src>{self.sources(it)}</span></div>")
        return told

    def signature(self, it):
        forms, note = signatures_of(it)
        parts = []
        for label, text in forms:
            item = next(own for own_label, own in it.items if not label or own_label in label.split(", "))
            parts += [f"<span class=c>// {html.escape(label)}</span>"] if label and len(forms) > 1 else []
            parts.append(self.code(text, item))
        parts += [f"<span class=c>{note}</span>"] if note else []
        return ["<pre><code>" + "\n".join(parts) + "</code></pre>"]

    def section(self, it, sections, name):
        told = []
        for label, item, blocks in parted(sections, name):
            if name and not told:
                told.append(f"<p class=label>{name}</p>")
            own = self.blocks(it, item, blocks)
            if label:
                tag = f"<span class=tag>{html.escape(label)}</span> "
                starts = own[0].startswith("<p>")
                own = [own[0].replace("<p>", "<p>" + tag, 1), *own[1:]] if starts else [f"<p>{tag}</p>", *own]
            told += own
        return told

    def members(self, it):
        told = []
        for m in filter(small, it.members):
            text = re.sub(r"^pub ", "", set_signature(m.item)).replace("\n", " ")
            words = " ".join(self.inline(it, m.item, block) for kind, block in blocks_of(m.item.doc)[""] if kind == "p")
            calls = ", ".join(self.a(c, self.code_of(c.full)) for c in self.returned.get(id(m.item), []))
            shown = html.escape(display_of(m.item))
            # The name of a variant may be that of a type too, and is no link to it.
            name = m.name if m.kind == "variant" else ""
            code = html.escape(name) + self.code(text[len(name) :], m.item)
            told.append(f'<dt id="{self.id(m)}"><code>{code}</code></dt><dd>{words}'
                        + (f" <span class=small>Displays \u201c{shown}\u201d.</span>" if shown else "")
                        + (f" <span class=small>Returned by {calls}.</span>" if calls else "") + "</dd>")
        return ["<dl class=parts>", *told, "</dl>"] if told else []

    def promises(self, it):
        lines = Markdown.promises(self, it)
        if not lines:
            return []
        start, end = lines.index("```text"), len(lines) - 1 - lines[::-1].index("```")
        text = html.escape("\n".join(lines[start + 1 : end]), quote=False)
        text = re.sub(r"(?m)^(requires|ensures)( \w+)?", r"<span class=k>\1</span><b>\g<2></b>", text)
        text = re.sub(r"(-- .*)", r"<span class=c>\1</span>", text)
        files = [f'<a href="{self.base}/{file}">{file[len("crates/"):]}</a> ({", ".join(map(self.code_of, words))})'
                 for file, words in self.ref.definitions(it).items()]
        defined = f"<p class=small>Defined in: {'; '.join(files)}.</p>" if files else ""
        return [lines[0], f"<pre><code>{text}</code></pre>{defined}</details>"]

    def laws(self, it):
        told = []
        for _, item in it.items:
            if item.ghosts:
                text = "\n\n".join((f"-- {note}\n" if note else "") + "\n".join(lines) for note, lines in item.ghosts)
                told.append("<details><summary>Laws, which an implementation has to prove</summary>"
                            f"<pre><code>{html.escape(text)}</code></pre></details>")
        return told

    # ---- the file

    def page_and_side(self, name, title, module, words):
        """A page, and its part of the contents at the side."""
        stub = Entry(name, [])
        stub.page = name
        file = about(module) if module else None
        told = [f'<section class=page id="{name}" data-title="{title}"><h1>{title}</h1>']
        if file:
            told += self.blocks(stub, Item("module", module, file, 0), blocks_of(file.about)[""])
        told += [f"<p>{self.inline(stub, crate_item(), words)}</p>"] if words else []
        side, group = [f'<a href="#{name}">{title}</a><div class=items data-page="{name}">'], ""
        for it in self.ref.of_page(name):
            if it.group != group:
                group = it.group
                told.append(f"<h2>{group}</h2>")
                side.append(f"<b>{group}</b>")
            side.append(self.a(it, html.escape(self.ref.title(it))))
            inner = [m for m in it.members if m.kind in ("fn", "index")]
            if inner:
                links = "".join(self.a(m, html.escape(self.ref.title(m))) for m in inner)
                side.append(f'<div class=sub data-of="{self.id(it)}">{links}</div>')
            told += self.entry(it, 3)
        return "\n".join([*told, "</section>"]), "".join([*side, "</div>"])

    def found_by_search(self, it):
        """What the search box knows of an entry: its title, its name with its owner, where it is, words, kind, and rank."""
        rank = 3 if it.kind in ("variant", "field") else 2
        if it.owner is None:
            rank = 1 if it.page == "search" else 0
        elif it.owner.name == "Acyclic":
            rank = 0
        kind = self.ref.kind_word(it)
        if it.owner and it.owner.name in STORES and len(it.items) > 1:
            kind += ", also of StableDiGraph"
        name = it.full if it.kind != "index" else self.ref.title(it)
        return [self.ref.title(it), name, self.id(it), first_sentence(it.item.doc), kind, rank]

    def front(self):
        file, stub = file_of(CRATE, []), Entry("", [])
        told = [f'<section class="page on" id="index" data-title="Reference"><h1>Reference of <code>{CRATE}</code></h1>']
        told += self.blocks(stub, Item("module", CRATE, file, 0), blocks_of(file.about)[""])
        told.append("<h2>Pages</h2><table>")
        for name, title, *_ in PAGES:
            them = self.ref.of_page(name)
            groups = list(dict.fromkeys(it.group for it in them))
            links = [self.a(next(it for it in them if it.group == group), group) for group in groups] if groups != [""] else [
                self.a(it, self.code_of(it.name)) for it in them]
            told.append(f'<tr><td><a href="#{name}">{title}</a></td><td>{", ".join(links)}</td></tr>')
        how = [*HOW_TO_READ, "Press `/` to search by name, or by words of the first sentence."]
        told.append("</table><h2>How to read it</h2><ul>")
        told += [f"<li>{self.inline(stub, crate_item(), it)}</li>" for it in how]
        return [*told, "</ul><h2>All items</h2>", *self.all_items(), "</section>"]

    def all_items(self):
        letters = self.by_letter()
        shown = {letter: "[]" if letter == "index" else letter for letter in letters}
        told = ["<p class=letters>" + "".join(f'<a href="#letter-{it}">{text}</a>' for it, text in shown.items()) + "</p>"]
        for letter, names in letters.items():
            told.append(f'<h2 id="letter-{letter}">{shown[letter]}</h2><ul class=all>')
            for name, them in names.items():
                links = ", ".join(self.a(it, html.escape(self.whose(it).replace("`", ""))) for it in them)
                told.append(f"<li>{self.code_of(name)} <span class=small>{links}</span></li>")
            told.append("</ul>")
        return told

    def file(self):
        pages = [self.page_and_side(*it) for it in PAGES]
        known = json.dumps([self.found_by_search(it) for it in self.ref.all()], ensure_ascii=False, separators=(",", ":"))
        side = '<a href="#index">All pages and items</a>' + "".join(own for _, own in pages)
        return beside("web.html").format_map({
            "crate": CRATE, "style": beside("web.css"), "script": beside("web.js"), "known": known.replace("</", "<\\/"), "side": side,
            "pages": "\n".join([*self.front(), *(page for page, _ in pages)]),
        })
