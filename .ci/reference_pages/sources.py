"""What the sources define: items with their docs, signatures and clauses, and what a path means."""
import itertools
import os
import re
from collections import OrderedDict

ROOT = os.path.normpath(os.path.join(os.path.dirname(os.path.abspath(__file__)), "..", ".."))
CRATE = "daggy"


class Clause:
    """A clause of a contract: its name or "", its text on one line, and the text as it is set."""

    def __init__(self, name, text, lines):
        self.name, self.text, self.lines = name, text, lines


class Item:
    """A definition: its kind, its name, its doc, its signature, its clauses, and where it stands."""

    def __init__(self, kind, name, where, line):
        self.kind, self.name, self.where, self.line = kind, name, where, line
        self.doc, self.attributes, self.signature, self.requires, self.ensures = [], [], "", [], []
        self.members, self.traits, self.only, self.ghosts, self.provided = [], [], "", [], False
        self.impls = OrderedDict()  # of a type: the names of the methods by the header of their impl


class File:
    def __init__(self, path):
        self.path, self.lines = path, open(path, encoding="utf-8").read().split("\n")
        self.items, self.impls, self.uses, self.ghosts, self.modules = {}, [], {}, {}, set()


def depth(line):
    """How many brackets a line opens more than it closes."""
    code = re.sub(r"//.*|'.'|\"[^\"]*\"|->|=>", "", line)
    return sum(code.count(it) for it in "({[") - sum(code.count(it) for it in ")}]")


def joined(parts):
    """A signature on one line, with its bounds."""
    text = re.sub(r"\s+", " ", " ".join(it.strip() for it in parts))
    text = re.sub(r"([(<\[])\s+", r"\1", text)
    text = re.sub(r",?\s+([)>\]])(?!=)", r"\1", text)
    text = re.sub(r"\s(->|=>)", r" \1", re.sub(r",([)>\]])", r"\1", text))
    text = re.sub(r",\s*}", " }", text).replace(")->", ") ->").replace("-> ", "-> ")
    return re.sub(r"\s*[{;]?\s*$", "", text).rstrip(",").strip()


def before(lines, at):
    """The doc comment and the attributes that stand before a line."""
    doc, attributes = [], []
    while at > 0 and re.match(r"\s*(//[^!]|//$|#\[)", lines[at - 1]):
        at -= 1
        line = lines[at].strip()
        if line.startswith("///"):
            doc.insert(0, line[4:] if line.startswith("/// ") else line[3:])
        elif line.startswith("#"):
            attributes.insert(0, line)
    return doc, attributes


def dedented(lines):
    """Lines without the indent that all but the first share."""
    rest = [len(it) - len(it.lstrip()) for it in lines[1:] if it.strip()]
    cut = min(rest, default=0)
    return [lines[0].strip()] + ["    " + it[cut:].rstrip() for it in lines[1:]]


def clauses(lines, at):
    """The signature that begins at a line, its clauses by kind, the next line, and whether a body follows."""
    head, found = [], {"requires": [], "ensures": []}
    indent = len(lines[at]) - len(lines[at].lstrip())
    while at < len(lines):
        line = lines[at]
        start = re.match(r"\s*(requires|ensures)\b\*?(?: (\w+))? \{", line)
        ended = body = False
        if start:
            text, level = [], 0
            while True:
                text.append(lines[at])
                level += depth(lines[at])
                if level <= 0:
                    break
                at += 1
            clause = " ".join(it.strip() for it in text)
            inner = clause[clause.index("{") + 1 : clause.rindex("}")].strip()
            shown = dedented(text)
            shown[0] = shown[0][shown[0].index("{") + 1 :].lstrip()
            shown[-1] = shown[-1][: shown[-1].rindex("}")].rstrip()
            found[start[1]].append(Clause(start[2] or "", inner, [it for it in shown if it.strip()]))
            ended = clause.endswith(";")
        elif line.strip().startswith("//") or not line.strip():
            pass
        elif line.strip() == "{" and len(line) - len(line.lstrip()) == indent:
            return joined(head), found["requires"], found["ensures"], at, True
        else:
            head.append(line)
            body = line.rstrip().endswith("{") or line.rstrip().endswith("{}")
            ended = line.rstrip().endswith(";") or (body and not found["requires"]) or line.rstrip().endswith("{}")
        at += 1
        if ended:
            head = [re.sub(r"\{\}$", "", it.rstrip()) for it in head]
            return joined(head), found["requires"], found["ensures"], at, body
    raise SystemExit("a signature has no end")


def split_list(text):
    """The parts of a list, at its commas outside brackets."""
    parts, level, part = [], 0, ""
    for at, it in enumerate(text):
        level += (it in "{<([") - (it in "})]" or (it == ">" and text[at - 1 : at] not in ("-", "=")))
        if it == "," and level == 0:
            parts.append(part)
            part = ""
        else:
            part += it
    return [it.strip() for it in [*parts, part] if it.strip()]


def paths_of(tree, prefix=()):
    """The paths that a `use` tree names: (path, name)."""
    tree = tree.strip()
    if tree.endswith("}"):
        front, inner = tree[: tree.index("{")], tree[tree.index("{") + 1 : -1]
        front = [it for it in front.split("::") if it]
        return [it for part in split_list(inner) for it in paths_of(part, (*prefix, *front))]
    path, _, name = tree.partition(" as ")
    path = [*prefix, *path.split("::")]
    if path[-1] == "self":
        path = path[:-1]
    return [(tuple(path), name or path[-1])]


def read(path):
    """What a file defines and re-exports."""
    file, at = File(path), 0
    lines = file.lines
    file.about = [line[4:] for line in itertools.takewhile(lambda it: it.startswith("//!"), lines)]
    while at < len(lines):
        if re.match(r"(pub |ghost )?use ", lines[at]):
            at = read_use(file, at)
            continue
        module = re.match(r"pub mod (\w+);", lines[at])
        if module:
            file.modules.add(module[1])
        start = re.match(r"(?:pub )?(impl)\b|pub (struct|enum|trait|type|fn|const) (\w+)", lines[at])
        at = read_item(file, at, start[1] or start[2], start[3] or "") if start else at + 1
    return file


def read_use(file, at):
    """Reads a `use`, and returns the line after it."""
    text = file.lines[at]
    while not text.rstrip().endswith(";"):
        at += 1
        text += " " + file.lines[at].strip()
    if text.startswith("ghost "):
        tree = re.match(r"ghost use ([\w.]+)\.\{(.*)\};", text)
        for it in split_list(tree[2]) if tree else []:
            own, _, name = it.partition(" as ")
            file.ghosts[name or own] = (tree[1], own)
    else:
        for it, name in paths_of(re.sub(r"^(pub )?use ", "", text).rstrip(";")):
            file.uses[name] = (it, text.startswith("pub "))
    return at + 1


def read_item(file, at, kind, name):
    """Reads a definition, and returns the line after it."""
    lines = file.lines
    item = Item(kind, name, file, at)
    item.doc, item.attributes = before(lines, at)
    item.signature, item.requires, item.ensures, at, _ = clauses(lines, at)
    opened = lines[at - 1].rstrip().endswith("{") or (at < len(lines) and lines[at].strip() == "{")
    if opened and kind in ("impl", "trait", "enum", "struct"):
        end = next(it for it in range(at, len(lines)) if lines[it] == "}")
        members(file, item, at, end)
        at = end + 1
    if kind == "impl":
        file.impls.append(item)
    else:
        file.items[name] = item
    return at


def members(file, item, at, end):
    """Reads the methods, variants and public fields between two lines, and the ghost members of a trait."""
    lines = file.lines
    while at < end:
        if item.kind == "trait" and re.match(r"    ghost (\w+):", lines[at]):
            at = read_ghost(lines, item, at)
            continue
        if item.kind in ("impl", "trait"):
            start = re.match(r"    (?:(pub )?(?:final |const )?(fn) (\w+)|(type|const) (\w+))", lines[at])
            wanted = start and (item.kind == "trait" or (start[2] and (start[1] or "IndexMut<" in item.signature)))
        elif item.kind == "enum":
            start = wanted = re.match(r"    ([A-Z]\w*)", lines[at])
        else:
            start = wanted = re.match(r"    pub (\w+): ", lines[at])
        if not wanted:
            at += 1
            continue
        doc, attributes = before(lines, at)
        if item.kind in ("impl", "trait"):
            it = Item(start[2] or start[4], start[3] or start[5], file, at)
            it.signature, it.requires, it.ensures, at, it.provided = clauses(lines, at)
        else:
            it = Item("variant" if item.kind == "enum" else "field", start[1], file, at)
            text, at = bracketed(lines, at)
            it.signature = joined([re.sub(r"\s*///.*", "", line) for line in text])
        it.doc, it.attributes = doc, attributes
        if "#[doc(hidden)]" not in attributes:
            item.members.append(it)


def bracketed(lines, at):
    """The lines from one on until its brackets are closed, and the line after them."""
    text, level = [], 0
    while not text or level > 0:
        text.append(lines[at])
        level += depth(lines[at])
        at += 1
    return text, at


def read_ghost(lines, item, at):
    """Reads a ghost member of a trait with the comment above it, and returns the line after it."""
    note, back = [], at
    while re.match(r"\s*//(?!/)", lines[back - 1]):
        back -= 1
        note.insert(0, lines[back].strip()[2:].strip())
    text, level = [], 0
    while not text or level > 0 or not text[-1].rstrip().endswith(";"):
        text.append(lines[at][4:])
        level += depth(lines[at])
        at += 1
    item.ghosts.append((" ".join(note), text))
    return at


FILES = {}


def file_of(crate, modules):
    """The file of a module, or None."""
    src = os.path.join(ROOT, "crates", crate, "src")
    path = os.path.join(src, *modules) + ".rt" if modules else os.path.join(src, "lib.rt")
    if not os.path.isfile(path):
        return None
    if path not in FILES:
        FILES[path] = read(path)
        FILES[path].crate, FILES[path].module = crate, list(modules)
    return FILES[path]


def library_files():
    """All files of the library's crates: those whose name begins with that of the crate."""
    for crate in sorted(os.listdir(os.path.join(ROOT, "crates"))):
        if crate != CRATE and not crate.startswith(CRATE + "_"):
            continue
        src = os.path.join(ROOT, "crates", crate, "src")
        for at, folders, names in sorted(os.walk(src)):
            folders.sort()
            for name in sorted(names):
                path = os.path.relpath(os.path.join(at, name), src)[: -len(".rt")].split(os.sep)
                yield file_of(crate, [] if path == ["lib"] else path)


def resolve(crate, modules, path):
    """What a path means in a module: ("item", Item) or ("module", File), or None."""
    if path[0] in ("crate", "self", "super"):
        start = {"crate": [], "self": modules, "super": modules[:-1]}[path[0]]
        return find(crate, start, path[1:])
    if os.path.isdir(os.path.join(ROOT, "crates", path[0])):
        return find(path[0], [], path[1:])
    return find(crate, modules, path)


def find(crate, modules, path):
    """The item or module at a path below a module, through re-exports."""
    file = file_of(crate, modules)
    if not path:
        return ("module", file) if file else None
    if file and path[0] in file.items and len(path) == 1:
        return ("item", file.items[path[0]])
    if file and path[0] in file.uses and file.uses[path[0]][0] != tuple(path):
        return resolve(crate, modules, (*file.uses[path[0]][0], *path[1:]))
    if file_of(crate, [*modules, path[0]]):
        return find(crate, [*modules, path[0]], path[1:])
    return None


def public(file, prefix=""):
    """What users can name below a file: (path, item)."""
    for name, item in file.items.items():
        if "#[doc(hidden)]" not in item.attributes:
            yield prefix + name, item
    for name in sorted(file.modules):
        yield from public(file_of(file.crate, [*file.module, name]), f"{prefix}{name}::")
    for name, (path, shown) in file.uses.items():
        if shown:
            what = resolve(file.crate, file.module, path)
            if what is None:
                raise SystemExit(f"{file.path}: {'::'.join(path)} is not found")
            if what[0] == "module":
                yield from public(what[1], f"{prefix}{name}::")
            else:
                yield prefix + name, what[1]


def after_generics(text):
    """What comes after the `<..>` that a text begins with."""
    if not text.startswith("<"):
        return text
    level = 0
    for at, it in enumerate(text):
        level += (it == "<") - (it == ">" and text[at - 1] != "-")
        if level == 0:
            return text[at + 1 :].strip()
    return text


def impl_of(item):
    """The trait and the type of an impl."""
    text = re.sub(r"\s+where\b.*$", "", item.signature)
    text = after_generics(re.sub(r"^(pub )?impl", "", text).strip())
    level, cut = 0, -1
    for it in re.finditer(r"[<>]|\bfor\b", text):
        if it[0] == "for":
            if level == 0:
                cut = it.start()
        else:
            level += 1 if it[0] == "<" else -(text[it.start() - 1] != "-")
    return ("", text) if cut < 0 else (text[:cut].strip(), text[cut + 3 :].strip())


def indexed(trait, item, method):
    """What `[]` does to an item by a method of `IndexMut`, whose impl has no sentence of its own."""
    what = "a node" if "NodeIndex" in trait else "an edge"
    named = re.search(r"self, (\w+):", method.signature)[1]
    it = Item("index", f"[{'n' if what == 'a node' else 'e'}]", method.where, method.line)
    it.signature = f"{'dag' if item.name == 'Acyclic' else 'graph'}[{named}]"
    it.doc, it.requires = [f"The weight of {what}, shared or mutable."], method.requires
    return it


def attach_impls():
    """Gives each item the methods and the traits of its impls."""
    for file in list(library_files()):
        for impl in file.impls:
            trait, own = impl_of(impl)
            name = re.match(r"[\w:]+", own)
            what = name and resolve(file.crate, file.module, tuple(name[0].split("::")))
            if not what or what[0] != "item":
                continue
            item, only = what[1], ""
            if item.kind == "type":
                target = re.search(r"= ([\w:]+)<(.*)>", item.signature)
                what = resolve(item.where.crate, item.where.module, tuple(target[1].split("::")))
                only, item = item.name, what[1]
            if item.name == "Acyclic":
                only = "StableDag" if "StableDiGraph<" in own or only == "StableDag" else (
                    "Dag" if "DiGraph<" in own or only == "Dag" else "")
            if trait:
                item.traits.append((re.match(r"[\w:]+", trait)[0].split("::")[-1], trait, only, impl))
            for it in impl.members:
                item.members.append(indexed(trait, item, it) if trait else it)
                item.members[-1].only = only
            if impl.members and not trait:
                item.impls.setdefault(impl.signature, []).extend(it.name for it in impl.members)


def blocks_of(doc):
    """A doc comment as {section: blocks}; a block is ("p", text), ("li", [text]),
    ("code", lines) for an example, or ("text", lines) for what is indented."""
    sections, now, at = OrderedDict({"": []}), "", 0
    while at < len(doc):
        line = doc[at]
        if line.startswith("# "):
            now = line[2:].strip()
            sections.setdefault(now, [])
            at += 1
        elif line.strip():
            block, at = block_at(doc, at)
            sections[now].append(block)
        else:
            at += 1
    return sections


def block_at(doc, at):
    """The block that begins at a line, and the line after it."""
    start = at
    if doc[at].startswith("```"):
        at = next(it for it in range(at + 1, len(doc)) if doc[it].startswith("```"))
        return ("code", doc[start + 1 : at]), at + 1
    if doc[at].startswith("    "):
        while at < len(doc) and (doc[at].startswith("    ") or not doc[at].strip()):
            at += 1
        text = [line[4:] for line in doc[start:at]]
        while not text[-1].strip():
            text.pop()
        return ("text", text), at
    if re.match(r"[-*] ", doc[at]):
        items = []
        while at < len(doc) and doc[at].strip():
            if re.match(r"[-*] ", doc[at]):
                items.append(doc[at][2:].strip())
            else:
                items[-1] += " " + doc[at].strip()
            at += 1
        return ("li", items), at
    while at < len(doc) and doc[at].strip() and not re.match(r"# |```|[-*] ", doc[at]):
        at += 1
    return ("p", " ".join(line.strip() for line in doc[start:at])), at


def first_sentence(doc):
    """The first sentence of a doc comment, without links."""
    first = next((text for kind, text in blocks_of(doc)[""] if kind == "p"), "")
    first = re.sub(r"\[(`[^`]*`)\](?:\([^)]*\))?", r"\1", first)
    parts = re.split(r"(?<=[.!?])\s+(?=[A-Z`\[])", first)
    return " ".join(parts[: 2 if parts[0] == "Does nothing." else 1])


def display_of(item):
    """What an error displays, by its `#[error("..")]`."""
    found = next((re.match(r'#\[error\("((?:[^"\\]|\\.)*)"', it) for it in item.attributes if it.startswith("#[error(")), None)
    return found[1] if found else ""


def told_clauses(doc):
    """The list below `# Requires`: the words by clause name, and the lines without a name."""
    named, free = {}, []
    for kind, block in blocks_of(doc).get("Requires", []):
        for it in block if kind == "li" else []:
            found = re.match(r"`(\w+)`: (.*)", it)
            if found:
                named[found[1]] = found[2]
            else:
                free.append(it)
    return named, free
