"""The entries of the reference: one for each item that users can name, or for the same call of both kinds."""
import re
from collections import OrderedDict

from layout import FIRST, MODULE_PAGE, NAMES, STORES, TITLES, group_of, page_of
from sources import CRATE, attach_impls, blocks_of, file_of, public, resolve, split_list

MADE = ("declared", "contracts")  # folders of specs that are made, not written
LABELS = {"graph": "graph", "stable_graph": "stable_graph", "stable_dag": "StableDag", "": "Dag"}  # by module


class Entry:
    """What the reference says of one item, or of the same call of both kinds."""

    def __init__(self, name, items, owner=None):
        self.name, self.items, self.owner = name, items, owner  # items: (label, Item); label "" if it needs none
        self.page, self.anchors, self.members, self.paths, self.group = "", [], [], [], ""

    @property
    def item(self):
        return self.items[0][1]

    @property
    def kind(self):
        return self.item.kind

    @property
    def anchor(self):
        return self.anchors[0]

    @property
    def full(self):
        """The name with its owner, as in code."""
        owner = self.owner.name if self.owner else ""
        if owner == "Acyclic":
            owner = "StableDag" if {label for label, _ in self.items} == {"StableDag"} else "Dag"
        if owner and self.kind == "index":
            return f"{owner}{self.name}"
        return f"{owner}::{self.name}" if owner else self.name

    def variants(self, get):
        """What `get` tells of each item, once for all if they agree: [(label, value)]."""
        told = []
        for label, it in self.items:
            value = get(it)
            same = next((at for at, (_, old) in enumerate(told) if old == value), None)
            if same is None:
                told.append((label, value))
            else:
                told[same] = (f"{told[same][0]}, {label}" if label else told[same][0], told[same][1])
        if len(told) == 1 and self.all_kinds():
            told[0] = ("", told[0][1])
        return told

    def all_kinds(self):
        """Whether no mark is needed: the entry holds for both kinds."""
        labels = {label for label, _ in self.items}
        return "" in labels or len(labels) > 1

    def clauses(self, kind):
        """The clauses by name: [(label, Clause)], those that agree once."""
        found = OrderedDict()
        for label, it in self.items:
            for clause in getattr(it, kind):
                key = (clause.name, clause.text)
                found.setdefault(key, (clause, []))[1].append(label)
        count = len(self.items)
        names = list(OrderedDict.fromkeys(name for name, _ in found))
        told = [("" if len(labels) == count else ", ".join(labels), clause) for clause, labels in found.values()]
        return sorted(told, key=lambda it: names.index(it[1].name))


def normal(signature):
    """A signature in which the two kinds look alike."""
    return signature.replace("StableDiGraph", "DiGraph").replace("StableDag", "Dag")


class Reference:
    def __init__(self):
        attach_impls()
        self.entries, self.places, self.links_lost = [], {}, []
        named = OrderedDict()
        for path, item in public(file_of(CRATE, [])):
            named.setdefault(id(item), (item, []))[1].append(path)
        self.items = list(named.values())
        pages = OrderedDict((name, OrderedDict()) for name in NAMES)
        for item, paths in self.items:
            pages_of = [page_of(it, item) for it in paths]
            page = next((it for it in pages_of if it != "dag"), "dag")
            # The two kinds' types of the same name make one entry.
            key = "store" if page == "stores" and item.name in STORES else item.name
            pages[page].setdefault(key, []).append((item, paths))
        for page, keys in pages.items():
            for key, them in keys.items():
                self.add(page, key, them)
        self.order()
        for it in self.all():
            for _, item in it.items:
                self.places[id(item)] = it
        self.part_anchors()

    def part_anchors(self):
        """Makes anchors differ in more than case, since some viewers see no more: `children`, and the type `Children`."""
        calls = {(it.page, anchor) for it in self.entries if it.kind == "fn" for anchor in it.anchors}
        for it in self.entries:
            if it.kind != "fn" and any((it.page, anchor.lower()) in calls for anchor in it.anchors):
                for own in [it, *it.members]:
                    own.anchors = [f"type.{anchor}" for anchor in own.anchors]
        seen = set()
        for it in self.all():
            for anchor in it.anchors:
                if (it.page, anchor) in seen:
                    raise SystemExit(f"two entries have the anchor {anchor} of {it.page}")
                seen.add((it.page, anchor))

    def all(self):
        for it in self.entries:
            yield it
            yield from it.members

    def add(self, page, key, them):
        """Adds the entry of an item, or of two that belong together."""
        labels = []
        for item, paths in them:
            path = next((it for it in paths if page_of(it, item) == page), paths[0])
            own = item.name if key == "store" else LABELS.get(path.rpartition("::")[0], "")
            labels.append(own if len(them) > 1 else "")
        name = "DiGraph, StableDiGraph" if key == "store" else them[0][0].name
        entry = Entry(name, [(label, item) for label, (item, _) in zip(labels, them)])
        entry.page = page
        parted = len(them) > 1 and key != "store"
        for label, (item, paths) in zip(labels, them):
            entry.paths += [(item, it) for it in paths]
            entry.anchors.append(f"{label}.{item.name}" if parted else item.name)
        self.entries.append(entry)
        if entry.name == "Acyclic":
            self.dag_calls(entry.item)
        else:
            self.add_members(entry, parted)

    def add_members(self, entry, parted):
        """Adds the entries of an item's members, those of the same name as one."""
        found = OrderedDict()
        for label, owner in entry.items:
            for it in owner.members:
                found.setdefault(it.name, []).append((label, it, owner))
        for name, group in found.items():
            member = Entry(name, [(label, it) for label, it, _ in group], group[0][2])
            member.page = entry.page
            for label, it, owner in group:
                front = f"{label}.{owner.name}" if parted else owner.name
                member.anchors.append(f"{front}.{name}" if it.kind != "index" else f"{front}.index-{name[1:-1]}")
            entry.members.append(member)
        if entry.name == "DiGraph, StableDiGraph":
            last = (None, "The graph inside", 99)
            entry.members.sort(key=lambda it: (TITLES.index((group_of(it.name) or last)[1]), (group_of(it.name) or last)[2]))
            for it in entry.members:
                it.group = (group_of(it.name) or last)[1]

    def dag_calls(self, acyclic):
        """The calls of a dag become entries of their own, on two pages."""
        found = OrderedDict()
        for it in acyclic.members:
            found.setdefault(it.name, []).append((it.only, it))
        for name, group in found.items():
            entry = Entry(name, group, acyclic)
            place = group_of(name)
            if place is None:
                raise SystemExit(f"reference_pages/layout.py: no group has the call {name} of a dag")
            entry.page, entry.group = place[:2]
            entry.anchors = [name if group[0][1].kind != "index" else f"index-{name[1:-1]}"]
            self.entries.append(entry)

    def order(self):
        """Puts the entries of each page in order: types first, then groups of calls."""

        def rank(it):
            lead = FIRST.get(it.page, [])
            top = lead.index(it.name) if it.name in lead else len(lead)
            place = group_of(it.name, it.page) if it.group else None
            group = TITLES.index(it.group) if it.group else (len(TITLES) if it.page in ("dag", "paths") else -1)
            return (-1 if it.page in ("dag", "paths") and it.name in lead else group, top, place[2] if place else 0)

        for it in self.entries:
            if not it.group:
                it.group = (group_of(it.name, it.page) or ("", "", 0))[1]
        self.entries.sort(key=rank)
        for it in self.entries:
            if it.page in ("dag", "paths") and not it.group:
                it.group = "The types" if it.name in FIRST[it.page] else "Other types"

    def of_page(self, page):
        return [it for it in self.entries if it.page == page]

    # ---- what is said of an entry

    def title(self, it):
        if it.kind == "index":
            return it.item.signature
        return it.name

    def kind_word(self, it):
        words = {"fn": "method" if it.owner else "function", "type": "type", "index": "indexing", "const": "constant"}
        if it.owner and it.kind == "type":
            return "associated type"
        if it.owner and it.owner.kind == "trait" and it.kind == "fn":
            return "provided method" if it.item.provided else "required method"
        return words.get(it.kind, it.kind)

    def also(self, it):
        """All the paths under which a user can name it."""
        seen = OrderedDict()
        for item, path in it.paths:
            seen[f"{CRATE}::{path}"] = item
        return list(seen)

    def errors(self, item):
        """The variants of its error type that a call returns: (enum, [variant]), or None."""
        result = re.search(r".*\) -> (?:fmt::|io::)?Result<(.*)>$", re.sub(r"\s+where\b.*$", "", item.signature))
        if not result:
            return None
        error = split_list(result[1])[-1]
        name = re.match(r"\w+", error)
        what = resolve(item.where.crate, item.where.module, (name[0],)) if name else None
        if not what or what[0] != "item" or what[1].kind != "enum":
            return (error, None, [])
        variants = [it.name for it in what[1].members if it.kind == "variant"]
        section = " ".join(text if kind == "p" else " ".join(text)
                           for kind, text in blocks_of(item.doc).get("Errors", []) if kind in ("p", "li"))
        told = [it for it in re.findall(rf"`{name[0]}::(\w+)`", section) if it in variants]
        if not told and "fault" in section:
            told = variants
        if not told:
            text = " ".join(it.text for it in item.ensures)
            for alias, (path, own) in item.where.ghosts.items():
                if path.endswith(f".{name[0]}.TheVariants") and re.search(rf"(?<![\w.]){re.escape(alias)}(?!\w)", text):
                    told.append(own)
        return (error, what[1], list(dict.fromkeys(told)) or variants)

    def traits(self, item):
        """The traits that a type implements: (text, kinds, line of the impl or None)."""
        if item.kind not in ("struct", "enum"):
            return []
        found = OrderedDict()
        for it in item.attributes:
            told = re.match(r"#\[(derive|derive_where)\(([^;)]*)", it)
            for name in split_list(told[2]) if told else []:
                found.setdefault(name, [set(), None])[0].add("")
        for name, trait, only, impl in item.traits:
            name = trait if name in ("From", "Index", "IndexMut") else name
            found.setdefault(name, [set(), impl])
            found[name][0].add(only)
        told = []
        for name, (kinds, impl) in sorted(found.items()):
            if name == "Model":
                continue
            both = "" in kinds or {"Dag", "StableDag"} <= kinds
            told.append((name, "" if both else next(iter(kinds)), impl))
        return told

    def definitions(self, it):
        """The files that define the words of its clauses: {crate/file: [word]}."""
        found = OrderedDict()
        for _, item in it.items:
            text = " ".join(c.text for c in [*item.requires, *item.ensures])
            for word in dict.fromkeys(re.findall(r"(?<![\w.])[A-Za-z_]\w*", text)):
                path, own = item.where.ghosts.get(word, ("", ""))
                parts = path.split(".")
                if len(parts) > 3 and parts[1].startswith(CRATE) and parts[2] == "specs" and parts[3] not in MADE:
                    file = "/".join(["crates", parts[1], "specs", *parts[3:]]) + ".antt"
                    shown = f"{own} (here {word})" if own != word else word
                    if shown not in found.setdefault(file, []):
                        found[file].append(shown)
        return found

    def reached(self, item, text):
        """The entry that a link in an item's doc comment leads to, or None."""
        parts, file = tuple(re.sub(r"<.*>", "", text).split("::")), item.where
        whole, owner = parts, parts[:-1]
        for means, path in [(self.resolved, whole), (self.resolved, owner), (self.named, owner), (self.named, whole)]:
            what = means(file, path) if path else None
            if what and what[0] == "module" and path is whole:
                page = MODULE_PAGE.get(parts[-1], parts[-1])
                if page in NAMES:
                    place = Entry(page, [])
                    place.page, place.anchors = page, [""]
                    return place
            if what and what[0] == "item":
                own = what[1]
                if path is owner:
                    own = next((it for it in self.target(own).members if it.name == parts[-1]), None)
                if own is not None and id(own) in self.places:
                    return self.places[id(own)]
        return None

    def resolved(self, file, path):
        """What a path means in a file."""
        return resolve(file.crate, file.module, path)

    def named(self, file, path):
        """The public item whose name ends a path, if it is of another module."""
        return next((("item", own) for own, _ in self.items if own.name == path[-1]), None)

    def target(self, item):
        """The type that an alias stands for, or the item."""
        found = re.search(r"= ([\w:]+)<", item.signature) if item.kind == "type" else None
        what = resolve(item.where.crate, item.where.module, tuple(found[1].split("::"))) if found else None
        return what[1] if what and what[0] == "item" else item

    def returned_by(self):
        """For each variant of an error: the calls that return it."""
        found = {}
        for it in self.all():
            for _, item in it.items:
                told = self.errors(item) if item.kind == "fn" else None
                if told and told[1] is not None:
                    for name in told[2]:
                        member = next(m for m in told[1].members if m.name == name)
                        calls = found.setdefault(id(member), [])
                        if it not in calls:
                            calls.append(it)
        return {key: sorted(calls, key=lambda it: NAMES.index(it.page)) for key, calls in found.items()}
