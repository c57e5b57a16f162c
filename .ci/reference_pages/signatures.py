"""Signatures as they are set in the reference."""
import re

from sources import after_generics, split_list

WIDTH = 80  # a signature that is longer is set on several lines


def set_signature(item):
    """A signature, on several lines if it is long."""
    text = re.sub(r"^pub (?=fn|type|const|struct|enum|trait)|^final |^pub final ", "", item.signature)
    text = re.sub(r"^pub const fn", "const fn", text)
    if item.kind == "field":
        text = re.sub(r"^pub ", "", text)
    return "\n".join(broken(text))


def broken(text):
    """A signature within WIDTH, if that can be: broken at its parameters, then its generics, then its bounds."""
    if len(text) <= WIDTH:
        return [text]
    bounds = ""
    found = re.search(r"\s+where\b(.*)$", text)
    if found:
        bounds, text = found[1], text[: found.start()]
    if re.match(r"(?:const )?fn ", text):
        lines = broken_call(text)
    elif re.match(r"(type|struct|trait|enum) ", text) and "<" in text:
        lines = broken_type(text)
    else:
        lines = wrapped(text)
    return lines + (["where", *[f"    {it}," for it in split_list(bounds)]] if bounds else [])


def broken_call(text):
    """The signature of a call, broken at its parameters, and at its generics if these are long."""
    head = re.match(r"(?:const )?fn \w+", text)[0]
    rest, lines = text[len(head) :], []
    if rest.startswith("<"):
        tail = after_generics(rest)
        generics, rest = rest[: len(rest) - len(tail)].strip(), tail
        if len(head + generics) + 2 > WIDTH * 0.75:
            lines = [head + "<", *[f"    {it}," for it in split_list(generics[1:-1])]]
            head = ">"
        else:
            head += generics
    end = closing(rest, 0)
    params, tail = split_list(rest[1:end]), rest[end + 1 :]
    one = f"{head}({', '.join(params)}){tail}"
    if len(one) <= WIDTH:
        return [*lines, one]
    lines.append(head + "(")
    lines += [f"    {part}" for it in params for part in wrapped(it + ",")]
    return [*lines, ")" + tail] if len(tail) < WIDTH else [*lines, *wrapped(")" + tail)]


def closing(text, at):
    """Where the parenthesis closes that opens at a position."""
    level = 0
    while True:
        level += (text[at] == "(") - (text[at] == ")")
        if level == 0:
            return at
        at += 1


def broken_type(text):
    """The head of a type, broken at its generics or after them."""
    cut = text.index("<")
    tail = after_generics(text[cut:])
    generics = text[cut : len(text) - len(tail)].strip()
    glue = "" if tail.startswith(("(", ":", ";")) or not tail else " "
    if len(text[:cut] + generics) + 2 > WIDTH:
        return [text[:cut] + "<", *[f"    {it}," for it in split_list(generics[1:-1])], ">" + glue + tail]
    return [text[:cut] + generics, *[f"    {it}" for it in wrapped(tail)]] if tail else [text]


def wrapped(text):
    """A long type, broken at the arguments of its outermost brackets."""
    if len(text) <= WIDTH - 8 or not re.search(r"[<(].*[>)]", text):
        return [text]
    opening = re.search(r"[<(](?![)>])", text)
    level = 0
    for at in range(opening.start(), len(text)):
        level += (text[at] in "<([{") - (text[at] in ")]}" or (text[at] == ">" and text[at - 1] not in "-="))
        if level == 0:
            inner = split_list(text[opening.end() : at])
            return [text[: opening.end()], *[f"    {line}" for it in inner for line in wrapped(it + ",")], text[at:]]
    return [text]
