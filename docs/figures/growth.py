"""Growth on logarithmic axes, read from the table "Growth" of the benchmarks.

    python3 growth.py [BENCHMARKS.MD]
"""
import math
import re
import sys

from figure import Figure, beside

source = sys.argv[1] if len(sys.argv) > 1 else beside("../internals/BENCHMARKS.md")
part = open(source).read().split("## Growth")[1].split("\n## ")[0]
rows = {}
for line in part.splitlines():
    cells = [c.strip() for c in line.strip("|").split("|")]
    edges = re.search(r"([\d,]+) edges", cells[1]) if len(cells) == 7 else None
    if edges:
        first = int(edges.group(1).replace(",", ""))
        rows[cells[0].replace("`", "")] = [(first * k, float(s)) for k, s in zip((1, 2, 4), cells[2:5])]
SHOWN = [
    ("add edges of which half are refused", "add edges, half refused", "warm"),
    ("remove all nodes", "remove all nodes", "violet"),
    ("add edges in random order", "add edges, random", "warm"),
    ("read a document", "read a document", "green"),
    ("plan", "plan the stages", "green"),
    ("add_edges", "add_edges, in one go", "blue"),
    ("walk all children", "walk children, 10 times", "violet"),
    ("add edges in sorted order", "add edges, sorted", "blue"),
    ("copy", "copy", "blue"),
]
W, H, LEFT, RIGHT, TOP, BOTTOM = 700, 520, 64, 474, 48, 462
f = Figure(W, H, "Seconds by number of edges, on logarithmic axes")
XMIN, XMAX = 4e4, 1.3e6
ys = [s for name, _, _ in SHOWN for _, s in rows[name]]
YMIN, YMAX = 10 ** (math.log10(min(ys)) - 0.12), 10 ** (math.log10(max(ys)) + 0.12)


def px(x):
    return LEFT + (math.log(x / XMIN) / math.log(XMAX / XMIN)) * (RIGHT - LEFT)


def py(y):
    return BOTTOM - (math.log(y / YMIN) / math.log(YMAX / YMIN)) * (BOTTOM - TOP)


for x, label in ((5e4, "50,000"), (1e5, "100,000"), (2.5e5, "250,000"), (5e5, "500,000"), (1e6, "1,000,000")):
    f.path(f"M{px(x):.1f} {TOP} V{BOTTOM}", "soft", 1)
    f.text(px(x), BOTTOM + 20, label, 13, "muted")
for y, label in ((0.01, "0.01"), (0.03, "0.03"), (0.1, "0.1"), (0.3, "0.3"), (1, "1")):
    if YMIN <= y <= YMAX:
        f.path(f"M{LEFT} {py(y):.1f} H{RIGHT}", "soft", 1)
        f.text(LEFT - 8, py(y) + 5, label, 13, "muted", "end")
f.text((LEFT + RIGHT) / 2, BOTTOM + 44, "edges", 15, "muted")
f.text(14, 28, "seconds of processor time", 15, "muted", "start")
# Two slopes to compare with.
for power, label, x0, y0, x1 in ((1, "linear", 4.6e4, 0.012, 1.15e5), (2, "quadratic", 4.4e4, 0.17, 0.78e5)):
    y1 = y0 * (x1 / x0) ** power
    f.path(f"M{px(x0):.1f} {py(y0):.1f} L{px(x1):.1f} {py(y1):.1f}", "muted", 1.5, True)
    f.text(px(x1) + 5, py(y1) + 5, label, 13, "muted", "start")
ends = []
for name, label, colour in SHOWN:
    points = [(px(x), py(y)) for x, y in rows[name]]
    f.path("M" + " L".join(f"{x:.1f} {y:.1f}" for x, y in points), colour, 2.2)
    for x, y in points:
        f.put(f'<circle cx="{x:.1f}" cy="{y:.1f}" r="4" class="f-{colour}"/>')
    ends.append([points[-1][1], points[-1], label, colour])
ends.sort()
for before, after in zip(ends, ends[1:]):
    after[0] = max(after[0], before[0] + 22)
for y, (x0, y0), label, colour in ends:
    x = x0 + 26 if x0 < px(5e5) else RIGHT + 16  # a line that ends early has its label there
    f.path(f"M{x0 + 7:.1f} {y0:.1f} L{x - 4:.1f} {y:.1f}", colour, 1, True)
    f.text(x, y + 5, label, 14.5, colour, "start", 600)
f.text(RIGHT + 16, BOTTOM - 44, "Each is the least of nine", 13, "muted", "start")
f.text(RIGHT + 16, BOTTOM - 26, "runs; with the edges, the", 13, "muted", "start")
f.text(RIGHT + 16, BOTTOM - 8, "nodes double as well.", 13, "muted", "start")
f.write("growth.svg")
