"""The crates of the library and of `dagbench`, read from crates.txt: each above those that it uses, without the redundant
lines between them."""
from figure import Figure, beside

uses = {}
with open(beside("../../crates.txt"), encoding="utf-8") as listed:
    for line in listed:
        if ":" in line and not line.startswith("#"):
            name, used = line.split(":")
            uses[name] = used.split()


def below(name):
    return {name}.union(*(below(n) for n in uses[name] if n in uses))


nodes = sorted(below("dagbench"))
edges = [(used, name) for name in nodes for used in uses[name] if used in uses]
reached = {name: below(name) for name in nodes}
edges = [(a, b) for a, b in edges if not any(c != a and c in uses and a in reached[c] for c in uses[b])]


def level(name):
    """The length of the longest path that ends here."""
    return max((1 + level(a) for a, b in edges if b == name), default=0)


# A line that passes levels has a point on each of them.
levels = [[] for _ in range(1 + max(map(level, nodes)))]
for name in nodes:
    levels[level(name)].append(name)
links = []
for a, b in edges:
    route = [a] + [(a, b, k) for k in range(level(a) + 1, level(b))] + [b]
    for k, point in enumerate(route[1:-1]):
        levels[level(a) + 1 + k].append(point)
    links.append(route)
beside_of = {}
for route in links:
    for p, q in zip(route, route[1:]):
        beside_of.setdefault(p, []).append(q)
        beside_of.setdefault(q, []).append(p)

PER_LETTER, HEIGHT, RISE, WIDTH = 8.3, 28, 62, 880


def label(point):
    return point.removeprefix("daggy_") if point != "daggy" else point


def width(point):
    return 14 if isinstance(point, tuple) else 18 + PER_LETTER * len(label(point))


x = {}
for row in levels:
    for k, point in enumerate(row):
        x[point] = WIDTH * (k + 1) / (len(row) + 1)


def spread(row):
    """Moves the points of a level apart, and into the figure, in their order."""
    room = sum(width(p) for p in row)
    gap = min(16, (WIDTH - 16 - room) / max(1, len(row) - 1))
    for _ in range(60):
        for p, q in zip(row, row[1:]):
            least = (width(p) + width(q)) / 2 + gap
            short = least - (x[q] - x[p])
            if short > 0:
                x[p] -= short / 2
                x[q] += short / 2
        for p in row:
            x[p] = min(max(x[p], 8 + width(p) / 2), WIDTH - 8 - width(p) / 2)
    left = 8
    for p in row:
        x[p] = max(x[p], left + width(p) / 2)
        left = x[p] + width(p) / 2 + min(gap, 6)


for turn in range(40):
    for row in levels if turn % 2 else reversed(levels):
        for p in row:
            x[p] = sum(x[q] for q in beside_of.get(p, [p])) / len(beside_of.get(p, [p]))
        row.sort(key=lambda p: (x[p], str(p)))
        spread(row)

f = Figure(WIDTH, RISE * len(levels) + 16, f"The {len(nodes)} crates of the library and of dagbench, each above those that it uses")


def y(point):
    rank = point[2] if isinstance(point, tuple) else level(point)
    return RISE * (len(levels) - rank) - 24


for route in links:
    points = [(x[p], y(p)) for p in route]
    points[0] = (points[0][0], points[0][1] - HEIGHT / 2)
    points[-1] = (points[-1][0], points[-1][1] + HEIGHT / 2)
    d = f"M{points[0][0]:.1f} {points[0][1]:.1f}"
    for (x1, y1), (x2, y2) in zip(points, points[1:]):
        d += f" C{x1:.1f} {(y1 + y2) / 2:.1f} {x2:.1f} {(y1 + y2) / 2:.1f} {x2:.1f} {y2:.1f}"
    f.path(d, "line", 1.5)
for name in nodes:
    main = name in ("daggy", "daggy_dag", "dagbench")
    f.rect(x[name] - width(name) / 2, y(name) - HEIGHT / 2, width(name), HEIGHT, "bluebox" if main else "box",
           "blue" if main else "line", 2 if main else 1.4, 6)
    f.text(x[name], y(name) + 5, label(name), 13.5, weight=600)
f.write("crates.svg")
