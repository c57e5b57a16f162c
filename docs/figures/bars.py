"""The plan of BUILD.md and its run, as bars for each worker. Both are read from that page."""
import re
from figure import Figure, beside

with open(beside("../BUILD.md"), encoding="utf-8") as page:
    text = page.read()
blocks = re.findall(r"```(\w+)\n(.*?)```", text, re.S)
lines = next(body for kind, body in blocks if kind == "sh")
seconds = {}
for found in re.finditer(r"^(\S+) (\d+)(?: @\d+)?:", lines, re.M):
    seconds.setdefault(found[1], int(found[2]))  # a second line of a target is rejected
outputs = [body for kind, body in blocks if kind == "text" and " s, worker " in body][:2]


def bars(output):
    """Each target with its start, its worker and its seconds, and the time when all are done."""
    found = re.findall(r"^(\d+) s, worker (\d+): (\S+)$", output, re.M)
    all_bars = [(int(start), int(worker), name, seconds[name]) for start, worker, name in found]
    return all_bars, max(start + length for start, _, _, length in all_bars)


critical = re.search(r"at least \d+ s: (.*)", outputs[0])[1].split()
SCALE, LEFT, BAR, GAP = 52, 96, 40, 10
f = Figure(700, 372, "A plan on two workers takes 10 seconds, and a run that knows nothing of it takes 11")
for k, (output, title) in enumerate(zip(outputs, ("--plan: the longest path first", "no option: first come, first served"))):
    all_bars, end = bars(output)
    top = 46 + 164 * k
    f.text(LEFT, top - 16, f"{title}, {end} s", 16, anchor="start", weight=600)
    workers = 1 + max(worker for _, worker, _, _ in all_bars)
    bottom = top + workers * (BAR + GAP)
    for second in range(end + 1):
        x = LEFT + SCALE * second
        f.path(f"M{x} {top - 4} V{bottom}", "soft", 1)
        f.text(x, bottom + 16, f"{second} s" if second == end else second, 13, "muted")
    for worker in range(workers):
        f.text(LEFT - 14, top + worker * (BAR + GAP) + BAR / 2 + 5, f"worker {worker}", 15, "muted", "end")
    for start, worker, name, length in all_bars:
        x, y, on = LEFT + SCALE * start, top + worker * (BAR + GAP), name in critical
        f.rect(x + 1.5, y, SCALE * length - 3, BAR, "bluebox" if on else "box", "blue" if on else "line", 2.2 if on else 1.5, 5)
        f.text(x + SCALE * length / 2, y + BAR / 2 + 5, name, 14.5 if length > 1 else 13, weight=600)
f.path("M26 349 H62", "blue", 3)
f.text(74, 354, f"critical path: {' '.join(critical)}", 15, "ink", "start")
f.write("bars.svg")
