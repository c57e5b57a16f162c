"""What a refresh computes after one change."""
from figure import Figure, edge_between

W, H = 110, 54
f = Figure(700, 388, "After a change of one input, four values are new, one is computed and the same, and fee below it is not computed")
at = {"width": (76, 84), "height": (76, 176), "price": (76, 268), "area": (226, 130), "large": (386, 84), "cost": (386, 222),
      "fee": (532, 84), "total": (622, 200)}
EDGES = [("width", "area"), ("height", "area"), ("area", "large"), ("area", "cost"), ("price", "cost"), ("large", "fee"),
         ("cost", "total"), ("fee", "total")]
NEW = {"width": "3, now 4", "area": "15, now 20", "cost": "30, now 40", "total": "31, now 41"}
SAME = {"large": "1, still 1"}
REST = {"height": "5", "price": "2", "fee": "1"}
f.text(350, 30, "the width changes", 16, "muted")
for a, b in EDGES:
    x1, y1, x2, y2 = edge_between(at, a, b, W + 4, H + 4)
    f.arrow(x1, y1, x2, y2, "warm" if a in NEW else "line", 2.8 if a in NEW else 1.6, dashed=a in SAME)
for n, (x, y) in at.items():
    if n in NEW:
        f.box(x, y, W, H, n, NEW[n], "warmbox", "warm", 2.6)
    elif n in SAME:
        f.box(x, y, W, H, n, SAME[n], "bluebox", "blue", 2.6)
    else:
        f.box(x, y, W, H, n, REST[n])
for x, label, fill, stroke in [(40, "computed, new", "warmbox", "warm"), (270, "computed, as before", "bluebox", "blue"),
                               (520, "not computed", "box", "line")]:
    f.rect(x, 322, 26, 20, fill, stroke, 2.2, 4)
    f.text(x + 36, 337, label, 15, "ink", "start")
f.text(350, 370, "A new value is passed on (thick), an equal one is not (dashed).", 15, "muted")
f.write("computed.svg")
