"""A set as a picture: levels as rows, states as circles, a transition as a dot with its choices, left edges dashed, roots above. Plain SVG."""
from html import escape

from . import amplitudes, sets
from .showing import shown_choices

STATES, ROWS = 24, 64
GAP, HEIGHT, RADIUS, EDGE = 110, 120, 15, 50
STYLE = ("text{font-family:sans-serif;font-size:12px;fill:#222}.level{fill:#777}.choice{font-size:11px;fill:#0b5}.state{fill:#fff;stroke:#333;stroke-width:1.5}"
         ".root{fill:#eef4ff;stroke:#25c}.leaf{fill:#fff8e6;stroke:#a70}.dot{fill:#333}.left{stroke:#25c;stroke-dasharray:5 3;fill:none}.right{stroke:#c33;fill:none}.stem{stroke:#333;fill:none}")


def placed(s):
    """(x, y) of each state that is drawn, and how many are left out."""
    firsts = sets.first_states(s)
    widest = max(min(c, STATES) for c in s.counts)
    at, out = {}, 0
    for level, count in enumerate(s.counts):
        drawn = min(count, STATES)
        out += count - drawn
        for i in range(drawn):
            at[firsts[level] + i] = EDGE + 60 + (i + 0.5) * widest * GAP / drawn, EDGE + level * HEIGHT
    return at, EDGE + 60 + widest * GAP + EDGE, out


def line(kind, x, y, u, v, bend=0):
    return f'<path class="{kind}" d="M{x:.0f},{y:.0f} Q{(x + u) / 2 + bend:.0f},{(y + v) / 2:.0f} {u:.0f},{v:.0f}"/>'


def label(x, y, text, kind="", anchor="middle"):
    return f'<text x="{x:.0f}" y="{y:.0f}" text-anchor="{anchor}"' + (f' class="{kind}"' if kind else "") + f">{escape(text)}</text>"


def inner_rows(s, at):
    by_state = {}
    for q, mask, left, right in s.inner:
        by_state.setdefault(q, []).append((mask, left, right))
    left_out = 0
    for q, rows in by_state.items():
        if q not in at:
            left_out += len(rows)
            continue
        x, y = at[q]
        for i, (mask, left, right) in enumerate(rows):
            if left not in at or right not in at or i >= ROWS:
                left_out += 1
                continue
            dot = x + (i - (len(rows) - 1) / 2) * min(48, GAP / len(rows)), y + 46
            yield line("stem", x, y + RADIUS, *dot)
            for kind, child, side in (("left", left, -10), ("right", right, 10)):
                yield line(kind, *dot, at[child][0] + side / 2, at[child][1] - RADIUS, side)
            yield f'<circle class="dot" cx="{dot[0]:.0f}" cy="{dot[1]:.0f}" r="3"/>'
            yield label(dot[0] + 5, dot[1] - 4, shown_choices(mask), "choice", "start")
    if left_out:
        yield label(EDGE, EDGE - 34, f"{left_out} transitions are not drawn", "level", "start")


def leaf_rows(s, at):
    below = {}
    for q, mask, x in s.leaves:
        if q in at:
            i = below[q] = below.get(q, -1) + 1
            yield label(at[q][0], at[q][1] + RADIUS + 16 + 15 * i, f"{shown_choices(mask)} {amplitudes.spelled(x)}", "choice" if i % 2 else "")


def svg(s, title=""):
    """The picture of a set that can be read."""
    at, width, out = placed(s)
    most = max([sum(1 for q, *_ in s.leaves if q == p) for p in at] or [0])
    height = EDGE + s.n * HEIGHT + RADIUS + 30 + 15 * most + EDGE
    parts = [f'<svg xmlns="http://www.w3.org/2000/svg" width="{width:.0f}" height="{height:.0f}" viewBox="0 0 {width:.0f} {height:.0f}">', f"<title>{escape(title)}</title>", f"<style>{STYLE}</style>",
             '<rect width="100%" height="100%" fill="#fff"/>']
    for level in range(s.n + 1):
        parts.append(label(EDGE - 40, EDGE + level * HEIGHT + 4, f"qubit {level + 1}" if level < s.n else "leaves", "level", "start"))
    parts += inner_rows(s, at)
    for q, (x, y) in at.items():
        kind = "root" if q < s.counts[0] else "leaf" if y == EDGE + s.n * HEIGHT else ""
        if kind == "root":
            parts.append(line("stem", x, y - RADIUS - 16, x, y - RADIUS))
        parts.append(f'<circle class="state {kind}" cx="{x:.0f}" cy="{y:.0f}" r="{RADIUS}"/>' + label(x, y + 4, str(q)))
    parts += leaf_rows(s, at)
    foot = f"k = {s.k}; left (0) blue and dashed, right (1) red; {{..}} are choices" + (f"; {out} of {sum(s.counts)} states are not drawn" if out else "")
    parts.append(label(EDGE - 40, height - 16, foot, "level", "start"))
    return "\n".join(parts) + "\n</svg>\n"
