"""Two states side by side as a picture: for each ket a disk as large as the amplitude's size, with a hand at its phase; where they differ the row is red.

Sizes and angles are rounded for the eye. The values beside them are exact.
"""
import math
from html import escape

from . import amplitudes, states
from .amplitudes import ZERO

ROW, RADIUS, LEFT, COLUMN, ROWS = 52, 20, 150, 230, 16
STYLE = "text{font-family:sans-serif;font-size:13px;fill:#222}.ket{font-family:monospace}.head{fill:#777}.ring{fill:none;stroke:#ccc}.size{fill:#cfe0ff;stroke:#25c}.hand{stroke:#123;stroke-width:2}.other{fill:#fdecec}"


def point(x, k):
    """The amplitude in the plane."""
    half = math.sqrt(0.5)
    a, b, c, d = x
    scale = 2 ** (-k / 2)
    return (a + half * (b - d)) * scale, (c + half * (b + d)) * scale


def disk(x, k, largest, cx, cy):
    u, v = point(x, k)
    size = math.hypot(u, v)
    ring = f'<circle class="ring" cx="{cx}" cy="{cy}" r="{RADIUS}"/>'
    label = f'<text x="{cx + RADIUS + 10}" y="{cy + 4}">{escape(amplitudes.value(x, k))}</text>'
    if size == 0:
        return ring + label
    r = max(3, RADIUS * size / largest)
    return (f'{ring}<circle class="size" cx="{cx}" cy="{cy}" r="{r:.1f}"/>'
            f'<line class="hand" x1="{cx}" y1="{cy}" x2="{cx + r * u / size:.1f}" y2="{cy - r * v / size:.1f}"/>{label}')


def compared(image, state, n, differ):
    """The picture of an image beside an end state; rows that differ come first where there are many."""
    kets = sorted(image[1].keys() | state[1].keys())
    if len(kets) > ROWS:
        kets = (differ + [i for i in kets if i not in set(differ)])[:ROWS]
    sizes = [math.hypot(*point(x, k)) for k, terms in (image, state) for x in terms.values()]
    width, height = LEFT + 2 * COLUMN, ROW * len(kets) + 34
    parts = [f'<svg xmlns="http://www.w3.org/2000/svg" width="{width}" height="{height}" viewBox="0 0 {width} {height}"><style>{STYLE}</style>']
    parts += [f'<text class="head" x="{LEFT + i * COLUMN - RADIUS}" y="18">{name}</text>' for i, name in enumerate(("the image", "the end state"))]
    for row, i in enumerate(kets):
        y = 30 + ROW * row
        if i in differ:
            parts.append(f'<rect class="other" x="0" y="{y}" width="{width}" height="{ROW - 4}"/>')
        parts.append(f'<text class="ket" x="8" y="{y + ROW // 2 + 2}">{escape(states.ket(i, n))}</text>')
        for column, (k, terms) in enumerate((image, state)):
            parts.append(disk(terms.get(i, ZERO), k, max(sizes), LEFT + column * COLUMN, y + ROW // 2 - 2))
    return "".join(parts) + "</svg>"
