"""One HTML page on one job, with no outside files: the line, what it means, both sets drawn, the circuit."""
from html import escape

from . import circuits, draw, explain, gates, lint, program, sets, showing, version

STYLE = """body{font:16px/1.5 sans-serif;max-width:70em;margin:2em auto;padding:0 1em;color:#222}h1{font-size:1.4em}h2{font-size:1.1em;margin-top:1.6em}
pre{background:#f6f6f6;padding:.8em;overflow-x:auto}.line{font:bold 1.2em monospace;padding:.6em;border-left:.4em solid #888;background:#f6f6f6}
.holds{border-color:#2a2}.fails{border-color:#c33}.undecided{border-color:#c90}.refused{border-color:#93c}.picture{overflow-x:auto;border:1px solid #ddd}.note{color:#666}
td,th{padding:.1em .8em;text-align:right}td:nth-child(2){text-align:left;font-family:monospace}"""
COLOURS = {program.HOLDS: "holds", program.FAILS: "fails", program.UNDECIDED: "undecided", program.REFUSED: "refused"}


def picture(b, title):
    s = sets.from_bytes(b)
    if s is None or not 1 <= s.n <= 20 or sum(s.counts) == 0 or any(x >= sum(s.counts) for q, _, left, right in s.inner for x in (q, left, right)):
        return f"<pre>{escape(showing.show_set(b)[:4000])}</pre>"
    return f'<div class="picture">{draw.svg(s, title)}</div>'


def circuit_table(start, circuit, most=200):
    """The gates, with what each makes of the start set, as far as that can be built."""
    all_gates, s = circuits.gates(circuit), sets.from_bytes(start)
    if lint.faults(start) or not all_gates or not all(circuits.known(gate, s.n) for gate in all_gates):
        return f"<pre>{escape(circuits.shown(circuit)[:4000]) or 'no gate'}</pre>"
    rows = ["<tr><th></th><th>gate</th><th>states</th><th>inner</th><th>leaves</th></tr>", "<tr><td>0</td><td>start</td>" + "".join(f"<td>{x}</td>" for x in gates.sizes(s)) + "</tr>"]
    for i, (gate, after) in enumerate(explain.sized(s, all_gates[:most]), 1):
        cells = "".join(f"<td>{x}</td>" for x in gates.sizes(after)) if after else "<td>?</td>" * 3
        rows.append(f"<tr><td>{i}</td><td>{circuits.spelled(circuits.record(*gate))}</td>{cells}</tr>")
    more = f'<p class="note">{len(all_gates) - most} more gates are not shown</p>' if len(all_gates) > most else ""
    return "<table>" + "".join(rows) + "</table>" + more


def page(name, line, asked, mark, allow, start, circuit, end):
    """The page; asked says where the line is from."""
    f = program.fields(line)
    kind = f["verdict"] if f else "refused"
    said = "".join(f"<h2>{escape(part.heading)}</h2><pre>{escape(chr(10).join(part.lines))}</pre>{part.picture or ''}" for part in explain.explained(line, mark, allow, start, circuit, end))
    return f"""<!DOCTYPE html>
<html lang="en"><head><meta charset="utf-8"><title>{escape(name)}: {escape(line)}</title><style>{STYLE}</style></head><body>
<h1>{escape(name)}</h1>
<p class="line {kind}">{escape(line)}</p>
<p class="note">{escape(asked)} Allowance B = {allow:,}. Everything below translates this line; zt {version()}.</p>
{said}
<h2>Start set</h2>{picture(start, 'start set')}
<h2>Circuit</h2>{circuit_table(start, circuit)}
<h2>End set</h2>{picture(end, 'end set')}
</body></html>
"""
