"""A line of the program in plain words: for a failure the start, its image after each gate and the nearest end state, for a refusal its sentence and record.

What is said follows the line; where this tool's own reading of the files does not fit to it, that is said too.
"""
import itertools
import re
from collections import namedtuple

from . import ROOT, amplitudes, circuits, disks, gates, lint, program, sets, states

# a part of an explanation; picture is SVG or None
Section = namedtuple("Section", "heading lines picture", defaults=(None,))
ENDS = 2000
GATES = 64
PAGE = "docs/USE.md"
SOURCES = {0: "the job", 1: "the start set", 2: "the circuit", 3: "the end set"}
# for a page that still has 8 alone
SPLIT = {81: "an inner transition: its state is not on levels 1 to n", 82: "an inner transition: its left child is not on the next level",
         83: "an inner transition: its right child is not on the next level", 84: "an inner transition: its mask is zero"}


def sentences():
    """By number, what docs/USE.md says of a refusal: what is wrong, and what to look at."""
    found, before = {}, ""
    try:
        text = (ROOT / PAGE).read_text(encoding="utf-8")
    except OSError:
        text = ""
    for numbers, wrong, look in re.findall(r"^\| ([0-9][0-9, to]*) \| ([^|]*) \| ([^|]*)\|$", text, re.M):
        # a row may lean on the one above it
        wrong = re.sub("^its ", "an inner transition: its ", wrong.strip())
        before = look = before if look.strip() == "the same" else look.strip()
        named = [int(number) for number in re.findall("[0-9]+", numbers)]
        for number in range(named[0], named[-1] + 1) if " to " in numbers else named:
            found.setdefault(number, (wrong, look))
    return found


def sentence(number):
    known = sentences()
    if number not in known and number in SPLIT:
        return SPLIT[number], known.get(8, ("", "the TR records"))[1]
    return known.get(number, ("a refusal that " + PAGE + " does not have", ""))


def holds(count, *_):
    if count == 0:
        return [("What it says", ["The start set has no state at all, so that nothing was examined and nothing could fail.",
                                  "That is no pass: look whether the start set has the states that were meant (zt states). `zt check --nonempty` makes it a failure."])]
    many = f"All {count:,} starts end" if count > 1 else "The one start ends"
    return [("What it says", [f"{many} in a state of the end set.", "A start is a root and a word; where two of them give the same state, both are counted."])]


def undecided(count, allow):
    return [("What it says", [f"The first {count:,} starts end in a state of the end set, and there are more starts: the allowance B = {allow:,} was too small to look at them.",
                              "A larger --allow goes on; it never changes a holds, a fails or a refusal."])]


def readable(b):
    """The set, where nothing is wrong with it."""
    return None if lint.faults(b) else sets.from_bytes(b)


# ---- failures
def nearest(image, end):
    """(end state, its number, root and word, kets that differ), how many were looked at, whether there are more; and the power of ω that would do."""
    best, phase, count, more = None, None, 0, False
    for count, (root, word) in enumerate(itertools.islice(states.members(end), ENDS + 1), 1):
        if count > ENDS:
            more, count = True, ENDS
            break
        try:
            state = states.state_of(end, root, word)
        except states.TooLarge:
            continue
        differ = states.differing(image, state)
        if best is None or len(differ) < len(best[4]):
            best = state, count, root, word, differ
        for j in range(1, 8):
            if phase is None and states.equal(states.turned(image, j), state):
                phase = j, count, root, word
    return best, phase, count, more


def amplitude_at(x, i):
    return amplitudes.value(x[1].get(i, amplitudes.ZERO), x[0])


def fails(place, root, word, start, circuit, end):
    s, e = readable(start), readable(end)
    if s is None or e is None or len(word) != s.n + 1 or s.n != e.n or not all(circuits.known(g, s.n) for g in circuits.gates(circuit)):
        return [("What it says", [f"Start {place:,} is not carried into the end set. The line does not fit to these files, so that nothing more can be said."])]
    said = [("What it says", [f"Start {place:,} is the first that does not end in a state of the end set: root {root}, word {' '.join(map(str, word))}."])]
    try:
        state = states.state_of(s, root, word)
        if state is None:
            return said + [("Start", ["This root and word give no state of the start set: is the line of another job?"])]
        said.append(("Start", [states.shown(state, s.n)]))
        lines, all_gates = [], circuits.gates(circuit)
        for i, gate in enumerate(all_gates, 1):
            state = gates.applied(state, s.n, gate)
            if i <= GATES // 2 or i > len(all_gates) - GATES // 2:
                lines.append(f"{i:4} {circuits.spelled(circuits.record(*gate)):8} {states.shown(state, s.n)}")
            elif i == GATES // 2 + 1:
                lines.append(f"     .. {len(all_gates) - GATES} gates are not shown")
        said.append(("After each gate", lines or ["the circuit is empty"]))
    except states.TooLarge:
        return said + [("Not shown", [f"The state has more than {states.TERMS:,} kets: it is not followed here. Try the same routine on fewer qubits."])]
    return said + ending(state, e)


def ending(image, e):
    best, phase, count, more = nearest(image, e)
    if best is None:
        return [("Nearest end state", ["The end set has no state." if count == 0 else "Every end state that was looked at has too many kets to be shown."])]
    state, number, root, word, differ = best
    scope = f"nearest of the first {count:,} end states; there are more" if more else f"nearest of all {count:,} end states" if count > 1 else "the only end state"
    lines = [f"{states.shown(state, e.n)}", f"number {number:,}, root {root}, word {' '.join(map(str, word))}; {scope}"]
    for i in differ[:states.SHOWN]:
        lines.append(f"{states.ket(i, e.n)}: the image has {amplitude_at(image, i)}, the end state {amplitude_at(state, i)}")
    if len(differ) > states.SHOWN:
        lines.append(f".. and {len(differ) - states.SHOWN} more kets differ")
    said = [("Nearest end state", lines, disks.compared(image, state, e.n, differ))]
    if not differ:
        said.append(("Does not fit", ["By this tool's own reading the image is that end state. The program's line counts; please look at both."]))
    if phase:
        j, number, root, word = phase
        power = amplitudes.spelled(amplitudes.turn(amplitudes.ONE, 8 - j))
        said.append(("A phase in common", [f"The image is {power} times end state number {number:,} (root {root}, word {' '.join(map(str, word))}).",
                                           "A phase in common to the whole state is seen by no measurement; the exact check tells it apart."]))
    return said


# ---- refusals
def refused(number, source, place, mark, start, circuit, end):
    wrong, look = sentence(number)
    said = [("What it says", [f"{number}, {SOURCES.get(source, f'source {source}')}: {wrong}." + (f" Look at: {look}." if look else "")])]
    if source in (1, 3) and number not in (13, 17):
        b = start if source == 1 else end
        found = lint.answering(lint.faults(b, source == 3), number, place)
        lines = [line for f in found for line in lint.told(f).split("\n")]
        if not found:
            lines = ["By this tool's own reading nothing of that kind is there. The program's line counts."]
        said.append(("Record at fault", lines))
    elif mark == b"JQ" and source == 2:
        lines = circuit.decode("ascii", "replace").split("\n")
        if 0 < place <= len(lines):
            said.append(("Line at fault", [f"line {place} of the circuit: {lines[place - 1][:200]}"]))
    elif number == 12 and place:
        pieces = circuits.pieces(circuit)
        if place <= len(pieces):
            r, n = pieces[place - 1], sets.header(start)
            about = [f"gate {place} at byte {6 * (place - 1)} of the circuit: {' '.join(f'{x:02x}' for x in r)}", f"as text: {circuits.spelled(r)}"]
            if n and circuits.gate_of(r):
                about.append(f"qubits are 1 to {n[1]}, the start set's; codes 1 to 8 take no control, a control is not the target")
            said.append(("Gate at fault", about))
    elif number in (14, 15, 16) and place:
        said += at_gate(number, place, start, circuit)
    elif number == 13 and sets.header(start) and sets.header(end):
        said.append(("Qubits", [f"the start set has {sets.header(start)[1]} qubits, the end set {sets.header(end)[1]}"]))
    elif number == 18:
        said.append(("Input", [f"mark {mark!r}, parts of {len(start):,}, {len(circuit):,} and {len(end):,} bytes, each at most 65,536"]))
    return said


def at_gate(number, place, start, circuit):
    s, all_gates = readable(start), circuits.gates(circuit)
    if s is None or place > len(all_gates) or not all(circuits.known(g, s.n) for g in all_gates):
        return [("Does not fit", ["These files have no such gate: is the line of another job?"])]
    lines = [f"gate {place}: {circuits.spelled(circuits.record(*all_gates[place - 1]))}"]
    for _, after in sized(s, all_gates[:place - 1]):
        s = after
    if s is None:
        return [("Gate", lines)]
    made = gates.built(s, all_gates[place - 1]) if all_gates[place - 1][0] != 12 else None
    lines.append("before it: %d states, %d inner, %d leaves, k %d" % (*gates.sizes(s), s.k))
    if number == 14:
        lines.append("after it: %d states, %d inner, %d leaves; at most 1024, 2048 and 1024" % gates.sizes(made) if made else "after it: many times over the bounds")
    if number == 16 and made:
        for q, _, x in made.leaves:
            if any(abs(v) > amplitudes.MOST for v in x):
                lines.append(f"leaf of state {q}: {amplitudes.spelled(x)}, at most {amplitudes.MOST} in size")
                break
    return [("Gate", lines)]


def sized(s, all_gates):
    """(gate, set after it) as long as they can be built; None where they cannot."""
    for gate in all_gates:
        s = gates.built(s, gate) if s is not None and gate[0] != 12 else None
        yield gate, s


def explained(line, mark, allow, start, circuit, end):
    """The sections for a line of the program."""
    return [Section(*part) for part in parts(line, mark, allow, start, circuit, end)]


def parts(line, mark, allow, start, circuit, end):
    f = program.fields(line)
    if f is None:
        return [("What it says", ["This is no line of the program: holds, fails, undecided or refused with its numbers was expected."])]
    if f["verdict"] == "holds":
        return holds(f["count"])
    if f["verdict"] == "undecided":
        return undecided(f["count"], allow)
    if f["verdict"] == "fails" and mark == b"JQ":
        return [("What it says", [f"Start {f['place']:,} is the first that does not end in a state of the end set: root {f['root']}, word {' '.join(map(str, f['word']))}."]),
                ("Not shown", ["The circuit is text of another language: the state is not followed through it here."])]
    if f["verdict"] == "fails":
        return fails(f["place"], f["root"], tuple(f["word"]), start, circuit, end)
    return refused(f["number"], f["source"], f["place"], mark, start, circuit, end)


def as_text(sections):
    return "".join(f"{part.heading}\n" + "".join(f"  {line}\n" for line in part.lines) for part in sections)
