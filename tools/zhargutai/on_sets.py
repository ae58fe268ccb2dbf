"""The commands on one set or circuit: pack, show, lint, states, sizes, draw. Each takes the words of the call and gives its exit status."""
import itertools

from . import circuits, draw, dumping, gates, jobs, lint, program, sets, states, text
from .dumping import counted
from .faults import Fault, read_file, write_file
from .showing import job_bytes


def pack(a):
    b = read_file(a.file)
    _, made = text.pack(b, a.file, a.kind, jobs.beside(a.file))
    write_file(a.output, made)
    return 0


def show(a):
    b = read_file(a.file)
    if text.is_text(b) and b.strip():
        kind, b = text.pack(b, a.file, a.kind, jobs.beside(a.file))
        a.kind = a.kind or kind
    if a.bytes:
        write_file(a.output, dumping.dumped(b).encode())
        return 0
    write_file(a.output, text.show(b, a.kind)[1].encode())
    return 0


def readable(path, kind="set"):
    """A set that can be looked at, with its bytes."""
    b = jobs.part(path, kind)
    s = sets.from_bytes(b)
    found = lint.faults(b)
    if s is None or any(f.number not in (2, 4) for f in found):
        raise Fault(f"is no set: {lint.told(found[0])}", name=path)
    return s


def refusal_of(b, end, asked):
    """The program's line where it refuses a set as start or end set; None where it takes it."""
    h = sets.header(b)
    n = h[1] if h and 1 <= h[1] <= 20 else 1
    own = text.pack(f"ket {'0' * n}\n".encode(), "")[1]
    job = job_bytes(b"JB", 0, *((own, b"", b) if end else (b, b"", own)))
    line = program.run(asked, job).line
    fields = program.fields(line)
    return line if fields["verdict"] == "refused" and fields["source"] in (0, 3 if end else 1) else None


def lint_set(a):
    b = jobs.part(a.set, "set")
    found, line = lint.faults(b, a.end), None
    try:
        line = refusal_of(b, a.end, program.find(a.program))
        print(f"program: {line}" if line else f"program: takes it as {'an end' if a.end else 'a start'} set")
    except Fault as fault:
        if a.program:
            raise
        print(f"program: not asked ({fault})")
    for f in found[:a.most]:
        print(f"{a.set}: {lint.told(f)}")
    if len(found) > a.most:
        print(f"{a.set}: .. and {len(found) - a.most} more")
    print(counted(len(found), "fault") if found else "no fault" if not line else "no fault by this tool's own reading; the program's line counts")
    return 1 if found or line else 0


def list_states(a):
    s = readable(a.set)
    count = 0
    for count, (root, word) in enumerate(itertools.islice(states.members(s), a.most + 1), 1):
        if count > a.most:
            print(f".. there are more; --most {a.most} were asked for")
            return 0
        try:
            shown = states.shown(states.state_of(s, root, word), s.n, a.kets)
        except states.TooLarge:
            shown = f"more than {states.TERMS:,} kets"
        print(f"{count:6}  root {root}  word {' '.join(map(str, word))}  {shown}")
    print(counted(count, "state"))
    return 0


def list_sizes(a):
    s, b = readable(a.start), jobs.part(a.circuit, "circuit")
    all_gates = circuits.gates(b)
    print(f"{'':5} {'gate':10} {'states':>7} {'inner':>7} {'leaves':>7} {'k':>3}")
    print(f"{0:5} {'start':10} {sum(s.counts):7} {len(s.inner):7} {len(s.leaves):7} {s.k:3}")
    for i, gate in enumerate(all_gates, 1):
        name = circuits.spelled(circuits.record(*gate))
        if gate[0] == 12 or not circuits.known(gate, s.n):
            raise Fault(f"gate {i}, {name}: sizes are known for X to CZ and SWAP on qubits 1 to {s.n}", name=a.circuit)
        after = gates.built(s, gate)
        if after is None:
            print(f"{i:5} {name:10} many times over the bounds: refusal 14 at this gate")
            return 0
        over = gates.over_bounds(after)
        print(f"{i:5} {name:10} {sum(after.counts):7} {len(after.inner):7} {len(after.leaves):7} {after.k:3}" + ("  over the bounds: refusal 14 at this gate" if over else ""))
        if over:
            return 0
        s = after
    return 0


def draw_set(a):
    write_file(a.output, draw.svg(readable(a.set), a.set).encode())
    return 0
