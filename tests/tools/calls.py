"""Each command of tools/zt, called as a user calls it: what it prints, its exit status, and the statuses 0 to 5.

usage: calls.py PROGRAM
"""
import json
import os
import pathlib
import sys
import tempfile

from common import ROOT, Tally, zt

tally, program = Tally(), pathlib.Path(sys.argv[1]).resolve()
JOBS = ROOT / "examples" / "jobs"


def says(name, words, status, *parts, given=None, errors=(), program=program, cwd=ROOT):
    """A call ends with this status and prints each of these parts."""
    got, out, err = zt(*words, given=given, program=program, cwd=cwd)
    tally.same(f"{name}: status, with {err.strip()[:200]!r}", got, status)
    tally.holds(f"{name}: no traceback in {err[:400]!r}", "Traceback" not in err)
    for part in parts:
        tally.holds(f"{name}: {part!r} in {out.decode()[:800]!r}", part in out.decode())
    for part in errors:
        tally.holds(f"{name}: {part!r} in {err[:400]!r}", part in err)
    return out


def script(folder, name, body):
    path = folder / name
    path.write_text(f"#!/bin/sh\n{body}\n")
    path.chmod(0o755)
    return path


with tempfile.TemporaryDirectory() as made:
    folder = pathlib.Path(made)
    texts = {"basis": "basis 2\n", "bell": "all of\n(|00> + |11>)/sqrt2\n(|01> + |10>)/sqrt2\n(|00> - |11>)/sqrt2\n(|01> - |10>)/sqrt2\n",
             "circuit": "H 1\nCX 1 2\n", "h": "H 1\n", "empty": "qubits 2\nk 0\nlevel 1: a\nlevel 2:\nlevel 3:\n", "bad": "ket 0\nket 1\n",
             "wrong": "qubits 1\nk 0\nlevel 1: a\nlevel 2: b\na {0} -> b a\nb {} = 1\n"}
    at = {name: folder / name for name in texts}
    for name, body in texts.items():
        at[name].write_text(body)

    def check(start="basis", circuit="circuit", end="bell", *more):
        return ["check", "--start", at[start], "--circuit", at[circuit], "--end", at[end], *more]

    # pack, show, job
    packed = zt("pack", at["basis"])[1]
    tally.same("pack: length", len(packed), 132)
    at["packed"] = folder / "packed"
    says("pack -o", ["pack", at["basis"], "-o", at["packed"]], 0)
    tally.same("pack -o", at["packed"].read_bytes(), packed)
    shown = says("show", ["show", at["packed"]], 0, "qubits 2", "q2 {0,1} -> q4 q4")
    tally.same("show and pack", zt("pack", "-", given=shown)[1], packed)
    says("show of a text", ["show", at["circuit"]], 0, "CX 1 2")
    says("show --bytes", ["show", "--bytes", at["packed"]], 0, "HD version 1, n 2")
    job = zt("job", "--start", at["basis"], "--circuit", at["circuit"], "--end", at["bell"], "--allow", 4)[1]
    tally.same("job", (job[:2], len(job)), (b"JB", 18 + 132 + 12 + 192))
    at["job"] = folder / "bell.job"
    at["job"].write_bytes(job)
    says("a packed job", ["check", at["job"]], 0, "holds 4\n")
    says("a job on standard input", ["check", "-"], 0, "holds 4\n", given=job)

    # check and its statuses
    says("holds", check(), 0, "holds 4\n")
    says("fails", check("basis", "h"), 1, "fails 1 0 0 0 0\n")
    says("undecided", check("basis", "circuit", "bell", "--allow", "3"), 2, "undecided 3\n")
    says("refused", ["check", JOBS / "refused-gate.zt"], 3, "refused 12 2 2\n")
    says("no file", ["check", folder / "none"], 4, errors=["none: cannot be read: No such file"])
    says("a text with a fault", check("bad"), 4, errors=["bad:2: more than one state needs a line `all of`"])
    says("no program", check(), 4, errors=["is no program that can be run"], program=folder / "none")
    says("holds 0", check("empty"), 0, "holds 0\n")
    says("holds 0 with --nonempty", check("empty", "circuit", "bell", "--nonempty"), 1, "holds 0\n", errors=["no state"])
    slow = script(folder, "slow", "exec sleep 20")
    says("out of time", check("basis", "circuit", "bell", "--timeout", "0.3"), 5, errors=["out of time: no answer within 0.3 seconds"], program=slow)
    says("a program that says something else", check(), 4, errors=["printed no line of its own: oh"], program=script(folder, "other", "echo oh >&2; echo perhaps 1"))
    says("too little stack", check(), 4, errors=["ended by signal 11; it needs about 1 MB of stack"], program=script(folder, "little", f"ulimit -s 400; exec {program}"))
    says("a program that dies", check(), 4, errors=["ended by signal 11"], program=script(folder, "dies", "kill -SEGV $$"))
    got = json.loads(says("json", check("basis", "h", "bell", "--json"), 1))
    tally.same("json", {k: got[k] for k in ("line", "status", "verdict", "place", "root", "word")},
               {"line": "fails 1 0 0 0 0", "status": 1, "verdict": "fails", "place": 1, "root": 0, "word": [0, 0, 0]})
    says("a wrong word", ["check", "--allow", "many"], 4, errors=["a number of at most 4294967295 was expected, found 'many'"])
    says("half a job", ["check", "--start", at["basis"]], 4, errors=["a job was expected: one file, or --start, --circuit and --end"])
    says("another mark is passed on", ["check", at["job"], "--mark", "JQ"], 3, "refused ")
    if os.path.exists("/dev/full"):
        with open("/dev/full", "wb") as full:
            import subprocess
            done = subprocess.run([sys.executable, str(ROOT / "tools" / "zt"), "pack", str(at["basis"]), "-o", "/dev/full"], capture_output=True)
            tally.same("nothing can be written", (done.returncode, b"cannot be written: No space left" in done.stderr), (4, True))

    # words
    says("explain, fails", ["explain", JOBS / "wrong-sign.zt"], 1, "Start\n  |00>\n", "3 Z 2      (|00> - |11>)/sqrt2", "|11>: the image has -1/sqrt2, the end state 1/sqrt2")
    says("explain, a phase", ["explain", JOBS / "common-phase.zt"], 1, "The image is w^3 times end state number 1")
    says("explain, holds 0", ["explain", JOBS / "vacuous.zt"], 0, "That is no pass")
    says("explain, undecided", ["explain", JOBS / "undecided.zt"], 2, "the allowance B = 3 was too small")
    says("explain, 12", ["explain", JOBS / "refused-gate.zt"], 3, "gate 2 at byte 6 of the circuit: 47 54 09 02 02 00", "as text: CX 2 2")
    says("explain, 13", ["explain", JOBS / "refused-qubits.zt"], 3, "the start set has 2 qubits, the end set 3")
    says("explain, 14", ["explain", JOBS / "refused-too-large.zt"], 3, "after it: 1365 states, 682 inner, 1024 leaves")
    says("explain, 4", ["explain", JOBS / "refused-end-too-large.zt"], 3, "record 0 at byte 0: 130 states, at most 128 in an end set")
    says("explain, a given line", ["explain", JOBS / "wrong-sign.zt", "--expected"], 1, "|11>: the image has", program=folder / "none")
    for line in ("refused 8 1 0", "refused 83 1 3"):
        says(f"explain, {line}", ["explain", "--start", at["wrong"], "--circuit", at["h"], "--end", at["wrong"], "--line", line], 3, "83: record 3 at byte 20: right child 0 is on level 1, expected level 2",
             "54 52 00 00 01 00 00 00 01 00 00 00")
    for line in ("refused 9 1 0", "refused 9 1 4"):
        says(f"explain, {line}", ["explain", "--start", at["wrong"], "--circuit", at["h"], "--end", at["wrong"], "--line", line], 3, "9: record 4 at byte 32: its mask is zero")
    (folder / "qasm").write_text("OPENQASM 2.0;\nqreg q[1];\nu1(pi/3) q[0];\n")
    says("explain, a circuit of another language", ["explain", "--start", at["basis"], "--circuit", folder / "qasm", "--end", at["bell"], "--mark", "JQ", "--line", "refused 20 2 3"], 3,
         "line 3 of the circuit: u1(pi/3) q[0];")
    says("lint", ["lint", at["wrong"]], 1, "program: refused 8", "83: record 3 at byte 20", "9: record 4 at byte 32", "2 faults")
    says("lint of a good set", ["lint", at["basis"]], 0, "program: takes it as a start set", "no fault")
    says("lint --end", ["lint", "--end", at["bell"]], 0, "program: takes it as an end set", "no fault")
    says("states", ["states", at["basis"]], 0, "     3  root 0  word 1 0 0  |10>", "4 states")
    says("states, capped", ["states", at["basis"], "--most", "2"], 0, ".. there are more")
    says("sizes", ["sizes", at["basis"], at["circuit"]], 0, "    1 H 1             11      10       6   1")
    says("sizes at 14", ["sizes", folder / "five", folder / "hs"], 4, errors=["five: cannot be read"])
    (folder / "five").write_text("basis 5\n")
    (folder / "hs").write_text("".join(f"H {q}\n" for q in range(1, 6)))
    says("sizes at 14", ["sizes", folder / "five", folder / "hs"], 0, "over the bounds: refusal 14 at this gate")

    # pictures
    says("draw", ["draw", at["bell"], "-o", folder / "bell.svg"], 0)
    picture = (folder / "bell.svg").read_text()
    tally.holds("draw: a picture", picture.startswith("<svg ") and picture.count("<circle class=\"state") == 4 + 4 + 3 and "{0}" in picture)
    says("report", ["report", JOBS / "wrong-sign.zt", "-o", folder / "page.html"], 1, "fails 1 0 0 0 0")
    page = (folder / "page.html").read_text()
    tally.holds("report: one page", page.count("<svg") == 3 and "the image has -1/sqrt2" in page and "src=" not in page and "href=" not in page)
    for path in sorted(JOBS.iterdir()):
        got = zt("report", path, "--expected", "-o", folder / "page.html")
        tally.holds(f"report of {path.name}: {got[2][:200]!r}", got[0] in range(4) and not got[2])
    import xml.dom.minidom
    tally.holds("draw: well formed", xml.dom.minidom.parseString(picture))

    # batch
    says("batch", ["batch", JOBS, "--expect", "-j", "2"], 0, f"{len(list(JOBS.iterdir()))} jobs: {len(list(JOBS.iterdir()))} as expected")
    says("batch, worst status", ["batch", JOBS, "-j", "3"], 3, "examples/jobs/bell.zt: holds 4")
    says("batch of nothing", ["batch", folder / "none"], 4, errors=["none: cannot be read"])
    says("help", ["--help"], 0, "explain")
    says("version", ["--version"], 0, f"zt {(ROOT / 'VERSION').read_text().strip()}")
tally.end("calls of zt", 100)
