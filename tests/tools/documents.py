"""Every command of every document is run and prints what the document says; links lead to files of the repository; figures are those of the code.

usage: documents.py [--write] [DOCUMENT..]     --write puts what the commands print into the documents, for a person to read and commit

A command stands in a block ```console after `$ `, and its output below it. They run in a copy of the clone's own files, README.md's first ones
with nothing built, so that what a newcomer meets is what is tested. Only the folder target/ is taken from here, once a command asks for it.
"""
import os
import pathlib
import re
import shutil
import subprocess
import sys
import tempfile

from common import ROOT, Tally
from zhargutai import amplitudes, sets

# not run here, and why
ELSEWHERE = {"bash .ci/run": "it is what runs this", "bash bench/run.sh": "it measures for minutes"}
# commands within sentences, and the test that runs each
INLINE = re.compile(r"`((?:tools/|bash |python3 |make\b|rt |cargo |target/bin/|zt |timeout |ulimit )[^`]*)`")
BY_TEST = {
    "tools/build": ".ci/run", "tools/build library": ".ci/run", "tools/build program": "README.md", "tools/build library program": ".ci/run",
    "rt check": "the gate proves every crate", "rt ci": ".ci/run", "rt ci NAME": "the gate proves every crate", "rt must-fail NAME": ".ci/run", "rt version": "figures", "rt doc": "the kit", "bash .ci/run": ".ci/run", "make": "README.md", "make install": "tests/library.sh", "cargo test": "tests/library.sh",
    "bash tests/NAME.sh": ".ci/run", "bash tests/zt.sh target/bin/zhargutai": ".ci/run", "bash tests/documents.sh": ".ci/run", "python3 tests/tools/documents.py --write": "a person",
    "bash bench/run.sh ARCHIVE PROGRAM": "a person", "tools/respell.py": "a person", "ulimit -s 400": "tests/tools/calls.py", "tools/limits": "LIMITS.md", "tools/forms": "a person", "tools/forms -l": "a person", "tools/zt": "zt.sh", "target/bin/zhargutai": "zt.sh",
}
ZT_INLINE = re.compile(r"(?:tools/)?zt (pack|show|job|check|explain|report|lint|states|sizes|draw|batch)\b")
NEEDS_TARGET = re.compile(r"make|target/|^tools/(?!zt (explain|report) \S+ --expected)")
# what a clone lacks; docs/RULES.md says what "document 01" and "document 02" mean
FORBIDDEN = re.compile(r"\.\./shared|/work/|[Ss]ource 00[0-9]|://")
LINK = re.compile(r"\[[^\]]*\]\(([^)\s]+)\)")
BLOCK = re.compile(r"^```console\n(.*?)^```$", re.M | re.S)


def own_files():
    """The files of a clean clone: what git knows, as it stands here."""
    listed = subprocess.run(["git", "-c", "safe.directory=*", "ls-files", "-z", "--cached", "--others", "--exclude-standard"], cwd=ROOT, capture_output=True)
    if listed.returncode == 0:
        return [name for name in listed.stdout.decode().split("\0") if name and (ROOT / name).is_file()]
    found = []
    for folder, inside, names in os.walk(ROOT):
        inside[:] = [name for name in inside if name not in ("target", ".git", "__pycache__")]
        found += [os.path.relpath(os.path.join(folder, name), ROOT) for name in names]
    return found


class Clone:
    """A copy of the clone in a temporary folder, with a folder that stands for /tmp."""

    def __init__(self, folder, files):
        self.root, self.tmp = folder / "clone", folder / "tmp"
        self.tmp.mkdir(parents=True)
        for name in files:
            (self.root / name).parent.mkdir(parents=True, exist_ok=True)
            shutil.copy2(ROOT / name, self.root / name)

    def run(self, command):
        """What a command prints, standard error with it; None where it cannot be tried here."""
        if command in ELSEWHERE:
            return None
        if command.startswith("parallel "):
            if not shutil.which("parallel"):
                return None
            self.jobs()
            command = command.replace("--sshlogin one,two", "--sshlogin :").replace("zhargutai <", "target/bin/zhargutai <").replace("--transferfile {} --cleanup ", "")
        if NEEDS_TARGET.search(command) and not (self.root / "target").exists():
            os.symlink(ROOT / "target", self.root / "target")
        environment = {k: v for k, v in os.environ.items() if k not in ("ZHARGUTAI", "ARCHIVE")} | {"PYTHONDONTWRITEBYTECODE": "1"}
        done = subprocess.run(["bash", "-c", command.replace("/tmp/", f"{self.tmp}/")], cwd=self.root, env=environment, stdout=subprocess.PIPE, stderr=subprocess.STDOUT, timeout=300)
        return done.stdout.decode().replace(f"{self.tmp}/", "/tmp/").replace(str(self.root), "CLONE")

    def jobs(self):
        (self.root / "jobs").mkdir(exist_ok=True)
        (self.root / "jobs" / "bell.job").write_bytes((ROOT / "crates" / "zhargutai" / "stdin").read_bytes())


def commands(block):
    """(command, what it prints) of a block."""
    found = []
    for line in block.splitlines(keepends=True):
        if line.startswith("$ "):
            found.append((line[2:].rstrip("\n"), ""))
        elif found:
            found[-1] = found[-1][0], found[-1][1] + line
    return found


def fits(got, wanted):
    """Whether a command printed what the document says; there a line `..` stands for any lines."""
    return re.fullmatch("(?:.*\n)*".join(re.escape(part) for part in re.split(r"^\.\.\n", wanted, flags=re.M)), got) is not None


def run_all(name, text, clone, tally, write):
    """The document with what its commands print."""
    count = 0

    def block(match):
        nonlocal count
        out = ""
        for command, wanted in commands(match[1]):
            got = clone.run(command)
            count += got is not None
            if got is None:
                got = wanted
            elif fits(got, wanted):
                tally.holds(command, True)
                got = wanted
            elif not write:
                tally.same(f"{name}: $ {command}", got, wanted)
            out += f"$ {command}\n{got}"
        return f"```console\n{out}```"

    return BLOCK.sub(block, text), count


def links(name, text, files, tally):
    for target in LINK.findall(re.sub(r"`[^`]*`", "", text)):
        path = (ROOT / name).parent / target.split("#")[0]
        inside = path.resolve().is_relative_to(ROOT)
        tally.holds(f"{name}: the link {target} leads to a file of the repository", inside and path.exists())
    allowed = name == "docs/RULES.md"
    for line in text.splitlines():
        tally.holds(f"{name}: {line[:100]!r} names what a clone lacks", allowed or not FORBIDDEN.search(line))


def figures(tally):
    """Figures that stand in sentences, from where they come."""
    states, inner, leaves = sets.BOUNDS
    kit = subprocess.run(["rt", "version"], capture_output=True, text=True).stdout.strip() if shutil.which("rt") else None
    header = (ROOT / "include" / "zhargutai.h").read_text()
    said = {
        "docs/LIMITS.md": [f"at most {states:,} states, {inner:,} inner and {leaves:,} leaf transitions", f"at most {sets.END_STATES} states", f"{amplitudes.MOST:,}"],
        "docs/RULES.md": [f"at most {states:,} states (an end set of a check {sets.END_STATES}), {inner:,} inner and {leaves:,} leaf transitions: at most {sets.size_of(20, inner, leaves):,} bytes",
                          f"output of at least {re.search('OUTPUT_SIZE ([0-9]+)', header)[1][:2]},248 bytes", f"a reply of {re.search('REPLY_SIZE ([0-9]+)', header)[1]} bytes"],
        "docs/FORMAT.md": [f"at most {states:,}; {sets.END_STATES} in an end set", f"at most {inner:,}", f"at most {leaves:,}", "56 bytes"],
        "README.md": [f"`{kit}`"] if kit else [],
    }
    numbers = {name: set(map(int, re.findall(r"^\| ([0-9]+) (?:\| [^|\n]*){1,2}\|$", (ROOT / name).read_text(), re.M))) for name in ("docs/RULES.md", "docs/USE.md")}
    rules, use = numbers["docs/RULES.md"], numbers["docs/USE.md"]
    tally.holds(f"docs/USE.md has every refusal of docs/RULES.md: {sorted(rules ^ use)}", use in (rules, rules - {81, 82, 83, 84} | {8}))
    listed = dict(re.findall(r"^\| \[[^]]*\]\(jobs/([^)]*)\) \| [^|]* \| `([^`]*)` \|$", (ROOT / "examples" / "README.md").read_text(), re.M))
    tally.same("examples/README.md has every job with its line", listed,
               {path.name: re.search("^expect (.*)$", path.read_text(), re.M)[1] for path in (ROOT / "examples" / "jobs").iterdir()})
    for name, parts in said.items():
        for part in parts:
            tally.holds(f"{name} says {part!r}", part in (ROOT / name).read_text())


def main(words):
    write = "--write" in words
    tally, files = Tally(), own_files()
    documents = [w for w in words if w != "--write"] or sorted(name for name in files if name.endswith(".md"))
    ran, folders = 0, tempfile.TemporaryDirectory()
    clones = {}
    for name in documents:
        text = (ROOT / name).read_text()
        new, count = text, 0
        if BLOCK.search(text):
            which = "first" if name == "README.md" else "later"
            if which not in clones:
                clones[which] = Clone(pathlib.Path(folders.name) / which, files)
            new, count = run_all(name, text, clones[which], tally, write)
            ran += count
            if name == "README.md":
                page = clones[which].root / "wrong-sign.html"
                tally.holds("README.md leads to a failing example explained in a picture", page.exists() and page.read_text().count("<svg") == 3)
        if write and new != text:
            (ROOT / name).write_text(new)
        if not write:
            links(name, text, files, tally)
            for command in re.findall(r"^```(?!console|\n?$)(\w+)$", text, re.M):
                tally.holds(f"{name}: a block of {command} is not run", False)
            for command in INLINE.findall(BLOCK.sub("", text)):
                tally.holds(f"{name}: some test runs `{command}`", command in BY_TEST or ZT_INLINE.match(command))
    if write:
        print(f"{ran} commands run")
        return
    if len(documents) > 3:
        figures(tally)
        readme = (ROOT / "README.md").read_text()
        tally.holds("README.md: its first paragraph links docs/LIMITS.md", "(docs/LIMITS.md)" in readme.split("\n\n")[1])
    tally.end(f"{len(documents)} documents, {ran} commands", 1)


if __name__ == "__main__":
    main(sys.argv[1:])
