"""What the tests of tools/zt share: the tool's modules, the reference's sets, and running the command itself."""
import os
import pathlib
import random
import subprocess
import sys

ROOT = pathlib.Path(__file__).resolve().parents[2]
ZT = str(ROOT / "tools" / "zt")
sys.dont_write_bytecode = True
sys.path[:0] = [str(ROOT / "tools"), str(ROOT / "tests" / "reference")]

import gate_sets  # noqa: E402
import sets as reference_sets  # noqa: E402


def zt(*words, given=None, program=None, cwd=ROOT):
    """Status, standard output and standard error of one command."""
    environment = os.environ | {"PYTHONDONTWRITEBYTECODE": "1"} | ({"ZHARGUTAI": str(program)} if program else {})
    done = subprocess.run([sys.executable, ZT, *map(str, words)], input=given, capture_output=True, cwd=cwd, env=environment, timeout=120)
    return done.returncode, done.stdout, done.stderr.decode()


def random_files(count, seed):
    """Random sets of all shapes, as files."""
    rng = random.Random(seed)
    for i in range(count):
        n = rng.randint(1, 20 if i % 10 == 0 else 6)
        values = gate_sets.ENDS if i % 7 == 0 else gate_sets.SMALL
        s = gate_sets.random_set(rng, n, (1, rng.randint(1, 5)), (1, rng.choice((2, 4, 32))), 4, values=values, k=rng.randint(0, 64))
        yield reference_sets.file_of(s)


def random_gate(rng, n):
    code, target = rng.randint(1, 8 if n == 1 else 10), rng.randint(1, n)
    return code, target, rng.choice([q for q in range(1, n + 1) if q != target]) if code > 8 else 0


class Tally:
    """Counts what was compared, and says what differed."""

    def __init__(self):
        self.right = self.wrong = 0

    def same(self, what, got, wanted):
        if got == wanted:
            self.right += 1
        else:
            self.wrong += 1
            print(f"{what}: wanted {str(wanted)[:300]!r}, got {str(got)[:300]!r}")

    def holds(self, what, truth):
        self.same(what, bool(truth), True)

    def end(self, name, least=1):
        print(f"{name}: {self.right} compared, {self.wrong} wrong")
        sys.exit(1 if self.wrong or self.right < least else 0)
