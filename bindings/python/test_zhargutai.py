"""The Python binding: verdicts, refusals and a gate, on the sets of docs/RULES.md. Run: python3 bindings/python/test_zhargutai.py"""
import pathlib
import struct
import sys
import threading
import unittest

sys.dont_write_bytecode = True
ROOT = pathlib.Path(__file__).resolve().parents[2]

import zhargutai as binding  # noqa: E402

JOB = (ROOT / "crates" / "zhargutai" / "stdin").read_bytes()
ALLOW, *LENGTHS = struct.unpack("<4I", JOB[2:18])
START, CIRCUIT, END = (JOB[18 + sum(LENGTHS[:i]):18 + sum(LENGTHS[:i + 1])] for i in range(3))


class Calls(unittest.TestCase):
    def test_holds(self):
        reply = binding.check(START, CIRCUIT, END, ALLOW)
        self.assertEqual((reply.kind, reply.count), ("holds", 4))

    def test_fails_with_root_and_word(self):
        reply = binding.check(START, CIRCUIT[:6], END)
        self.assertEqual((reply.kind, reply.count, reply.root, reply.word), ("fails", 1, 0, (0, 0, 0)))

    def test_undecided(self):
        self.assertEqual(binding.check(START, CIRCUIT, END, 3)[0], "undecided")

    def test_refused(self):
        reply = binding.check(START, CIRCUIT + b"x", END)
        self.assertEqual((reply.kind, reply.number, reply.source, reply.place), ("refused", 11, 2, 0))
        self.assertEqual(binding.check(b"", b"", b"").number, 1)

    def test_one_gate_twice_is_the_circuit(self):
        carried = START
        for at in range(0, len(CIRCUIT), 6):
            carried = binding.one_gate(carried, CIRCUIT[at:at + 6])
        self.assertEqual(binding.check(carried, b"", END).count, 4)
        with self.assertRaises(binding.Refused) as caught:
            binding.one_gate(START, b"GT")
        self.assertEqual(caught.exception.reply.number, 11)

    def test_sequences(self):
        self.assertEqual((binding.closing([10, 16, 22]), binding.spell(3), binding.spell(2)), (3, "HSSH", ""))
        with self.assertRaises(binding.Refused):
            binding.closing([24])
        with self.assertRaises(binding.Refused):
            binding.spell(24)

    def test_threads(self):
        threading.stack_size(2 << 20)
        found = []
        threads = [threading.Thread(target=lambda: found.append(binding.check(START, CIRCUIT, END).count)) for _ in range(8)]
        for thread in threads:
            thread.start()
        for thread in threads:
            thread.join()
        self.assertEqual(found, [4] * 8)


if __name__ == "__main__":
    unittest.main()
