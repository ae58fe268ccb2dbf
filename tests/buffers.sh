#!/usr/bin/env bash
# docs/BUFFERS.md says the sizes and bounds of crates/buffers, each of them, and the bytes that the cells take.
set -u
cd "$(dirname "$0")/.."
python3 - <<'PY'
import pathlib, re, sys

code = {m[1]: int(m[2]) for m in re.finditer(r"pub const (\w+): \w+ = (\d+);", pathlib.Path("crates/buffers/src/lib.rt").read_text(encoding="utf-8"))}
width = {"u8": 1, "u16": 2, "u32": 4, "i32": 4, "u64": 8}
wrong, seen = [], set()
for line in pathlib.Path("docs/BUFFERS.md").read_text(encoding="utf-8").splitlines():
    cells = [c.strip() for c in line.strip("|").split("|")]
    names = [c.strip("`") for c in cells if re.fullmatch(r"`[A-Z_]+`", c)]
    if not names:
        continue
    seen.add(names[0])
    numbers = [int(c.replace(",", "")) for c in cells if re.fullmatch(r"[\d,]+", c)]
    want = code.get(names[0])
    if not numbers or numbers[0] != want:
        wrong.append(f"{names[0]}: the page says {numbers[:1]}, the code {want}")
    if len(cells) > 4 and cells[1] in width and (len(numbers) < 2 or numbers[1] != numbers[0] * width[cells[1]]):
        wrong.append(f"{cells[0]}: {numbers} are not cells and bytes of {cells[1]}")
    if len(cells) > 4 and numbers[1:] and numbers[1] > 65536:
        wrong.append(f"{cells[0]}: over 65,536 bytes")
wrong += [f"{name}: on no line of the page" for name in code if name not in seen]
for w in wrong:
    print("docs/BUFFERS.md:", w)
sys.exit(1 if wrong else 0)
PY
