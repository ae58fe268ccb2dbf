#!/usr/bin/env bash
# Every name that docs/SENTENCES.md gives as crate/File: `name` is declared in that crate.
set -u
cd "$(dirname "$0")/.."
python3 - <<'PY'
import pathlib, re, sys

missing = []
for line in pathlib.Path("docs/SENTENCES.md").read_text(encoding="utf-8").splitlines():
    for crate, file, names in re.findall(r"\b([a-z]+)/([A-Z]\w+)(?: \(proofs\))?: ((?:`[^`]+`(?: \([^)]*\))?(?: \.\.)?(?:, )?)+)", line):
        texts = [p.read_text(encoding="utf-8") for p in pathlib.Path("crates", crate).glob(f"*/{file}.antt")]
        for name in re.findall(r"`([^`]+)`", names):
            if not any(re.search(r"(?:^|\s)" + re.escape(name) + r"(?= |\n|\()", t) for t in texts):
                missing.append(f"{crate}/{file}: {name}")
for m in missing:
    print("docs/SENTENCES.md names what is not there:", m)
sys.exit(1 if missing else 0)
PY
