"""What tools/zt is made of: a text form for sets, circuits and jobs, and plain words for what the proved program answers.

Nothing here decides a verdict: that is the program's line, which is passed on unchanged.
"""
import pathlib

ROOT = pathlib.Path(__file__).resolve().parents[2]


def version():
    return (ROOT / "VERSION").read_text(encoding="utf-8").strip()
