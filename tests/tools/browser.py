"""A report looks as it should in a browser: headless Chromium draws the page of a failing example, and its screenshot is compared with the stored one, cell by cell.

Both are taken as grids of mean brightness, so that another font or version of the browser is no difference. Where no Chromium is installed, nothing is tried.

usage: browser.py [--write]     --write stores the grid anew, after someone has looked at the page
"""
import pathlib
import shutil
import struct
import subprocess
import sys
import tempfile
import zlib

from common import Tally, zt

STORED = pathlib.Path(__file__).with_name("wrong-sign.grid")
WIDTH, HEIGHT, CELL = 640, 1600, 40


def pixels(png):
    """Rows of (r, g, b) bytes of a PNG with 8 bits to a channel, no palette and no interlacing."""
    at, packed, size = 8, b"", 3
    while at < len(png):
        length, kind = struct.unpack_from(">I4s", png, at)
        body = png[at + 8:at + 8 + length]
        if kind == b"IHDR":
            width, height, depth, colour = struct.unpack_from(">IIBB", body)
            size = {2: 3, 6: 4}[colour]
        elif kind == b"IDAT":
            packed += body
        at += length + 12
    raw, stride = zlib.decompress(packed), width * size
    before = bytearray(stride)
    for y in range(height):
        kind, row = raw[y * (stride + 1)], bytearray(raw[y * (stride + 1) + 1:(y + 1) * (stride + 1)])
        for i in range(stride) if kind else ():
            left, up, corner = (row[i - size], before[i], before[i - size]) if i >= size else (0, before[i], 0)
            if kind == 1:
                row[i] = row[i] + left & 255
            elif kind == 2:
                row[i] = row[i] + up & 255
            elif kind == 3:
                row[i] = row[i] + (left + up) // 2 & 255
            else:
                guess = left + up - corner
                _, _, nearest = min((abs(guess - left), 0, left), (abs(guess - up), 1, up), (abs(guess - corner), 2, corner))
                row[i] = row[i] + nearest & 255
        before = row
        yield [tuple(row[i:i + 3]) for i in range(0, stride, size)]


def grid(rows):
    """Mean brightness of each cell, and how many pixels are clearly red and clearly blue."""
    cells, red, blue = {}, 0, 0
    for y, row in enumerate(rows):
        for x, (r, g, b) in enumerate(row):
            key = y // CELL, x // CELL
            cells[key] = cells.get(key, 0) + r + g + b
            red += r > g + 80 and r > b + 80
            blue += b > r + 80 and b > g + 40
    across = range(WIDTH // CELL)
    return [[round(cells.get((y, x), 0) / (3 * CELL * CELL)) for x in across] for y in range(HEIGHT // CELL)], red, blue


def shot(browser):
    with tempfile.TemporaryDirectory() as made:
        folder = pathlib.Path(made)
        status, _, said = zt("report", "examples/jobs/wrong-sign.zt", "--expected", "-o", folder / "page.html")
        assert status == 1, said
        subprocess.run([browser, "--headless", "--no-sandbox", "--disable-gpu", "--hide-scrollbars", f"--user-data-dir={folder / 'profile'}", "--force-device-scale-factor=1",
                        f"--window-size={WIDTH},{HEIGHT}", f"--screenshot={folder / 'page.png'}", f"file://{folder / 'page.html'}"], capture_output=True, timeout=100)
        return (folder / "page.png").read_bytes()


def main(words):
    browser = next(filter(None, map(shutil.which, ("chromium", "chromium-browser", "google-chrome"))), None)
    if browser is None:
        print("no Chromium: the page was not looked at")
        return
    cells, red, blue = grid(pixels(shot(browser)))
    if "--write" in words:
        STORED.write_text("".join(" ".join(f"{v:3}" for v in row) + "\n" for row in cells))
        print(f"stored; {red} red and {blue} blue pixels")
        return
    tally = Tally()
    stored = [[int(v) for v in line.split()] for line in STORED.read_text().splitlines()]
    differences = [abs(a - b) for row, other in zip(cells, stored) for a, b in zip(row, other)]
    tally.same("cells", len(differences), (WIDTH // CELL) * (HEIGHT // CELL))
    mean = sum(differences) / len(differences)
    tally.holds(f"the page looks as the stored one: mean difference {mean:.1f} of 255", mean < 4)
    tally.holds(f"edges are drawn: {red} red and {blue} blue pixels", red > 200 and blue > 120)
    tally.end("the report in a browser, mean difference %.1f" % mean)


if __name__ == "__main__":
    main(sys.argv[1:])
