#!/usr/bin/env python3
"""Draws sweeps by `chart` and flashes by `map`, and looks at the pictures with the tools that are there.

    pictures.py PROGRAM FOLDER

Run it at the top of the repository. The first picture of each command is the one that the README shows,
and has to be docs/chart.svg and docs/map.svg. The other sweeps are of a session without steps, of one
whose every cut leaves the former image, of a plan of a thousand steps, and of the longest session that
is swept, whose last sixteen steps turn the answer each time. The other flashes have one window, two
slots without a table, fifteen partitions with gaps between them, and names of 127 bytes. Each is read by
`xmllint --noout`, and rendered by headless Chromium at 960 and at 1920 pixels into FOLDER; a tool that
is not there is told and skipped. The last line is `N pictures drawn, M wrong`, and the status is 0
where M is 0.
"""

import os
import re
import shutil
import struct
import subprocess
import sys

IMAGE = struct.pack("<7I", 0x20082000, 0x10000201, 0xFFFFDED3, 0x10210142, 0x000001FF, 0, 0xAB123579)
TABLE = """{"version":[1,0],
 "unpartitioned":{"families":["absolute"],
                  "permissions":{"secure":"rw","nonsecure":"rw","bootloader":"rw"}},
 "partitions":[
   {"first":2,"last":%d,"families":["rp2350-arm-s"],
    "permissions":{"secure":"rw","nonsecure":"rw","bootloader":"rw"}},
   {"first":%d,"last":%d,"families":["rp2350-arm-s"],"link":["a",0],
    "permissions":{"secure":"rw","nonsecure":"rw","bootloader":"rw"}}]}"""
SECTOR = 4096
PAGE = 256
MOST_STEPS = 262144
ERASE, WRITE = 0x03, 0x05
# a version and an entry beside the type of an image for Arm, and a block that defines no image
ENTERED = struct.pack("<10I", 0xFFFFDED3, 0x10210142, 0x248, 0x1000A, 0x344, 0x10000201, 0x20082000, 0x6FF, 0,
                      0xAB123579)
UNDEFINED = struct.pack("<6I", 0xFFFFDED3, 0x248, 0x1000A, 0x2FF, 0, 0xAB123579)
RIGHTS = '"permissions":{"secure":"rw","nonsecure":"rw","bootloader":"rw"}'
LONG = 256 * 1024 - 512  # a binary: sealed it has 1023 pages in 64 sectors
WIDTHS = (960, 1920)
BROWSERS = ("chromium", "chromium-browser", "google-chrome")


def command(number, at, size, payload=b""):
    """A line of a script's text: a command on so many bytes of the flash."""
    words = struct.pack("<IIBBHIIIII", 0x431FD10B, 1, number, 8, 0, len(payload), 0x10000000 + at, size, 0, 0)
    return f"command {words.hex()} {payload.hex()}".rstrip()


def longest(start, sectors):
    """The text of the longest session that is swept, on a slot of so many sectors: erases over and over,
    and then the pages of the first sector, the last one first. So the first block in it is a new one
    after each page, in turn one that defines an image and one that defines none."""
    rest = sectors - 1
    whole, part = divmod(MOST_STEPS - 1 - SECTOR // PAGE, rest)
    lines = ["power", "reset bootsel", command(ERASE, start, SECTOR)]
    lines += [command(ERASE, start + SECTOR, rest * SECTOR)] * whole
    lines += [command(ERASE, start + SECTOR, part * SECTOR)] * (part > 0)
    for page in reversed(range(SECTOR // PAGE)):
        block = UNDEFINED if page % 2 else ENTERED
        lines.append(command(WRITE, start + page * PAGE, PAGE, block.ljust(PAGE, b"\xff")))
    return "\n".join([*lines, "end", ""]).encode()


def table_of(parts):
    """The text of a table of partitions: of each its first and its last sector, and what else is said of it."""
    rows = (f'{{"first":{first},"last":{last},{RIGHTS}{more}}}' for first, last, more in parts)
    return f'{{"unpartitioned":{{"families":["absolute"],{RIGHTS}}},"partitions":[{",".join(rows)}]}}'.encode()


class Maker:
    """Runs the program in a folder, and counts the pictures."""

    def __init__(self, program, folder):
        self.program = os.path.abspath(program)
        self.folder = folder
        self.drawn = self.wrong = 0
        self.browser = next(filter(shutil.which, BROWSERS), None)

    def path(self, name):
        return os.path.join(self.folder, name)

    def write(self, name, data):
        with open(self.path(name), "wb") as file:
            file.write(data)

    def read(self, name):
        with open(self.path(name), "rb") as file:
            return file.read()

    def run(self, *words):
        done = subprocess.run([self.program, *words], cwd=self.folder, capture_output=True, check=False)
        if done.returncode:
            sys.exit(f"{' '.join(words)}: status {done.returncode}: {done.stdout.decode()}")
        return done.stdout.decode().strip()

    def board(self, sectors, first):
        """A flash with a table of one pair of so many sectors each, and an image in A."""
        last = 1 + sectors
        self.write("table.json", (TABLE % (last, last + 1, last + sectors)).encode())
        self.run("table", "table.json", "table.bin")
        front = self.read("table.bin").ljust(2 * SECTOR, b"\xff") + first
        self.write("flash", front.ljust((2 + 2 * sectors) * SECTOR, b"\xff"))
        self.write("otp", b"")
        self.write("pattern", b"\xa5")

    def sealed(self, binary, minor):
        self.write("spec", b'{"processor":"arm","version":[1,%d]}' % minor)
        self.write("binary", binary)
        self.run("seal", "binary", "spec", "image")
        return self.read("image")

    def plan(self, image):
        self.write("image", image)
        self.run("plan", "flash", "otp", "arm", "image", "script")

    def height(self, name):
        """How many pixels a picture is high."""
        return int(re.search(rb' height="(\d+)"', self.read(name))[1])

    def fail(self, text):
        self.wrong += 1
        print(text)

    def chart(self, name, wanted):
        """Draws the sweep of the script, which has to be told so, and looks at the picture."""
        self.look(name, self.run("chart", "flash", "otp", "arm", "script", "pattern", name), wanted)

    def map(self, name, wanted, otp=b""):
        """Draws the flash, whose map has to be told so, and looks at the picture."""
        self.write("otp", otp)
        self.look(name, self.run("map", "flash", "otp", "arm", name), wanted)

    def parted(self, parts, sectors, images):
        """A flash with a table of these partitions, and images at sectors."""
        self.write("table.json", table_of(parts))
        self.run("table", "table.json", "table.bin")
        flash = bytearray(self.read("table.bin").ljust(sectors * SECTOR, b"\xff"))
        for sector, image in images:
            flash[sector * SECTOR:sector * SECTOR + len(image)] = image
        self.write("flash", flash)

    def is_shown(self, name):
        """The picture is the one that the README shows."""
        with open(f"docs/{name}", "rb") as file:
            if file.read() != self.read(name):
                self.fail(f"docs/{name} is not what the program draws")

    def look(self, name, told, wanted):
        self.drawn += 1
        if told != wanted:
            self.fail(f"{name}: {told}\n  wanted {wanted}")
        if shutil.which("xmllint") and subprocess.run(["xmllint", "--noout", self.path(name)], check=False).returncode:
            self.fail(f"{name}: xmllint does not read it")
        for width in WIDTHS if self.browser else ():
            shot = os.path.abspath(self.path(name.replace(".svg", f"-{width}.png")))
            size = f"--window-size={width},{self.height(name)}"
            subprocess.run([self.browser, "--headless", "--no-sandbox", "--disable-gpu", f"--screenshot={shot}",
                            size, "file://" + os.path.abspath(self.path(name))], capture_output=True, check=False)
            if not os.path.exists(shot):
                self.fail(f"{name}: {self.browser} has rendered nothing at {width} pixels")


def charts(make):
    make.board(30, b"")
    make.plan(IMAGE + b"\xff" * 484 + b"code")
    make.chart("chart.svg", "chart steps=4 former=4 finished=0 chance=4")
    make.is_shown("chart.svg")
    make.write("script", b"\0")
    make.chart("none.svg", "chart steps=0 former=0 finished=0 chance=0")
    make.board(64, make.sealed(IMAGE, 9))
    make.plan(make.sealed(IMAGE, 8))
    make.chart("former.svg", "chart steps=2 former=4 finished=0 chance=0")
    # All but the first page of the first sector is 0xff, so behind that page's program the image is whole.
    make.plan(make.sealed(IMAGE.ljust(LONG, b"\xff"), 10))
    make.chart("long.svg", "chart steps=1087 former=2144 finished=30 chance=0")
    half = 2047  # sectors: two slots of them and the two table slots fill 16 MiB
    make.board(half, make.sealed(IMAGE, 9))
    make.write("text", longest((2 + half) * SECTOR, half))
    make.run("script", "text", "script")
    # Behind the program of an even page, an image starts that is neither: not behind page 2, whose block
    # stands where the entry is, and not behind page 0, which finishes the image.
    make.chart("longest.svg", f"chart steps={MOST_STEPS} former={2 * MOST_STEPS - 12} finished=0 chance=12")


def maps(make):
    old, new = make.sealed(IMAGE, 8), make.sealed(IMAGE, 9)
    make.board(30, old.ljust(30 * SECTOR, b"\xff") + new[:4] + b"\0" + new[5:])
    make.write("flash", make.read("flash").ljust(64 * SECTOR, b"\xff"))
    make.map("map.svg", "map windows=5")
    make.is_shown("map.svg")
    make.write("flash", b"\xff")
    make.map("whole.svg", "map windows=1")
    make.write("flash", IMAGE.ljust(64 * SECTOR, b"\xff"))
    make.map("slots.svg", "map windows=3", b"\0" * (4 * 0x055) + b"\1\0\0\0")
    # Two slots, fifteen partitions of four sectors, and two free sectors before, between and behind them.
    parts = [(4 + 6 * i, 7 + 6 * i, f',"name":"part <{i}> & more","families":["rp2350-arm-s","data"]')
             for i in range(15)]
    make.parted(parts, 96, [(22, IMAGE)])
    make.map("fifteen.svg", "map windows=33")
    # Names of 127 bytes: as they are, of bytes that a file has names for, and of bytes written as digits.
    names = ("n" * 127, "&<>'" * 31 + "&<>", "\\u0001" * 127, '\\"' * 127)
    parts = [(2 + 4 * i, 5 + 4 * i, f',"name":"{name}"' + (f',"link":["a",{i - 1}]' if i % 2 else ""))
             for i, name in enumerate(names)]
    make.parted(parts, 18, [(2, new), (6, old)])
    make.map("names.svg", "map windows=6")


def main():
    if len(sys.argv) != 3:
        sys.exit(__doc__.strip())
    os.makedirs(sys.argv[2], exist_ok=True)
    make = Maker(sys.argv[1], sys.argv[2])
    if not shutil.which("xmllint"):
        print("the pictures are not read by xmllint: it is not there")
    if not make.browser:
        print("the pictures are not rendered: there is no Chromium")
    maps(make)
    charts(make)
    print(f"{make.drawn} pictures drawn, {make.wrong} wrong")
    sys.exit(1 if make.wrong else 0)


main()
