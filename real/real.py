#!/usr/bin/env python3
"""Links small firmware with real toolchains, and takes it through the program.

    real.py PROGRAM

Run it at the top of the repository. It installs nothing: what is not there is skipped with a word.
Of Debian's packages it uses gcc-arm-none-eabi and gcc-riscv64-unknown-elf, which bring GNU ld,
objcopy and readelf, and lld and clang.

Each firmware is linked, packed by `elf`, and compared with what objcopy makes of it and with the
segments that its file has; its digest is made anew; it is booted, written as a UF2 file, copied by a
script that is played, and planned into the empty slot of a pair, beside a former version, where each
cut of the plan is swept. Files that have to be refused are tried too. The last line is
`N firmware as wanted, M not, K skipped`, and the status is 0 where M is 0.
"""

import hashlib
import os
import shutil
import struct
import subprocess
import sys
import tempfile

HERE = os.path.dirname(os.path.abspath(__file__))
FLASH_BASE = 0x10000000
SECTOR = 4096
TABLE = """{"version":[1,0],
 "unpartitioned":{"families":["absolute"],
                  "permissions":{"secure":"rw","nonsecure":"rw","bootloader":"rw"}},
 "partitions":[
  {"first":2,"last":31,"families":["rp2350-arm-s","rp2350-riscv"],
   "permissions":{"secure":"rw","nonsecure":"rw","bootloader":"rw"}},
  {"first":32,"last":61,"families":["rp2350-arm-s","rp2350-riscv"],"link":["a",0],
   "permissions":{"secure":"rw","nonsecure":"rw","bootloader":"rw"}}]}"""
ARM = ["-mcpu=cortex-m33", "-mthumb"]
RISCV = ["-march=rv32imac", "-mabi=ilp32"]
COMMON = ["-Os", "-ffreestanding", "-nostdlib", "-I", HERE]
GCC = {"arm": "arm-none-eabi-gcc", "riscv": "riscv64-unknown-elf-gcc"}
CLANG = {"arm": ["clang", "--target=armv8m.main-none-eabi"], "riscv": ["clang", "--target=riscv32-none-elf"]}

# The name of a firmware, its processor, its source, its linker script, further words, and whether
# nothing of it is in flash.
FIRMWARE = (
    ("in flash", "arm", "start.c", "flash.ld", [], False),
    ("in flash, with debug information", "arm", "start.c", "flash.ld", ["-g3"], False),
    ("two segments apart", "arm", "start.c", "two.ld", ["-DEXTRA"], False),
    ("with a build id", "arm", "start.c", "flash.ld", ["-Wl,--build-id"], False),
    (".bss before .data", "arm", "start.c", "bss_first.ld", [], False),
    ("from C++", "arm", "plus.cc", "flash.ld", ["-fno-exceptions", "-fno-rtti"], False),
    ("all in SRAM", "arm", "start.c", "sram.ld", ["-DNO_DEFINITION"], True),
    ("in flash", "riscv", "start.c", "flash.ld", [], False),
    ("two segments apart", "riscv", "start.c", "two.ld", ["-DEXTRA"], False),
    ("all in SRAM", "riscv", "start.c", "sram.ld", ["-DNO_DEFINITION"], True),
)


# Words that name no file.
PLAIN = ("arm", "riscv", "normal", "rp2350-arm-s", "rp2350-riscv")


class Wrong(Exception):
    """Something is not as it has to be."""


def ran(words, status=0):
    done = subprocess.run(words, stdout=subprocess.PIPE, stderr=subprocess.STDOUT, check=False)
    text = done.stdout.decode("utf-8", "replace")
    if done.returncode != status:
        raise Wrong(f"{' '.join(words)}: status {done.returncode}, not {status}: {text.strip()}")
    return text


def same(what, got, wanted):
    if got != wanted:
        raise Wrong(f"{what}: got {got!r}, wanted {wanted!r}")


def read(path):
    with open(path, "rb") as file:
        return file.read()


def write(path, data):
    with open(path, "wb") as file:
        file.write(data if isinstance(data, bytes) else data.encode())


def segments(elf):
    """The physical address and the bytes of each segment that is loaded, by the file's headers."""
    at, size, count = struct.unpack_from("<I", elf, 28)[0], *struct.unpack_from("<HH", elf, 42)
    found = []
    for i in range(count):
        kind, offset, _, address, length = struct.unpack_from("<5I", elf, at + size * i)
        if kind == 1 and length > 0:
            found.append((address, elf[offset:offset + length]))
    return found


def blocks(image):
    """The offsets of the blocks of the image's loop, the first one first."""
    first = next(at for at in range(0, SECTOR, 4) if image[at:at + 4] == struct.pack("<I", 0xFFFFDED3))
    found, at = [], first
    while at not in found:
        found.append(at)
        end = at + 4
        while image[end] != 0xFF:
            low, high = image[end + 1], image[end + 2]
            end += 4 * (low + 256 * high if image[end] & 0x80 else low)
        at += struct.unpack_from("<i", image, end + 4)[0]
    return found, end


def check_digest(image, sealing):
    """The digest of the sealing block is that of what its load map and its HASH_DEF cover."""
    word, at, entries, hashed, value = sealing + 4, sealing, [], 0, b""
    while image[word] != 0xFF:
        kind, low, high = image[word], image[word + 1], image[word + 2]
        size = low + 256 * high if kind & 0x80 else low
        if kind == 0x06:
            for i in range(image[word + 3] & 0x7F):
                store, run, end = struct.unpack_from("<iII", image, word + 4 + 12 * i)
                start = word + store if not image[word + 3] & 0x80 else store - FLASH_BASE
                length = end if not image[word + 3] & 0x80 else end - run
                entries.append((start, length))
        if kind == 0x47:
            hashed = struct.unpack_from("<H", image, word + 4)[0]
        if kind == 0x4B:
            value = image[word + 4:word + 36]
        word += 4 * size
    text = b"".join(image[start:start + length] for start, length in entries)
    same("digest", hashlib.sha256(text + image[at:at + 4 * hashed]).digest(), value)


class Board:
    """The program on files of one folder."""

    def __init__(self, program, folder):
        self.program, self.folder = program, folder
        write(self.path("otp"), b"")
        write(self.path("table.json"), TABLE)
        write(self.path("pattern"), b"\xa5")
        self.run("table", "table.json", "table")

    def path(self, name):
        return os.path.join(self.folder, name)

    def run(self, command, *words, status=0):
        """A command on files of the folder; the other words stand as they are."""
        names = [it if it in PLAIN else self.path(it) for it in words]
        return ran([self.program, command, *names], status)

    def flash(self, name, first, second):
        """A dump with the table, and an image in each slot of its pair."""
        slot = 30 * SECTOR
        data = read(self.path("table")) + b"\xff" * SECTOR
        data += first + b"\xff" * (slot - len(first)) + second + b"\xff" * (slot - len(second))
        write(self.path(name), data + b"\xff" * (2 * SECTOR))


def check(board, cpu, elf, objcopy, in_sram):
    """One firmware, from its file to an update."""
    write(board.path("spec"), f'{{"processor":"{cpu}","version":[2,0]}}')
    write(board.path("former.spec"), f'{{"processor":"{cpu}","version":[1,0]}}')
    shutil.copy(elf, board.path("elf"))
    line = board.run("elf", "elf", "spec", "out.image")
    board.run("elf", "elf", "former.spec", "out.former")
    image = read(board.path("out.image"))
    same("the length told", line.split()[1], f"bytes={len(image)}")
    loop, _ = blocks(image)
    sealing = int(line.split("block=")[1], 16)
    if sealing not in loop:
        raise Wrong("the new block is not in the loop")
    check_digest(image, sealing)
    parts = segments(read(elf))
    if not in_sram:
        links = range(*blocks_link(image, loop))
        for address, data in parts:
            at = address - FLASH_BASE
            differ = [i for i in range(len(data)) if image[at + i] != data[i] and at + i not in links]
            same("bytes of a segment that differ", differ, [])
        ran([objcopy, "-O", "binary", "--gap-fill", "0xff", elf, board.path("binary")])
        ran([objcopy, "-O", "binary", "--gap-fill", "0", elf, board.path("padded")])
        # between sections of one segment lld leaves bytes of its own, which objcopy does not look at
        binary, padded = read(board.path("binary")), read(board.path("padded"))
        differ = [i for i in range(len(binary)) if image[i] not in (binary[i], padded[i]) and i not in links]
        same("bytes of the binary that differ", differ, [])
        if binary == padded:
            board.run("seal", "binary", "spec", "out.sealed")
            same("the image of the binary", read(board.path("out.sealed")) == image, True)
    else:
        for _, data in parts:
            if data not in image:
                raise Wrong("a segment is not in the image")
    told = board.run("boot", "out.image", "otp", cpu, "normal")
    if not told.startswith("start window=0x00000000+") or "version=2.0" not in told:
        raise Wrong(f"it does not start: {told.strip()}")
    if not in_sram:
        same("its pc", int(told.split("pc=")[1].split()[0], 16) | 1, struct.unpack_from("<I", read(elf), 24)[0] | 1)
    update(board, cpu, image, in_sram)


def blocks_link(image, loop):
    """The place of the link that sealing rewrites: that of the first block."""
    end = loop[0] + 4
    while image[end] != 0xFF:
        low, high = image[end + 1], image[end + 2]
        end += 4 * (low + 256 * high if image[end] & 0x80 else low)
    return end + 4, end + 8


def update(board, cpu, image, in_sram):
    """The image goes into the empty slot, by its UF2 file and by its plan, and each cut is swept."""
    family = {"arm": "rp2350-arm-s", "riscv": "rp2350-riscv"}[cpu]
    board.flash("dump", read(board.path("out.former")), b"")
    board.run("uf2", "out.image", family, "out.uf2")
    board.run("copy", "out.uf2", "out.copied")
    board.run("plan", "dump", "otp", cpu, "out.image", "out.plan")
    for script in ("out.copied", "out.plan"):
        text = board.run("list", script)
        write(board.path("text"), text)
        board.run("script", "text", "out.again")
        same("the script of its text", read(board.path("out.again")) == read(board.path(script)), True)
        lines = board.run("replay", "dump", "otp", cpu, script, "out.flash", "out.otp").splitlines()
        if "window=0x00020000+" not in lines[-2] or "version=2.0" not in lines[-2]:
            raise Wrong(f"{script}: the update does not start: {lines[-2]}")
        written = read(board.path("out.flash"))[32 * SECTOR:32 * SECTOR + len(image)]
        same(f"{script}: the written image", written == image, True)
        swept = board.run("sweep", "dump", "otp", cpu, script, "pattern").splitlines()
        same(f"{script}: the end of the sweep", swept[-1].split()[-1], "finished")
        chances = [line for line in swept if line.endswith("chance") and " before " in line]
        same(f"{script}: cuts between steps that leave an image by chance", chances, [])
    firm = board.run("firm", "out.image", cpu).strip()
    if in_sram or len(image) < SECTOR:
        same("whether it is firm", firm, "firm no")


def refusals(board, arm_gcc):
    """Files that have to be refused, with the fault of each."""
    write(board.path("spec"), '{"processor":"arm"}')
    shutil.copy("/bin/true", board.path("elf"))
    same("a host's file", board.run("elf", "elf", "spec", "out", status=2).split(": ")[1], "elf not-elf\n")
    if arm_gcc is None:
        return
    ran([arm_gcc, *ARM, *COMMON, "-c", os.path.join(HERE, "start.c"), "-o", board.path("elf")])
    same("a relocatable file", board.run("elf", "elf", "spec", "out", status=2).split(": ")[1], "elf type\n")
    for name, origin in (("in the ROM", "0x00001000"), ("in the cache as RAM", "0x13ffc000")):
        script = read(os.path.join(HERE, "flash.ld")).decode().replace("ORIGIN = 0x10000000", f"ORIGIN = {origin}")
        write(board.path("ld"), script)
        ran([arm_gcc, *ARM, *COMMON, "-T", board.path("ld"), os.path.join(HERE, "start.c"), "-o", board.path("elf")])
        same(name, board.run("elf", "elf", "spec", "out", status=2).split(": ")[1], "elf segment 0\n")
    write(board.path("wrong"), '{"processor":"riscv"}')
    ran([arm_gcc, *ARM, *COMMON, "-T", os.path.join(HERE, "flash.ld"), os.path.join(HERE, "start.c"),
         "-o", board.path("elf")])
    same("another processor", board.run("elf", "elf", "wrong", "out", status=2).split(": ")[1], "elf processor\n")


def linkers():
    """The compilers and linkers that are there, by name."""
    found = []
    for cpu, flags in (("arm", ARM), ("riscv", RISCV)):
        gcc = shutil.which(GCC[cpu])
        found.append((f"{GCC[cpu]}, GNU ld", cpu, [gcc, *flags] if gcc else None))
        there = shutil.which("clang") and shutil.which("ld.lld")
        found.append((f"clang for {cpu}, lld", cpu, [*CLANG[cpu], *flags, "-fuse-ld=lld"] if there else None))
    return found


def main(arguments):
    if len(arguments) != 1:
        sys.exit(__doc__.strip())
    program = os.path.abspath(arguments[0])
    right, wrong, skipped = 0, 0, 0
    for linker, cpu, command in linkers():
        objcopy = shutil.which("arm-none-eabi-objcopy" if cpu == "arm" else "riscv64-unknown-elf-objcopy")
        for name, of, source, script, words, in_sram in FIRMWARE:
            if of != cpu:
                continue
            if command is None or objcopy is None:
                print(f"skipped: {name}, by {linker}, which is not there")
                skipped += 1
                continue
            with tempfile.TemporaryDirectory() as folder:
                elf = os.path.join(folder, "firmware.elf")
                try:
                    ran([*command, *COMMON, *words, "-T", os.path.join(HERE, script),
                         os.path.join(HERE, source), "-o", elf])
                    check(Board(program, folder), cpu, elf, objcopy, in_sram)
                    right += 1
                except Wrong as why:
                    print(f"{name}, by {linker}: {why}")
                    wrong += 1
    with tempfile.TemporaryDirectory() as folder:
        try:
            refusals(Board(program, folder), shutil.which(GCC["arm"]))
            right += 1
        except Wrong as why:
            print(f"files to be refused: {why}")
            wrong += 1
    print(f"{right} firmware as wanted, {wrong} not, {skipped} skipped")
    sys.exit(1 if wrong else 0)


if __name__ == "__main__":
    main(sys.argv[1:])
