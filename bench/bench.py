#!/usr/bin/env python3
"""Times the program beside `openssl dgst -sha256` and `cat` on the same files.

    bench.py PROGRAM

Two flash files of 16 MiB are made in a temporary folder. The first is one image whose digest covers
all of it; `boot` has to start it. The second has a table of 15 partitions of 1 MiB, each with such an
image; `info` has to find each of them valid. Their other bytes are pseudo-random, always the same
ones. Each command runs seven times, and the least time counts. The time of a command is that of its
whole process.

`replay` plays a script of 65,536 UF2 blocks, which fill an erased flash of 16 MiB, beside `cat`,
which reads the same files and writes as much. The most memory that a run of it had is told too.

`replay` plays 1,000 normal resets on the sealed image of 16 MiB, beside one `boot` of it.

`sweep` judges each cut of a plan that writes a sealed image of 64 KiB, of 1 MiB and of 8 MiB to the
second of two slots of 8 MiB, of which the first holds an older image of the same length. It stands
beside `boot` of that flash; two further sweeps, of the plan's steps up to the first program and up to
the first one of the slot's first sector, tell by their difference what a line costs that judges no new
image. `cuts` of the same plan stands beside `sweep`.

`cuts` judges each cut of the script of `load` that writes a sealed image of 1 MiB over another one, on
a flash of 4 MiB without a table. It stands beside `boot` of the flash that is left.

The greatest inputs of the commands: their time and their memory are told.
"""

import hashlib
import os
import random
import struct
import subprocess
import sys
import tempfile
import time

RUNS = 7
MEASURE = """import resource, subprocess, sys
subprocess.run(sys.argv[1:], stdout=subprocess.DEVNULL, check=False)
print(resource.getrusage(resource.RUSAGE_CHILDREN).ru_maxrss)"""
MIB = 1 << 20
FLASH = 16 * MIB
SECTOR = 4096
PARTITIONS = 15

START, END = 0xFFFFDED3, 0xAB123579
SECURE_ARM = 0x10210142  # IMAGE_TYPE: an executable for the Arm cores
STACK, CODE = 0x20082000, 0x10000201  # the vector table: SP and PC
FIRST_BLOCK = 0x114
VERSION = 0x10000  # 1.0; the low half is the minor one
FLASH_START = 0x10000000
PAGE = 256
UF2_START, UF2_SECOND, UF2_END = 0x0A324655, 0x9E5D5157, 0x0AB16F30
ABSOLUTE = 0xE48BFF57
SLOT = 8 * MIB
SLOT_SIZE_ROW = 0x55
SLOT_SIZE = 11  # of 4096 * 2^11 bytes
WRITE = 0x05  # the id of a command that writes
SWEEP_RUNS = 3
PLAIN_FLASH = 4 * MIB
MOST_SCRIPT = 64 * MIB
MOST_ELF = 64 * MIB
MOST_TEXT = 200 * MIB
INPUT = 2  # the status of a refused input
UNBOOTABLE = 8  # the status of a script of which some cut leaves nothing to start
LINE_RUNS = 15
RESETS = 1000
SEALED_WORDS = 22  # of a sealing block
HASHED_WORDS = 10  # of it, before the digest


def words(*values):
    return struct.pack(f"<{len(values)}I", *(value & 0xFFFFFFFF for value in values))


def sealed(size, seed, version=VERSION):
    """An image of so many bytes, of which the last are the block that seals the others."""
    body = bytearray(random.Random(seed).randbytes(size - 4 * SEALED_WORDS))
    at = len(body)
    body[0:8] = words(STACK, CODE)
    body[FIRST_BLOCK:FIRST_BLOCK + 20] = words(START, SECURE_ARM, 0x1FF, at - FIRST_BLOCK, END)
    load_map = at + 16  # the place of the LOAD_MAP item
    head = words(
        START, SECURE_ARM,
        0x248, version,
        0x1000406, -load_map, FLASH_START, at,  # LOAD_MAP: one entry, all before the block
        0x1000247, HASHED_WORDS,  # HASH_DEF: SHA-256
    )
    digest = hashlib.sha256(bytes(body) + head).digest()
    return bytes(body) + head + words(0x94B) + digest + words(0x12FF, FIRST_BLOCK - at, END)


def script():
    """Power, one UF2 block for each page of the flash, of the family for absolute addresses, and the end."""
    pages = random.Random(16).randbytes(FLASH)
    count = FLASH // PAGE
    records = [b"\4"]
    for i in range(count):
        page = pages[PAGE * i:PAGE * (i + 1)]
        head = words(UF2_START, UF2_SECOND, 0x2000, FLASH_START + PAGE * i, PAGE, i, count, ABSOLUTE)
        records.append(b"\2" + head + page + bytes(220) + words(UF2_END))
    return b"".join(records) + b"\0"


def table():
    """The block of a table whose partition i has MiB i + 1 of the flash."""
    count = MIB // SECTOR
    parts = []
    for i in range(PARTITIONS):
        first, last = count * (i + 1), count * (i + 2) - 1
        parts += [0xFC000000 | last << 13 | first, 0xFC020000]  # all rights, the secure Arm family
    size = 2 + len(parts)
    return words(START, PARTITIONS << 24 | size << 8 | 0x0A, 0xFC008000, *parts, size << 8 | 0xFF, 0, END)


def partitioned():
    first = table()
    flash = first + b"\xff" * (MIB - len(first))
    for i in range(PARTITIONS):
        flash += sealed(MIB, i + 1)
    return flash


def front_of(plan, to_first_sector):
    """A plan's script up to its first write, or up to that to the slot's first sector, which comes last, and its end."""
    at = 0
    while plan[at] != 0:
        if plan[at] == 1:
            command, size = plan[at + 1:at + 33], struct.unpack_from("<I", plan, at + 33)[0]
            is_first = struct.unpack_from("<I", command, 16)[0] == FLASH_START + SLOT
            if command[8] == WRITE and (is_first or not to_first_sector):
                return plan[:at] + b"\0"
            at += 37 + size
        else:
            at += {4: 1, 5: 6}[plan[at]]
    sys.exit("the plan has no such write")


def least(command, wanted, runs=RUNS, statuses=(0,)):
    """The least time of a command in seconds, where each run's output has the wanted lines."""
    best = None
    for _ in range(runs):
        begun = time.perf_counter()
        done = subprocess.run(command, stdout=subprocess.PIPE, check=False)
        taken = time.perf_counter() - begun
        if done.returncode not in statuses or not wanted(done.stdout.decode().splitlines()):
            sys.exit(f"{' '.join(command)}: unexpected output")
        best = taken if best is None else min(best, taken)
    return best


def memory(command):
    """The most memory of a run in MiB, measured from a small process, whose own is counted too."""
    done = subprocess.run([sys.executable, "-c", MEASURE, *command], stdout=subprocess.PIPE, check=True)
    return int(done.stdout) / 1024


def row(name, program, openssl):
    print(f"{name}: {1000 * program:.1f} ms, openssl {1000 * openssl:.1f} ms, ratio {program / openssl:.2f}")


def resets(program, folder, board, boot):
    """Tells of a script of normal resets, which change nothing, beside one boot of the same flash."""
    paths = [os.path.join(folder, it) for it in ("resets", "reset_flash", "reset_otp")]
    with open(paths[0], "wb") as file:
        file.write(b"\4" + b"\5\0\0\0\0\0" * RESETS + b"\0")
    replay = least([program, "replay", *board, *paths],
                   lambda lines: sum("start window=0x00000000+0x01000000 " in it for it in lines) == RESETS + 1)
    print(f"replay of {RESETS:,} resets of one image of 16 MiB: {1000 * replay:.1f} ms, "
          f"boot {1000 * boot:.1f} ms, ratio {replay / boot:.1f}")


def sweeps(program, folder, size, name):
    """Tells of the sweep of a plan for an image of so many bytes beside `boot` of the same flash."""
    paths = {it: os.path.join(folder, it) for it in ("flash", "otp", "image", "plan", "part", "erases", "pattern")}
    otp = bytearray(4 * SLOT_SIZE_ROW + 4)
    otp[4 * SLOT_SIZE_ROW] = SLOT_SIZE
    files = (("flash", sealed(size, 1).ljust(FLASH, b"\xff")), ("otp", otp), ("pattern", b"\0"),
             ("image", sealed(size, 2, VERSION + 1)))
    for it, data in files:
        with open(paths[it], "wb") as file:
            file.write(data)
    board = [paths["flash"], paths["otp"], "arm"]
    subprocess.run([program, "plan", *board, paths["image"], paths["plan"]], stdout=subprocess.DEVNULL, check=True)
    with open(paths["plan"], "rb") as file:
        plan = file.read()
    for it, to_first_sector in (("part", True), ("erases", False)):
        with open(paths[it], "wb") as file:
            file.write(front_of(plan, to_first_sector))
    boot = least([program, "boot", *board, "normal"], lambda lines: lines[0].startswith("start window=0x00000000+"))

    def swept(script, steps, result, runs):
        return least([program, "sweep", *board, paths[script], paths["pattern"]],
                     lambda lines: len(lines) == 2 * steps + 1 and lines[-1] == f"end {steps} {result}", runs)

    erases, programs = size // SECTOR, (size - SECTOR) // PAGE
    steps = erases + size // PAGE
    whole = swept("plan", steps, "finished", SWEEP_RUNS)
    part = swept("part", erases + programs, "former", LINE_RUNS)
    line = (part - swept("erases", erases, "former", LINE_RUNS)) / (2 * programs)
    most = memory([program, "sweep", *board, paths["plan"], paths["pattern"]])
    print(f"sweep of a plan of {name}, {2 * steps:,} lines: {whole:.2f} s, boot {1000 * boot:.1f} ms, "
          f"ratio {whole / boot:.1f}, {1e6 * line:.1f} us a line before the last pages, {most:.0f} MiB at most")
    command = [program, "cuts", *board, paths["plan"], paths["pattern"]]
    cuts = least(command, lambda lines: lines[-1].startswith(f"end {steps} finished "), SWEEP_RUNS)
    print(f"cuts of the same plan: {cuts:.2f} s, ratio to sweep {cuts / whole:.2f}, {memory(command):.0f} MiB at most")
    checks(program, board, (paths["plan"], paths["pattern"]), steps, cuts, (0,))


def counted(lines):
    """How many cuts the line of the classes counts."""
    line = next(it for it in lines if it.startswith("cuts former="))
    return sum(int(it.split("=")[1]) for it in line.split()[1:7])


def checks(program, board, paths, steps, cuts, statuses):
    """Tells of the check of a script of so many steps beside its cuts."""
    command = [program, "check", *board, *paths]
    check = least(command, lambda lines: counted(lines) == 2 * steps, SWEEP_RUNS, statuses)
    print(f"check of the same script: {check:.2f} s, ratio to cuts {check / cuts:.2f}, {memory(command):.0f} MiB at most")


def loads(program, folder):
    """Tells of the cuts of a load over a running image, beside `boot` of what it leaves."""
    names = ("plain", "none", "binary", "spec", "new", "load", "left", "rows", "byte")
    paths = {it: os.path.join(folder, it) for it in names}
    files = (("plain", sealed(MIB, 3).ljust(PLAIN_FLASH, b"\xff")), ("none", b""), ("byte", b"\0"),
             ("binary", sealed(MIB - SECTOR, 4)), ("spec", b'{"processor": "arm", "version": [1, 1]}'))
    for it, data in files:
        with open(paths[it], "wb") as file:
            file.write(data)
    board = [paths["plain"], paths["none"], "arm"]
    subprocess.run([program, "seal", paths["binary"], paths["spec"], paths["new"]], stdout=subprocess.DEVNULL, check=True)
    subprocess.run([program, "load", *board, paths["new"], paths["load"]], stdout=subprocess.DEVNULL, check=True)
    subprocess.run([program, "replay", *board, paths["load"], paths["left"], paths["rows"]],
                   stdout=subprocess.DEVNULL, check=True)
    boot = least([program, "boot", paths["left"], paths["none"], "arm", "normal"], lambda lines: "version=1.1" in lines[0])
    steps = MIB // SECTOR + MIB // PAGE
    command = [program, "cuts", *board, paths["load"], paths["byte"]]
    cuts = least(command, lambda lines: lines[-1].startswith(f"end {steps} finished "), SWEEP_RUNS, (UNBOOTABLE,))
    print(f"cuts of a load of 1 MiB, {steps:,} steps: {cuts:.2f} s, boot {1000 * boot:.1f} ms, "
          f"ratio {cuts / boot:.0f}, {memory(command):.0f} MiB at most")
    checks(program, board, (paths["load"], paths["byte"]), steps, cuts, (UNBOOTABLE,))


def greatest_files(folder):
    """Writes the greatest inputs of the commands, and answers their paths."""
    record = b"\2" + words(UF2_START, UF2_SECOND, 0x2000, FLASH_START, PAGE, 0, 1, ABSOLUTE) + bytes(480)
    count = min(MOST_SCRIPT // len(record), (1 << 19) - 1)
    image = sealed(FLASH - 65536, 5)
    segment = words(1, 84, FLASH_START, FLASH_START, len(image), len(image), 5, 4)
    header = b"\x7fELF\1\1\1" + bytes(9) + struct.pack("<HHIIIIIHHHHHH", 2, 40, 1, CODE, 52, 0, 0x05000000, 52, 32, 1, 0, 0, 0)
    comment = b"# " + b"x" * 97 + b"\n"
    end = b"\nend\n"
    files = {
        "script": (record * count)[:MOST_SCRIPT - 1] + b"\0", "binary": image, "brackets": b"[" * 65536,
        "spec": b'{"processor": "arm", "version": [1, 1]}', "image": random.Random(6).randbytes(FLASH),
        "elf": (header + segment + image).ljust(MOST_ELF, b"\0"), "erased": b"\xff" * FLASH, "otp": bytes(16384),
        "text": (comment * (MOST_TEXT // len(comment) + 1))[:MOST_TEXT - len(end)] + end,
    }
    paths = {it: os.path.join(folder, f"greatest_{it}") for it in (*files, "out", "sealed", "uf2", "left", "rows")}
    for it, data in files.items():
        with open(paths[it], "wb") as file:
            file.write(data)
    return paths


def greatest(program, folder):
    """Tells of the time and the memory of commands on their greatest inputs."""
    at = greatest_files(folder)
    board, left = [at["erased"], at["otp"], "arm"], [at["left"], at["rows"], "arm"]
    for command in (
        ["replay", *board, at["script"], at["out"], at["out"]], ["list", at["script"]], ["script", at["text"], at["out"]],
        ["table", at["brackets"], at["out"]], ["otp", at["brackets"], at["out"]],
        ["elf", at["elf"], at["spec"], at["out"]], ["seal", at["binary"], at["spec"], at["sealed"]],
        ["uf2", at["image"], "absolute", at["uf2"]], ["copy", at["uf2"], at["out"]],
        ["plan", *board, at["sealed"], at["out"]], ["load", *board, at["sealed"], at["out"]],
        ["replay", *board, at["out"], at["left"], at["rows"]], ["boot", *left, "normal"], ["info", *left],
        ["data", *left, "normal"], ["explain", *left, "normal"], ["caveats", *left, "normal"], ["map", *left, at["out"]],
        ["firm", at["sealed"], "arm"],
    ):
        took = least([program, *command], bool, 1, (INPUT,) if at["brackets"] in command else (0,))
        print(f"greatest input of {command[0]}: {took:.2f} s, {memory([program, *command]):.0f} MiB at most")


def main(arguments):
    if len(arguments) != 1:
        sys.exit(__doc__.strip())
    program = os.path.abspath(arguments[0])
    with tempfile.TemporaryDirectory() as folder:
        paths = {}
        files = (("one", sealed(FLASH, 0)), ("many", partitioned()), ("otp", b""),
                 ("erased", b"\xff" * FLASH), ("script", script()))
        for name, data in files:
            paths[name] = os.path.join(folder, name)
            with open(paths[name], "wb") as file:
                file.write(data)

        def digest(name):
            return least(["openssl", "dgst", "-sha256", paths[name]], lambda lines: len(lines) == 1)

        one = least([program, "boot", paths["one"], paths["otp"], "arm", "normal"],
                    lambda lines: lines[0].startswith("start window=0x00000000+0x01000000 "))
        row("boot of one image of 16 MiB", one, digest("one"))
        resets(program, folder, [paths["one"], paths["otp"], "arm"], one)
        many = least([program, "info", paths["many"], paths["otp"], "arm"],
                     lambda lines: len(lines) == 1 + PARTITIONS and all(" ok " in line for line in lines[1:]))
        row("info of 15 images of 1 MiB", many, digest("many"))
        out_flash, out_otp = (os.path.join(folder, name) for name in ("out_flash", "out_otp"))
        command = [program, "replay", paths["erased"], paths["otp"], "arm", paths["script"], out_flash, out_otp]
        replay = least(command, lambda lines: lines[-2:] == [
            "65536 uf2 65535 done boot bootsel no-image", "end state=bootsel"])
        copy = least(["sh", "-c", 'cat "$0" "$1" "$2" > /dev/null; cat "$0" > "$3"; cat "$1" > "$4"',
                      paths["erased"], paths["otp"], paths["script"], out_flash, out_otp], lambda lines: not lines)
        print(f"replay of 65,536 blocks: {replay:.2f} s, cat {copy:.2f} s, {memory(command):.0f} MiB at most")
        for size, name in ((64 << 10, "64 KiB"), (MIB, "1 MiB"), (SLOT, "8 MiB")):
            sweeps(program, folder, size, name)
        loads(program, folder)
        greatest(program, folder)


if __name__ == "__main__":
    main(sys.argv[1:])
