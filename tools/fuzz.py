#!/usr/bin/env python3
"""Changes the example files at random, and looks at what needs no reference.

    fuzz.py PROGRAM [SECONDS [SEED]]

Each try takes a command, changes its inputs (bytes are flipped, copied, dropped, repeated, or files
swapped), and runs it twice in new folders. It has to end within ten seconds, with a status of the
table, with a text of the form that the status asks for, with no file but its outputs, and twice the
same. Without SECONDS it goes on for a quarter of an hour. What fails is kept in a folder that is
named. The last line is `N tries as wanted, M not`, and the status is 0 where M is 0.
"""

import os
import random
import re
import shutil
import subprocess
import sys
import tempfile
import time

HERE = os.path.dirname(os.path.abspath(__file__))
QUARTER = 15 * 60
LONGEST = 10
COMMANDS = (
    "boot pair.bin otp.bin CPU KIND",
    "info pair.bin otp.bin CPU",
    "data plain.bin otp.bin CPU KIND",
    "explain pair.bin otp.bin CPU KIND",
    "caveats pair.bin otp.bin CPU KIND",
    "caveats plain.bin otp.bin CPU KIND",
    "map pair.bin otp.bin CPU out.svg",
    "seal sdk.img spec.json out.img",
    "firm sealed.img CPU",
    "table table.json out.bin",
    "otp otp.json out.bin",
    "uf2 sealed.img rp2350-arm-s out.uf2",
    "plan pair.bin otp.bin CPU sealed.img out.script",
    "load plain.bin otp.bin CPU sealed.img out.script",
    "copy sealed.uf2 out.script",
    "replay pair.bin otp.bin CPU update.script out.flash out.otp",
    "cuts pair.bin otp.bin CPU update.script pattern",
    "check pair.bin otp.bin CPU update.script pattern",
    "check pair.bin otp.bin CPU update.script pattern require.json",
    "sweep pair.bin otp.bin CPU update.script pattern",
    "chart pair.bin otp.bin CPU update.script pattern out.svg",
    "list update.script",
    "script update.text out.script",
)
KINDS = ("normal", "bootsel", "update=0x10000000", "update=0x10002000", "update=0x10020000")
# The statuses that a run on files that are there can have.
STATUSES = (0, 2, 3, 8, 9, 10, 11, 12)
FALLS = ("boot", "data", "caveats")
REFUSED = re.compile(rb"input \S+: [^\n]+\n")


def flip(made, random_):
    made[random_.randrange(len(made))] ^= 1 << random_.randrange(8)


def overwrite(made, random_):
    at, size = random_.randrange(len(made)), random_.choice((1, 2, 4, 64))
    made[at:at + size] = random_.randbytes(min(size, len(made) - at))


def drop(made, random_):
    at = random_.randrange(len(made))
    del made[at:at + random_.choice((1, 4, 256, 4096))]


def repeat(made, random_):
    at = random_.randrange(len(made))
    made[at:at] = made[at:at + random_.choice((1, 4, 256, 4096))]


def move(made, random_):
    size = random_.choice((4, 20, 64, 256))
    first, second = random_.randrange(len(made)), random_.randrange(len(made))
    piece = made[first:first + size]
    made[second:second + len(piece)] = piece


def cut(made, random_):
    del made[random_.randrange(len(made)):]


def changed(part, random_):
    """A file's bytes with some changes; mostly near its start, where the structure is."""
    made = bytearray(part)
    for _ in range(random_.choice((1, 1, 2, 3, 8))):
        if not made:
            break
        front, rest = made[:1024], made[1024:]
        which = front if random_.random() < 0.5 else made
        random_.choice((flip, flip, overwrite, drop, repeat, move, cut))(which, random_)
        made = front + rest if which is front else made
    return bytes(made)


def arguments(command, random_):
    words = {"CPU": random_.choice(("arm", "riscv")), "KIND": random_.choice(KINDS)}
    return [words.get(word, word) for word in command.split()]


def inputs_of(words, files):
    return [word for word in words if word in files]


def prepare(folder, words, files, random_):
    """A new folder with changed inputs of a command."""
    os.mkdir(folder)
    names = inputs_of(words, files)
    for name in names:
        source = random_.choice(list(files)) if random_.random() < 0.05 else name
        part = files[source]
        part = changed(part, random_) if random_.random() < 0.7 else part
        with open(os.path.join(folder, name), "wb") as file:
            file.write(part)


def run(program, words, folder):
    """The status, the text and the files of a run; the status is None where it did not end."""
    try:
        done = subprocess.run(
            [program, *words], cwd=folder, capture_output=True, timeout=LONGEST, check=False
        )
    except subprocess.TimeoutExpired:
        return None, b"", {}
    files = {}
    for name in sorted(os.listdir(folder)):
        with open(os.path.join(folder, name), "rb") as file:
            files[name] = file.read()
    return done.returncode, done.stdout, files


def fault_of(words, before, first, second):
    """What is wrong with two runs of a command, or None."""
    status, text, after = first
    if status is None:
        return "it did not end within ten seconds"
    if status not in STATUSES or (status == 3 and words[0] not in FALLS):
        return f"its status is {status}"
    if status > 7 and words[0] not in ("cuts", "check"):
        return f"its status is {status}"
    if status == 2 and not REFUSED.fullmatch(text):
        return "its refusal is not one line of the form"
    if not text.endswith(b"\n") or not text.isascii():
        return "its text is not of lines"
    outputs = {word for word in words if word.startswith("out.")}
    others = {name for name in after if name not in before and name not in outputs}
    if others or any(after.get(name) != before[name] for name in before):
        return "other files than its outputs have changed"
    if (status == 2) == bool(outputs & set(after)) and outputs:
        return "its outputs are not there, or there although it refused"
    return "a second run ends otherwise" if first != second else None


def main():
    if not 2 <= len(sys.argv) <= 4:
        sys.exit(__doc__)
    program = os.path.abspath(sys.argv[1])
    seconds = int(sys.argv[2]) if len(sys.argv) > 2 else QUARTER
    seed = int(sys.argv[3]) if len(sys.argv) > 3 else 2350
    random_ = random.Random(seed)
    right = wrong = 0
    with tempfile.TemporaryDirectory() as base:
        made = os.path.join(base, "made")
        subprocess.run([sys.executable, os.path.join(HERE, "examples.py"), program, made], check=True)
        files = {}
        for name in os.listdir(made):
            with open(os.path.join(made, name), "rb") as file:
                files[name] = file.read()
        end = time.monotonic() + seconds
        while time.monotonic() < end:
            words = arguments(random_.choice(COMMANDS), random_)
            first, second = os.path.join(base, "first"), os.path.join(base, "second")
            prepare(first, words, files, random_)
            shutil.copytree(first, second)
            before = {name: open(os.path.join(first, name), "rb").read() for name in os.listdir(first)}
            why = fault_of(words, before, run(program, words, first), run(program, words, second))
            shutil.rmtree(first)
            shutil.rmtree(second)
            if why is None:
                right += 1
                continue
            wrong += 1
            kept = tempfile.mkdtemp(prefix="fuzz-")
            for name, part in before.items():
                with open(os.path.join(kept, name), "wb") as file:
                    file.write(part)
            print(f"{' '.join(words)}: {why}; its inputs are in {kept}")
    print(f"{right} tries as wanted, {wrong} not")
    sys.exit(1 if wrong else 0)


main()
