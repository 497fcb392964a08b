#!/usr/bin/env python3
"""Makes each file call of each command fail in turn, and looks at what is left.

    faults_of_io.py PROGRAM

It runs the program under `strace -e inject` (Debian's package strace), on the files of
tools/examples.py. For each command it first lists the calls on its inputs, its outputs and standard
output. Then it runs the command once for each of these calls and each error, and compares

- the status: 4 for an input, 5 for an output, 6 for standard output; and the status of a run
  without a fault where a signal interrupts the call, since the call is made again;
- what is left: after 4 and 5 each output has its old bytes, or those of the finished file where it
  comes before the one that failed; after 6 each has its new bytes; and no other file is there.

The last line is `N faults as wanted, M not`, and the status is 0 where M is 0.
"""

import os
import re
import shutil
import subprocess
import sys
import tempfile

HERE = os.path.dirname(os.path.abspath(__file__))
OLD = b"the old bytes of an output\n"
ERRORS = {
    "openat": ("EIO", "EACCES", "EINTR"),
    "read": ("EIO", "EAGAIN", "EINTR"),
    "write": ("EIO", "ENOSPC", "EDQUOT", "EPIPE", "EAGAIN", "EINTR"),
    "fchmod": ("EIO", "EPERM", "EINTR"),
    "fsync": ("EIO", "ENOSPC", "EINTR"),
    "rename": ("EIO", "EACCES"),
    "statx": ("EIO",),
}
CALLS = ",".join(ERRORS)
# Each command with its arguments; those that begin with `out` are written.
COMMANDS = (
    "boot pair.bin otp.bin arm normal",
    "info pair.bin otp.bin arm",
    "data pair.bin otp.bin arm normal",
    "explain pair.bin otp.bin arm normal",
    "caveats pair.bin otp.bin arm normal",
    "map pair.bin otp.bin arm out.svg",
    "seal sdk.img spec.json out.img",
    "firm sealed.img arm",
    "table table.json out.bin",
    "otp otp.json out.bin",
    "uf2 sealed.img rp2350-arm-s out.uf2",
    "plan pair.bin otp.bin arm sealed.img out.script",
    "load pair.bin otp.bin arm sealed.img out.script",
    "copy sealed.uf2 out.script",
    "replay pair.bin otp.bin arm update.script out.flash out.otp",
    "cuts pair.bin otp.bin arm update.script pattern",
    "check pair.bin otp.bin arm update.script pattern",
    "check pair.bin otp.bin arm update.script pattern require.json",
    "sweep pair.bin otp.bin arm update.script pattern",
    "chart pair.bin otp.bin arm update.script pattern out.svg",
    "list update.script",
    "script update.text out.script",
    "gen 1",
    "--help",
)


class Call:
    """A file call of a run: its name, its number among the calls of that name, and its file."""

    def __init__(self, name, number, file):
        self.name = name
        self.number = number
        self.file = file


def outputs_of(command):
    return [word for word in command.split()[1:] if word.startswith("out.")]


def inputs_of(command, folder):
    words = command.split()[1:]
    return [it for it in words if os.path.exists(os.path.join(folder, it)) and "out." not in it]


def lines_of(log):
    with open(log, encoding="utf-8", errors="replace") as file:
        return file.read().splitlines()


def calls_of(log, inputs, outputs):
    """The calls of a run on its inputs, its outputs and standard output."""
    found, counts, open_files, beside = [], {}, {}, None
    for line in lines_of(log):
        match = re.match(r"(?:\d+ +)?(\w+)\((.*)\) += (\S+)", line)
        if not match:
            continue
        name, words, result = match.groups()
        counts[name] = counts.get(name, 0) + 1
        file = file_of(name, words, open_files, inputs, outputs)
        if name == "openat" and re.search(r'"\.dugnatsew-\d+"', words):
            beside = next_output(found, outputs)
            file = beside
        if name == "openat" and file and result.isdigit():
            open_files[result] = file
        if name == "rename" and ".dugnatsew-" in words:
            file = re.findall(r'"([^"]*)"', words)[1]
        if file:
            found.append(Call(name, counts[name], file))
    return found


def next_output(found, outputs):
    """The output whose new file is made: the first that has not taken its name."""
    done = [call.file for call in found if call.name == "rename"]
    return next(it for it in outputs if it not in done)


def file_of(name, words, open_files, inputs, outputs):
    """The file on which a call is, or None where it is of no interest."""
    if name in ("openat", "statx"):
        path = re.search(r'"([^"]*)"', words)
        known = path and path.group(1)
        return known if known in inputs or known in outputs else None
    if name in ("read", "write", "fsync", "fchmod"):
        number = words.split(",")[0].strip()
        if name == "write" and number == "1":
            return "standard output"
        return open_files.get(number)
    return None


def prepare(made, folder, command):
    """A new folder with the example files, and an old file for each output."""
    shutil.copytree(made, folder)
    for name in outputs_of(command):
        with open(os.path.join(folder, name), "wb") as file:
            file.write(OLD)


def run(program, command, folder, *words):
    """Runs a command under strace; its status and what it printed."""
    log = os.path.join(os.path.dirname(folder), "log")
    done = subprocess.run(
        ["strace", "-f", "-o", log, "-e", f"trace={CALLS}", *words, program, *command.split()],
        cwd=folder, capture_output=True, check=False,
    )
    return done.returncode, done.stdout, log


def contents(folder):
    found = {}
    for name in os.listdir(folder):
        with open(os.path.join(folder, name), "rb") as file:
            found[name] = file.read()
    return found


def wanted_of(call, error, outputs, normal):
    """The wanted status, and for each output whether it has its new bytes."""
    if error == "EINTR":
        return normal, [True] * len(outputs)
    if call.file == "standard output":
        return 6, [True] * len(outputs)
    if call.file in outputs:
        at = outputs.index(call.file)
        return 5, [i < at for i in range(len(outputs))]
    return 4, [False] * len(outputs)


def difference(call, error, outputs, normal, before, after, status, new):
    """What differs after a fault, or None."""
    wanted, are_new = wanted_of(call, error, outputs, normal)
    if status != wanted:
        return f"status {status}, wanted {wanted}"
    for name, is_new in zip(outputs, are_new):
        if after.get(name) != (new[name] if is_new else OLD):
            return f"{name} has other bytes than wanted"
    others = set(after) - set(before)
    return f"files are left: {sorted(others)}" if others else None


def try_command(program, made, base, command):
    """The number of faults of a command that ended as wanted, and of those that did not."""
    folder = os.path.join(base, "work")
    outputs = outputs_of(command)
    prepare(made, folder, command)
    before = contents(folder)
    inputs = inputs_of(command, folder)
    normal, _, log = run(program, command, folder)
    new = contents(folder)
    calls = calls_of(log, inputs, outputs)
    shutil.rmtree(folder)
    right = wrong = 0
    for call in calls:
        for error in ERRORS[call.name]:
            prepare(made, folder, command)
            words = ["-e", f"inject={call.name}:error={error}:when={call.number}"]
            status, _, _ = run(program, command, folder, *words)
            why = difference(
                call, error, outputs, normal, before, contents(folder), status, new
            )
            shutil.rmtree(folder)
            if why:
                wrong += 1
                print(f"{command}\n  {call.name} {call.number} on {call.file}, {error}: {why}")
            else:
                right += 1
    return right, wrong


def main():
    if len(sys.argv) != 2:
        sys.exit(__doc__)
    if not shutil.which("strace"):
        sys.exit("faults_of_io.py: there is no strace; it is a package of Debian's")
    program = os.path.abspath(sys.argv[1])
    right = wrong = 0
    with tempfile.TemporaryDirectory() as base:
        made = os.path.join(base, "made")
        subprocess.run([sys.executable, os.path.join(HERE, "examples.py"), program, made], check=True)
        for command in COMMANDS:
            good, bad = try_command(program, made, base, command)
            right, wrong = right + good, wrong + bad
    print(f"{right} faults as wanted, {wrong} not")
    sys.exit(1 if wrong else 0)


main()
