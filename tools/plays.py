#!/usr/bin/env python3
"""Counts how often a program plays a script: in cuts and in check, each event once.

    plays.py PROGRAM

A debugger counts the calls by which a machine takes an event, also the reset by which `cuts` and
`check` make a boot that a command asks for. `replay` prints a line for each event, so these lines
tell how many calls there have to be. It needs gdb, and a program with its symbols, as `make demo`
builds it.
"""
import os
import re
import shutil
import subprocess
import sys
import tempfile

# A machine takes an event by one of these, whatever its board is.
CALLS = re.compile(r"boot_machine::(stepping::advance|machine::Machine::answer)::<")


def addresses(program):
    """The offsets of the calls in the program, by the symbol's name."""
    table = subprocess.run(["nm", program], capture_output=True, text=True, check=True).stdout
    rows = [line.split(" ", 2) for line in table.splitlines()]
    return [int(row[0], 16) for row in rows if len(row) == 3 and CALLS.match(row[2])]


def script_of_gdb(offsets, run):
    """What the debugger is told: break at each call, count, and say the counts at the end."""
    lines = ["set pagination off", "set confirm off", "set disable-randomization on", "starti"]
    lines += ["python",
              "maps = open(f'/proc/{gdb.selected_inferior().pid}/maps').read()",
              f"base = int(next(l for l in maps.splitlines() if l.endswith({run[0]!r})).split('-')[0], 16)",
              f"for offset in {offsets}:",
              "    gdb.Breakpoint('*' + hex(base + offset)).ignore_count = 1000000000",
              "gdb.execute('continue')",
              "print('calls', sum(it.hit_count for it in gdb.breakpoints()))",
              "end"]
    return "\n".join(lines) + "\n"


def calls_of(offsets, run, folder):
    """How many events the machines of a run of the program take."""
    with tempfile.NamedTemporaryFile("w", suffix=".gdb", delete=False) as file:
        file.write(script_of_gdb(offsets, run))
    ran = subprocess.run(["gdb", "-batch", "-nx", "-x", file.name, "--args", *run],
                         cwd=folder, capture_output=True, text=True)
    os.unlink(file.name)
    found = re.search(r"^calls (\d+)$", ran.stdout, re.M)
    if not found:
        sys.exit(f"plays: no counts of {run[1]}:\n{ran.stdout[-500:]}{ran.stderr[-500:]}")
    return int(found[1])


def main(program):
    if not shutil.which("gdb"):
        print("plays: skipped, since gdb is not here")
        return 0
    if not os.path.isfile(program):
        sys.exit(f'plays: there is no {program}: "make demo" builds it')
    program = os.path.realpath(program)
    offsets = addresses(program)
    if not offsets:
        sys.exit(f"plays: {program} has no symbols of a machine's calls")
    here = os.path.dirname(os.path.abspath(__file__))
    with tempfile.TemporaryDirectory() as folder:
        subprocess.run([sys.executable, f"{here}/examples.py", program, folder], check=True,
                       stdout=subprocess.DEVNULL)
        given = ["pair.bin", "otp.bin", "arm", "update.script"]
        told = subprocess.run([program, "replay", *given, "after.bin", "after.otp"], cwd=folder,
                              capture_output=True, text=True, check=True).stdout
        events = re.findall(r"^\d+ (\w+)(.*)$", told, re.M)
        asked = [it for it, rest in events if it in ("cmd", "uf2") and " boot " in rest]
        counts = {it: calls_of(offsets, [program, it, *given, "pattern"], folder)
                  for it in ("cuts", "check")}
    wanted = len(events) + len(asked)
    print(f"{len(events)} events, of which {len(asked)} ask for a boot")
    for name, count in counts.items():
        print(f"{name}: {count} calls")
    wrong = [it for it, count in counts.items() if count != wanted]
    print(f"plays: {'each plays the script once' if not wrong else 'not once: ' + ' '.join(wrong)}")
    return 1 if wrong else 0


if __name__ == "__main__":
    sys.exit(main(*sys.argv[1:]))
