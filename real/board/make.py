#!/usr/bin/env python3
"""Makes the files of the cases, and the sheet.

    make.py FOLDER                     writes the files
    make.py FOLDER PROGRAM             and prints the sheet with what the program answers
    make.py FOLDER PROGRAM SHEET       and compares it with this sheet

Each case is a file CASE.bin of FOLDER: the first bytes of a flash, the rest of which is erased. A
case of a drag has CASE.uf2 besides. PROGRAM is dugnatsew, by its path or by its name; it is asked on
a flash of 512 KiB.

The sheet has a line for each case: its name, the rule that it tries, the kind of boot, the program's
answer, what the chip does from memory and how sure, whether the two are known to part, and an empty
column for a board. The answer is the number of the image that starts, or `bootsel` with the faults of
the windows. Of a drag it says too whether the flash's last sector is kept.
"""

import os
import shutil
import subprocess
import sys
import tempfile

HERE = os.path.dirname(os.path.abspath(__file__))
sys.path.insert(0, HERE)

from cases import all_cases  # noqa: E402
from contents import END_MARK, FLASH, PROBE, RISCV_PROBE, SECTOR, number_of  # noqa: E402
from fake import path_of  # noqa: E402

HEAD = (
    "case", "rule", "boot", "model", "chip from memory", "sure", "surest divergences", "board",
)
ASSEMBLERS = (
    ("arm-none-eabi", "probe.S", (), PROBE),
    ("riscv64-unknown-elf", "probe_riscv.S", ("-march=rv32imac", "-mabi=ilp32"), RISCV_PROBE),
)


class Model:
    """The program, in a folder with a flash and an empty OTP."""

    def __init__(self, program, folder):
        self.program = path_of(program)
        self.folder = folder

    def path(self, name):
        return os.path.join(self.folder, name)

    def put(self, **files):
        for name, content in files.items():
            with open(self.path(name), "wb") as file:
                file.write(content)

    def run(self, *arguments):
        done = subprocess.run(
            [self.program, *arguments], cwd=self.folder, capture_output=True, text=True, check=False
        )
        return done.stdout

    def boot(self, flash, kind):
        """The number of the image that starts, or `bootsel` with the faults."""
        self.put(flash=flash, otp=b"")
        number = number_of(self.run("boot", "flash", "otp", "arm", kind), flash)
        if number:
            return str(number)
        lines = self.run("info", "flash", "otp", "arm").splitlines()
        return f"bootsel ({', '.join(it.split('fault=')[1] for it in lines if 'fault=' in it)})"

    def drag(self, flash, file):
        """The number of the image that starts after a drag, and what is left of the last sector."""
        self.put(flash=flash[:-SECTOR] + END_MARK, otp=b"", uf2=file)
        self.run("copy", "uf2", "script")
        text = self.run("replay", "flash", "otp", "arm", "script", "flash", "otp")
        boots = [line for line in text.splitlines() if " boot start " in line]
        with open(self.path("flash"), "rb") as left:
            after = left.read()
        number = number_of(boots[-1], after) if boots else 0
        end = "kept" if after[-SECTOR:] == END_MARK else "erased"
        return f"{number or 'bootsel'}, end {end}"

    def answer(self, case):
        flash = case.content.ljust(FLASH, b"\xff")
        return self.drag(flash, case.file) if case.kind == "drag" else self.boot(flash, case.kind)


def divergence(case, model):
    """What is said of a case in which the chip is known, likely or certainly, to do otherwise."""
    is_sure = case.sure.startswith(("certain", "likely"))
    if not is_sure or case.chip in ("?", model.split(" (")[0]):
        return ""
    return f"model {model.split(' (')[0]}; chip {case.chip}"


def sheet(program):
    """The lines of the sheet."""
    lines = ["\t".join(HEAD)]
    with tempfile.TemporaryDirectory() as folder:
        model = Model(program, folder)
        for case in all_cases():
            says = model.answer(case)
            row = (case.name, case.rule, case.kind, says, case.chip, case.sure)
            lines.append("\t".join((*row, divergence(case, says), "")))
    return lines


def assembled(tools, source, options):
    """The code that an assembler makes of a probe, up to its number."""
    with tempfile.TemporaryDirectory() as folder:
        made, code = os.path.join(folder, "probe.elf"), os.path.join(folder, "probe.bin")
        link = ("-nostdlib", "-Wl,-Ttext=0", "-Wl,-e,0", "-Wl,--build-id=none")
        source = os.path.join(HERE, source)
        subprocess.run([f"{tools}-gcc", *options, *link, source, "-o", made], check=True)
        subprocess.run([f"{tools}-objcopy", "-O", "binary", "-j", ".text", made, code], check=True)
        with open(code, "rb") as file:
            return file.read()[:-4]


def check_probes():
    """Compares the probes' code with that of their sources, where an assembler is there."""
    for tools, source, options, code in ASSEMBLERS:
        if not shutil.which(f"{tools}-gcc"):
            print(f"The code of {source} is not compared: there is no {tools}-gcc")
        elif assembled(tools, source, options) != code:
            sys.exit(f"contents.py has other code than {source}")


def write_files(folder):
    os.makedirs(folder, exist_ok=True)
    for case in all_cases():
        for ending, content in (("bin", case.content), ("uf2", case.file)):
            if content:
                with open(os.path.join(folder, f"{case.name}.{ending}"), "wb") as file:
                    file.write(content)


def compare(lines, path):
    """Prints the lines of a sheet that differ; how many there are."""
    with open(path, encoding="utf-8") as file:
        there = file.read().splitlines()
    longer = range(max(len(there), len(lines)))
    differ = [it for it in longer if there[it:it + 1] != lines[it:it + 1]]
    for at in differ:
        print(f"{path}:{at + 1}\n  there  {there[at:at + 1]}\n  made   {lines[at:at + 1]}")
    print(f"{len(lines) - 1} cases, {len(differ)} lines of the sheet differ")
    return len(differ)


def main():
    if not 2 <= len(sys.argv) <= 4:
        sys.exit(__doc__)
    write_files(sys.argv[1])
    if len(sys.argv) == 2:
        print(f"{len(all_cases())} cases")
        return
    lines = sheet(sys.argv[2])
    if len(sys.argv) == 3:
        print("\n".join(lines))
        return
    check_probes()
    sys.exit(1 if compare(lines, sys.argv[3]) else 0)


main()
