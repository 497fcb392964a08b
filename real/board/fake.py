"""A program in a board's place: a link that takes the bytes of PICOBOOT commands as a board does.

It decides each boot by `PROGRAM boot FLASH OTP arm KIND`. A drag is played by the program's `copy`
and `replay`; a program without them plays no drag. `refuses_erase`, `stalls`, `hangs` and `stops`
make it fail: each is a set of counts, from 1, of erases, commands, boots and boots.
"""

import os
import shutil
import struct
import subprocess
import tempfile

from contents import FLASH, FLASH_START, PAGE, SECTOR, number_of, words
from picoboot import BOOTSEL, ERASE, EXCLUSIVE, INFO, MAGIC, NORMAL, READ, REBOOT, Stall, WRITE

DONE, NOT_PERMITTED, UNKNOWN = 0, 10, 99
NO_PARTITION = 0x7F


def path_of(program):
    """The whole path of a program that is named by its path, or by a name that is on PATH."""
    return os.path.abspath(shutil.which(program) or program)


class FakeLink:
    def __init__(self, program):
        self.program = path_of(program)
        self.flash = bytearray(b"\xff" * FLASH)
        self.information = (0, 0, 0, 0)
        self.refuses_erase, self.stalls, self.hangs, self.stops = set(), set(), set(), set()
        self.erases = self.commands = self.boots = self.resets = self.replugs = 0
        self.log = []
        self.pending, self.answer, self.code = None, b"", DONE
        self.is_stalled = self.has_table_in_memory = self.is_hung = False

    def write(self, data):
        if self.is_stalled:
            raise Stall
        if self.pending:
            (number, arguments), self.pending = self.pending, None
            self.serve(number, arguments, data)
        elif data:
            self.begin(data)

    def begin(self, data):
        assert len(data) == 32 and struct.unpack_from("<I", data)[0] == MAGIC
        number, size, length = data[8], data[9], struct.unpack_from("<I", data, 12)[0]
        arguments = data[16:16 + size]
        self.commands += 1
        if self.commands in self.stalls:
            self.stall(UNKNOWN)
        if length and not number & 0x80:
            self.pending = (number, arguments)
        else:
            self.serve(number, arguments, b"")

    def stall(self, code):
        self.is_stalled, self.code, self.pending = True, code, None
        raise Stall

    def read(self, length):
        if self.is_stalled:
            raise Stall
        answer, self.answer = self.answer, b""
        return answer[:length]

    def status(self):
        return self.code

    def reset(self):
        self.resets += 1
        self.is_stalled, self.pending, self.code = False, None, DONE

    def serve(self, number, arguments, data):
        fields = struct.unpack(f"<{len(arguments) // 4}I", arguments[:len(arguments) // 4 * 4])
        if number == EXCLUSIVE:
            return
        if number == REBOOT:
            self.boot(*fields[0:3:2])
        elif number == INFO:
            self.answer = words(5, 0x40, *self.information).ljust(PAGE, b"\0")
        else:
            at = (fields[0] - FLASH_START) % FLASH
            {ERASE: self.erase, READ: self.load, WRITE: self.store}[number](at, fields[1], data)

    def erase(self, at, size, _):
        self.erases += 1
        self.log.append(("erase", at, size))
        if self.erases in self.refuses_erase:
            self.has_table_in_memory = True
        if self.has_table_in_memory and size > SECTOR:
            self.stall(NOT_PERMITTED)
        self.flash[at:at + size] = b"\xff" * size

    def load(self, at, size, _):
        self.answer = bytes(self.flash[at:at + size])

    def store(self, at, _, data):
        for place, byte in enumerate(data, at):
            self.flash[place] &= byte

    def boot(self, kind, base):
        """A reboot of a kind: the program decides, and an image that starts tells its number."""
        self.log.append(("reboot", kind, base))
        self.has_table_in_memory = False
        if kind == BOOTSEL:
            self.information = (0, 0, 0, 0)
            return
        self.count_boot()
        asked = "normal" if kind == NORMAL else f"update=0x{base:08x}"
        with tempfile.TemporaryDirectory() as folder:
            self.put(folder)
            self.tell(folder, self.run(folder, "boot", "flash", "otp", "arm", asked))

    def count_boot(self):
        self.boots += 1
        if self.boots in self.stops:
            raise KeyboardInterrupt
        self.is_hung = self.boots in self.hangs

    def put(self, folder):
        for name, content in (("flash", self.flash), ("otp", b"")):
            with open(os.path.join(folder, name), "wb") as file:
                file.write(content)

    def run(self, folder, *arguments):
        ran = subprocess.run(
            [self.program, *arguments], cwd=folder, capture_output=True, text=True, check=False
        )
        return ran.stdout

    def tell(self, folder, text):
        """Keeps what the image that starts would tell: its number, and its partition."""
        number = number_of(text, self.flash)
        where = text.split("window=")[1].split()[0] if number else ""
        parts = self.run(folder, "info", "flash", "otp", "arm").splitlines() if number else []
        is_in_table = bool(parts) and parts[0].startswith("table slot=")
        windows = [line.split("window=")[1].split()[0] for line in parts[1:] if "window=" in line]
        partition = windows.index(where) if is_in_table and where in windows else NO_PARTITION
        self.information = (0, 0, 0, number | partition << 8 if number else 0)

    def drag(self, blocks):
        self.count_boot()
        with tempfile.TemporaryDirectory() as folder:
            self.put(folder)
            with open(os.path.join(folder, "uf2"), "wb") as file:
                file.write(blocks)
            self.run(folder, "copy", "uf2", "script")
            text = self.run(folder, "replay", "flash", "otp", "arm", "script", "flash", "otp")
            with open(os.path.join(folder, "flash"), "rb") as file:
                self.flash[:] = file.read()
            boots = [line for line in text.splitlines() if " boot start " in line]
            self.tell(folder, boots[-1] if boots else "")

    def comes_back(self, _):
        return not self.is_hung

    def wait_for_replug(self, _):
        self.replugs += 1
        self.is_hung, self.information, self.has_table_in_memory = False, (0, 0, 0, 0), False
        return True
