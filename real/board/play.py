#!/usr/bin/env python3
"""Plays the cases on a board, and writes a sheet with what the board did.

    play.py OUT                       on a board in BOOTSEL, over USB (needs pyusb)
    play.py --program PROGRAM OUT     on another implementation, by its command line
    play.py --fake PROGRAM OUT        the same on dugnatsew itself, to try this script

THE PART THAT SPEAKS USB (usb_link.py) IS UNTRIED, and so are the programs of the images: they were
written from memory of picotool's and the SDK's headers, and no board was at hand. Everything else is
tried by kit_test.py on a program in a board's place. Nothing is written to the OTP.

For each case: erase what former cases wrote, write the content, reboot as the case asks or drag its
file, wait until the board is back in BOOTSEL, and ask for its boot information. An image that starts
reboots there and hands its number over; a boot without an image falls there. A board that does not
come back has a hang: it is asked for a replug, and the run goes on. Where the plainest case does not
start the run stops. At the end all that was written is erased.

OUT has a line for each case that was played. Where it is there already, the run goes on behind them.
The last line is `N cases: M as the model, K otherwise`. The status is 0 where K is 0, 1 where it is
not, and 2 where the run stopped.
"""

import os
import sys

HERE = os.path.dirname(os.path.abspath(__file__))
sys.path.insert(0, HERE)

from cases import PLAINEST, all_cases  # noqa: E402
from contents import END_MARK, PAGE, REACH, SECTOR  # noqa: E402
from fake import FakeLink  # noqa: E402
from picoboot import (  # noqa: E402
    BOOTSEL, LAST_SECTOR, NORMAL, UPDATE, Board, Hang, NoBoard, Refused,
)

SHEET = os.path.join(HERE, "sheet.tsv")
MOST_NUMBER = 9
ATTEMPTS = 2
COLUMNS = ("partition", "boot information", "flash afterwards")
PARTITIONS = {0xFF: "none", 0xFE: "slot 0", 0xFD: "slot 1", 0xFC: "window", 0x7F: "not told"}
MODEL, MEMORY, BOARD = 3, 4, 7  # columns of the sheet


class Stopped(Exception):
    """The run can't go on."""


def written(content):
    """A content in whole pages."""
    return content.ljust(-(-len(content) // PAGE) * PAGE, b"\xff")


def changed(board, content):
    """The sectors that the boot itself has changed."""
    after, before = board.read(0, REACH), content.ljust(REACH, b"\xff")
    sectors = range(0, REACH, SECTOR)
    return [it for it in sectors if after[it:it + SECTOR] != before[it:it + SECTOR]]


def start(board, case):
    """Boots the board as the case asks."""
    if case.kind == "drag":
        board.write(LAST_SECTOR, END_MARK)
        board.reboot(BOOTSEL)
        board.drag(case.file)
    elif case.kind == "normal":
        board.reboot(NORMAL)
    else:
        board.reboot(UPDATE, int(case.kind.split("=")[1], 16))


def boot(board, case):
    """What a boot of the case did: what started, from which partition, and the information."""
    try:
        start(board, case)
    except Hang:
        return "hang", "", ""
    information = board.boot_information()
    number, partition = information[3] & 0xFF, information[3] >> 8 & 0xFF
    told = " ".join(f"0x{it:08x}" for it in information)
    if not 1 <= number <= MOST_NUMBER:
        return "bootsel", "", told
    where = f"partition {partition}" if partition < 16 else PARTITIONS.get(partition, "not told")
    return str(number), where, told


def play_once(board, case):
    """The columns of a case: what the board did, and what the boot has written."""
    content = written(case.content)
    board.clear()
    board.write(0, content)
    got, where, information = boot(board, case)
    if got == "hang":
        return "hang", "", "", ""
    if case.kind == "drag":
        is_kept = board.read(LAST_SECTOR, SECTOR) == END_MARK
        return f"{got}, end {'kept' if is_kept else 'erased'}", where, information, ""
    sectors = changed(board, content)
    flash = "changed " + " ".join(f"0x{it:08x}" for it in sectors) if sectors else "kept"
    return got, where, information, flash


def play(board, case):
    """The same, with a second attempt without a table where the board refuses a command."""
    for attempt in range(1, ATTEMPTS + 1):
        try:
            if attempt > 1:
                board.drop_table()
            return play_once(board, case)
        except Refused as refused:
            print(f"{case.name}: {refused}", flush=True)
            if attempt == ATTEMPTS:
                raise Stopped(f"{case.name}: the board refuses it again") from refused
        except Hang as hang:
            raise Stopped(f"{case.name}: {hang}") from hang
    return None


def is_otherwise(row):
    """Whether the board did otherwise than the model."""
    return row[BOARD] != row[MODEL].split(" (")[0]


def rows_of(path):
    """The head and the rows of a sheet. A last line that is not whole is left out."""
    with open(path, encoding="utf-8") as file:
        lines = file.read().split("\n")[:-1]
    return [line.split("\t") for line in lines]


class Run:
    """A run: the sheet, and the file that its rows go to."""

    def __init__(self, sheet, out):
        head, *rows = rows_of(sheet)
        self.head = [*head, *COLUMNS]
        self.rows = {row[0]: row for row in rows}
        self.out = out
        self.done = self.former()

    def former(self):
        """The rows of a run that was stopped."""
        if not os.path.exists(self.out):
            return []
        head, *rows = rows_of(self.out) or [self.head]
        if head != self.head or any(row[0] not in self.rows for row in rows):
            raise Stopped(f"{self.out} is no sheet of these cases: name another file")
        return rows

    def keep(self, row):
        """Writes the rows so far, so that a run that stops can be resumed."""
        self.done.append(row)
        with open(f"{self.out}.new", "w", encoding="utf-8") as file:
            file.writelines("\t".join(it) + "\n" for it in [self.head, *self.done])
        os.replace(f"{self.out}.new", self.out)

    def left(self, cases):
        names = {row[0] for row in self.done}
        return [it for it in cases if it.name not in names]

    def play_case(self, board, case):
        row = self.rows[case.name]
        got, *rest = play(board, case)
        row = [*row[:BOARD], got, *rest]
        if case.name == PLAINEST and is_otherwise(row):
            raise Stopped(
                f"the plainest image does not start ({got}), so no other case can tell anything"
            )
        self.keep(row)
        if got == "hang":
            print(f"{case.name}: the board hangs. Hold BOOTSEL, and plug it in again.", flush=True)
            board.wait_for_replug()
        elif is_otherwise(row):
            says = f"the model says {row[MODEL]}, the board {got}; from memory {row[MEMORY]}"
            print(f"{case.name}: {says}")

    def play(self, board, cases):
        for case in self.left(cases):
            self.play_case(board, case)
        board.clear()
        board.reboot(BOOTSEL)

    def total(self):
        """Tells the last line, and whether all cases are as the model."""
        otherwise = sum(is_otherwise(row) for row in self.done)
        count = len(self.done)
        print(f"{count} cases: {count - otherwise} as the model, {otherwise} otherwise")
        return otherwise == 0


def usb_link():
    try:
        from usb_link import UsbLink
    except ImportError as error:
        raise Stopped("there is no pyusb: it is Debian's package python3-usb") from error
    return UsbLink()


def link_of(words_):
    """The link that the words name, the cases that it can play, and where the sheet goes."""
    if words_[:1] in (["--program"], ["--fake"]) and len(words_) == 3:
        is_other = words_[0] == "--program"
        cases = [it for it in all_cases() if not (is_other and it.kind == "drag")]
        return FakeLink(words_[1]), cases, words_[2]
    if len(words_) == 1 and not words_[0].startswith("-"):
        return usb_link(), all_cases(), words_[0]
    return sys.exit(__doc__)


def main():
    try:
        link, cases, out = link_of(sys.argv[1:])
        run = Run(SHEET, out)
        run.play(Board(link), cases)
        sys.exit(0 if run.total() else 1)
    except (Stopped, NoBoard, Refused, Hang) as stopped:
        print(f"Stopped: {stopped}. Plug the board in with BOOTSEL held; the same command goes on "
              "from here.", file=sys.stderr)
        sys.exit(2)
    except KeyboardInterrupt:
        print("Stopped. The same command goes on from here.", file=sys.stderr)
        sys.exit(2)


if __name__ == "__main__":
    main()
