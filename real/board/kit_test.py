#!/usr/bin/env python3
"""Tries play.py on a program in a board's place that fails in each way a board may.

    kit_test.py PROGRAM

Seven cases are played. The link is the one of fake.py, which takes the bytes of PICOBOOT commands,
so all but usb_link.py and the probes is what a board would see. One test runs usb_link.py on a
stand-in for pyusb; that says nothing of a board.
"""

import contextlib
import io
import os
import sys
import tempfile
import unittest

HERE = os.path.dirname(os.path.abspath(__file__))
sys.path.insert(0, HERE)

import cases  # noqa: E402
import fake  # noqa: E402
import fake_usb  # noqa: E402
import picoboot  # noqa: E402
import play  # noqa: E402
from contents import REACH, SECTOR  # noqa: E402
from picoboot import Board, NoBoard  # noqa: E402

NAMES = (
    "minimal", "erased", "wrong-digest", "table", "partition-in-slot-1", "no-secure-read",
    "riscv-alone",
)
PROGRAM = os.path.abspath(sys.argv.pop(1)) if len(sys.argv) == 2 else sys.exit(__doc__)
ANSWERS = ["1", "bootsel", "bootsel", "1", "bootsel", "1", "bootsel"]


def some_cases(names=NAMES):
    return [it for it in cases.all_cases() if it.name in names]


class KitTest(unittest.TestCase):
    def setUp(self):
        folder = tempfile.TemporaryDirectory()
        self.addCleanup(folder.cleanup)
        self.out = os.path.join(folder.name, "sheet.out")
        self.link = fake.FakeLink(PROGRAM)
        self.said = io.StringIO()

    def play(self, names=NAMES):
        """Plays some cases; what the board did in each."""
        run = play.Run(play.SHEET, self.out)
        with contextlib.redirect_stdout(self.said):
            run.play(Board(self.link), some_cases(names))
        return self.got()

    def got(self):
        _, *rows = play.rows_of(self.out)
        return [row[play.BOARD] for row in rows]

    def rows(self):
        _, *rows = play.rows_of(self.out)
        return {row[0]: row for row in rows}

    def test_plain_run(self):
        self.assertEqual(self.play(), ANSWERS)
        self.assertEqual(self.said.getvalue(), "")

    def test_flash_and_table_are_erased_at_the_end(self):
        self.play(("minimal", "no-secure-read"))
        self.assertEqual(bytes(self.link.flash[:REACH]), b"\xff" * REACH)
        self.assertEqual(bytes(self.link.flash[-SECTOR:]), b"\xff" * SECTOR)
        self.assertEqual(self.link.log[-1], ("reboot", 2, 0))

    def test_partition_is_told(self):
        self.play(("minimal", "table"))
        self.assertEqual(self.rows()["table"][play.BOARD + 1], "partition 0")
        self.assertEqual(self.rows()["minimal"][play.BOARD + 1], "not told")

    def test_hang_is_caught_and_the_run_goes_on(self):
        self.link.hangs = {3}
        self.assertEqual(self.play(), [*ANSWERS[:2], "hang", *ANSWERS[3:]])
        self.assertEqual(self.link.replugs, 1)
        self.assertIn("wrong-digest: the board hangs. Hold BOOTSEL", self.said.getvalue())

    def test_risky_cases_are_last(self):
        names = [it.name for it in cases.all_cases()]
        self.assertEqual(names[0], cases.PLAINEST)
        self.assertEqual(set(names[-len(cases.RISKY):]), set(cases.RISKY))
        _, *rows = play.rows_of(play.SHEET)
        self.assertEqual([row[0] for row in rows], names)

    def test_refused_erase_drops_the_table_and_goes_on(self):
        self.link.refuses_erase = {5}  # the first one of the third case
        self.assertEqual(self.play(), ANSWERS)
        at = self.link.log.index(("erase", 0, SECTOR))
        self.assertEqual(self.link.log[at - 1:at + 5], [
            ("erase", 0, REACH), ("erase", 0, SECTOR), ("reboot", 2, 0),
            ("erase", SECTOR, SECTOR), ("reboot", 2, 0), ("erase", 0, REACH),
        ])
        self.assertEqual(self.link.resets, 1)

    def test_stall_is_ended_by_a_reset_and_the_case_played_again(self):
        self.link.stalls = {4}  # the write of the first case
        self.assertEqual(self.play(), ANSWERS)
        self.assertEqual(self.link.resets, 1)
        self.assertIn("minimal: command 0x05 has status 99", self.said.getvalue())

    def test_a_board_that_always_refuses_stops_the_run(self):
        self.link.stalls = set(range(2, 1000))
        with self.assertRaises(play.Stopped):
            self.play()

    def test_run_that_is_stopped_goes_on_where_it_was(self):
        self.link.stops = {4}
        with self.assertRaises(KeyboardInterrupt):
            self.play()
        self.assertEqual(self.got(), ANSWERS[:3])
        boots = self.link.boots
        self.assertEqual(self.play(), ANSWERS)
        self.assertEqual(self.link.boots - boots, len(NAMES) - 3)

    def test_hang_without_a_replug_can_be_resumed(self):
        self.link.hangs = {2}
        self.link.wait_for_replug = lambda _: False
        with self.assertRaises(NoBoard):
            self.play()
        self.assertEqual(self.got(), [*ANSWERS[:1], "hang"])
        self.link = fake.FakeLink(PROGRAM)
        self.assertEqual(self.play(), [*ANSWERS[:1], "hang", *ANSWERS[2:]])

    def test_last_line_that_is_not_whole_is_played_again(self):
        self.play(NAMES[:3])
        with open(self.out, encoding="utf-8") as file:
            text = file.read()
        with open(self.out, "w", encoding="utf-8") as file:
            file.write(text[:-5])
        self.assertEqual(self.play(), ANSWERS)

    def test_sheet_of_other_cases_is_refused(self):
        with open(self.out, "w", encoding="utf-8") as file:
            file.write("another\tfile\n")
        with self.assertRaises(play.Stopped):
            self.play()

    def test_run_stops_where_the_plainest_case_does_not_start(self):
        for tell in ("hang", "bootsel"):
            self.link.hangs = {1} if tell == "hang" else set()
            self.link.boots = 0
            self.link.tell = lambda *_: None
            with self.assertRaises(play.Stopped) as stopped:
                self.play()
            self.assertIn(f"does not start ({tell})", str(stopped.exception))
            self.assertFalse(os.path.exists(self.out))

    def test_drag(self):
        names = ("minimal", "drag-with-absolute-block")
        self.assertEqual(self.play(names), ["1", "1, end kept"])

    def test_usb_link_runs_on_a_stand_in_for_pyusb(self):
        fake_usb.put_in_place(self.link)
        from usb_link import UsbLink

        self.addCleanup(setattr, picoboot, "HANG_SECONDS", picoboot.HANG_SECONDS)
        picoboot.HANG_SECONDS = 0.3
        board = self.link
        board.hangs, board.stalls, board.awaited = {3}, {4}, 3
        self.link = UsbLink()
        names = (*NAMES[:4], "drag-with-absolute-block")
        self.assertEqual(self.play(names), ["1", "bootsel", "hang", "1", "1, end kept"])
        self.assertEqual(board.replugs, 1)
        self.assertIn("minimal: command 0x05 has status 99", self.said.getvalue())


if __name__ == "__main__":
    unittest.main()
