"""A board in BOOTSEL, by the commands of PICOBOOT over a link.

A link is a board over USB (usb_link.py) or a program in a board's place (fake.py). It has

    write(data), read(length)   a bulk transfer out or in; Stall where the board refuses it
    status()                    the status of the last command, after a stall
    reset()                     an interface reset, which ends a stall
    drag(blocks)                the blocks of a UF2 file onto the drive
    comes_back(seconds)         whether the board is in BOOTSEL again after a reboot
    wait_for_replug(seconds)    the same, after somebody was asked to plug it in
"""

import struct

from contents import FLASH_START, PAGE, REACH, SECTOR, words

MAGIC = 0x431FD10B
EXCLUSIVE, ERASE, WRITE, REBOOT, READ, INFO = 0x01, 0x03, 0x05, 0x0A, 0x84, 0x8B
NORMAL, BOOTSEL, UPDATE = 0, 2, 4  # kinds of a reboot
LAST_SECTOR = (16 << 20) - SECTOR  # of a flash of any size: a smaller part drops the high bits
HANG_SECONDS, REPLUG_SECONDS = 10, 600


class Stall(Exception):
    """The board refuses a transfer."""


class Refused(Exception):
    """A command that the board refuses, with its status."""


class Hang(Exception):
    """The board does not come back to BOOTSEL."""


class NoBoard(Exception):
    """There is no board in BOOTSEL."""


def command(number, arguments, length, token):
    head = words(MAGIC, token) + bytes((number, len(arguments), 0, 0)) + words(length)
    return head + arguments.ljust(16, b"\0")


class Board:
    def __init__(self, link):
        self.link = link
        self.token = 0
        self.take()

    def take(self):
        """Takes the board for itself, after it has come to BOOTSEL."""
        self.send(EXCLUSIVE, b"\1")

    def send(self, number, arguments, length=0, data=b""):
        """Sends a command and what follows it; what the board answers."""
        self.token += 1
        try:
            return self.transfer(number, arguments, length, data)
        except Stall:
            status = self.link.status()
            self.link.reset()
            raise Refused(f"command 0x{number:02x} has status {status}") from None

    def transfer(self, number, arguments, length, data):
        self.link.write(command(number, arguments, length, self.token))
        if number & 0x80:
            answer = self.link.read(length)
            self.link.write(b"")
            return answer
        if data:
            self.link.write(data)
        try:
            self.link.read(0)
        except Stall:
            if number != REBOOT:
                raise
        return b""

    def erase(self, at, size):
        """Erases sectors. Where a table forbids it, the table goes first."""
        try:
            self.send(ERASE, words(FLASH_START + at, size))
        except Refused:
            self.drop_table()
            self.send(ERASE, words(FLASH_START + at, size))

    def drop_table(self):
        """Erases sector 0, and then sector 1, and reboots, so that no table counts any more."""
        self.send(ERASE, words(FLASH_START, SECTOR))
        self.reboot(BOOTSEL)
        self.send(ERASE, words(FLASH_START + SECTOR, SECTOR))
        self.reboot(BOOTSEL)

    def write(self, at, data):
        for begin in range(0, len(data), SECTOR):
            piece = data[begin:begin + SECTOR]
            self.send(WRITE, words(FLASH_START + at + begin, len(piece)), len(piece), piece)

    def read(self, at, size):
        return b"".join(
            self.send(READ, words(FLASH_START + at + begin, SECTOR), SECTOR)
            for begin in range(0, size, SECTOR)
        )

    def reboot(self, kind, base=0):
        self.send(REBOOT, words(kind, 100, base, 0))
        self.come_back()

    def drag(self, blocks):
        try:
            self.link.drag(blocks)
        except Stall:
            self.link.reset()
            raise Refused("the drive refuses a block") from None
        self.come_back()

    def come_back(self):
        if not self.link.comes_back(HANG_SECONDS):
            raise Hang("the board does not come back to BOOTSEL")
        self.take()

    def wait_for_replug(self):
        if not self.link.wait_for_replug(REPLUG_SECONDS):
            raise NoBoard("the board was not plugged in again")
        self.take()

    def boot_information(self):
        """The four words of the last boot: what it was, what was looked at, and two parameters."""
        answer = self.send(INFO, bytes((1, 0, 0, 0)) + words(0x40, 0, 0), PAGE)
        return struct.unpack_from("<6I", answer)[2:]

    def clear(self):
        """Erases what the cases write, and any table with it."""
        self.erase(0, REACH)
        self.erase(LAST_SECTOR, SECTOR)
