#!/usr/bin/env python3
"""Tries tools/record.py on captures that are made here, by the formats of usbmon and of USBPcap.

    record_test.py [PROGRAM]

Each capture is a pcapng file that tshark reads. With PROGRAM each text is made a script too. The last
line is `N captures as wanted, M not`.
"""

import os
import shutil
import struct
import subprocess
import sys
import tempfile

HERE = os.path.dirname(os.path.abspath(__file__))
USBMON, USBPCAP = 220, 249  # the link types
BULK = 3
MAGIC = 0x431FD10B
FLASH = 0x10000000
CUT = 2000  # bytes, of which the last write has more
DATA = bytes(at % 251 for at in range(4096))
PICOBOOT, DRIVE = 0x03, 0x02  # endpoints out


def words(*values):
    return struct.pack(f"<{len(values)}I", *values)


def command(number, arguments, length, token):
    head = words(MAGIC, token) + bytes((number, len(arguments), 0, 0)) + words(length)
    return head + arguments.ljust(16, b"\0")


def reboot(flags, base=0):
    return command(0x0A, words(flags, 10, base, 0), 0, 3)


def block(number, count):
    head = words(0x0A324655, 0x9E5D5157, 0x2000, FLASH + 256 * number, 256, number, count, 0xE48BFF59)
    return (head + bytes([number]) * 256).ljust(508, b"\0") + words(0x0AB16F30)


def wrapper(place, size):
    scsi = struct.pack(">BBIBHB", 0x2A, 0, place, 0, size // 512, 0).ljust(16, b"\0")
    return b"USBC" + words(place, size) + bytes((0, 0, 10)) + scsi


ERASE = command(0x03, words(FLASH, 4096), 0, 1)
WRITE = command(0x05, words(FLASH, 4096), 4096, 2)
LAST = command(0x05, words(FLASH + 4096, 4096), 4096, 2)
READ = command(0x84, words(FLASH, 256), 256, 1)
NORMAL, TO_BOOTSEL = reboot(0x100), reboot(0x102)
UPDATE, TO_ARM = reboot(4, FLASH + 0x20000), reboot(0x14, FLASH)
BLOCKS = [block(at, 3) for at in range(3)]
SECTORS = b"".join(BLOCKS)


ANEW = "reset bootsel"

# The lines of those records. The recorded reboots have a delay, which no words have.
ERASES = "erase 0x10000000+0x00001000"
WRITES = "write 0x10000000 " + DATA.hex()
READS = "read 0x10000000+0x00000100"
LASTS = "write 0x10001000 " + DATA.hex()
PART = ("command 0bd11f4302000000050800000010000000000010001000000000000000000000 "
        + DATA[:4000].hex())
NORMALS, TO_BOOTSELS, UPDATES, TO_ARMS = (
    "command 0bd11f43030000000a10000000000000" + it + "0a000000" + base + "00000000"
    for it, base in (("00010000", "00000000"), ("02010000", "00000000"), ("04000000", "00000210"),
                     ("14000000", "00000010"))
)


def uf2(number):
    return f"uf2 {number} of 3 at 0x10000{number}00 family=rp2350-arm-s " + f"{number:02x}" * 256


# What is sent and received: device, endpoint, bytes.
SESSION = (
    (5, PICOBOOT, ERASE), (5, 0x84, b""), (5, PICOBOOT, WRITE),
    (9, 0x02, b"another device"), (5, PICOBOOT, DATA[:64]),
    (9, 0x81, MAGIC.to_bytes(4, "little") * 8), (5, PICOBOOT, DATA[64:4000]),
    (5, PICOBOOT, DATA[4000:]), (5, 0x84, b""), (5, PICOBOOT, TO_BOOTSEL),
    (6, PICOBOOT, READ), (6, 0x84, DATA[:256]), (6, PICOBOOT, b""), (6, PICOBOOT, LAST),
    (6, PICOBOOT, DATA),
)
WANTED = (
    ANEW, ERASES, WRITES, TO_BOOTSELS, ANEW, READS + " token=0x00000001", LASTS,
)

# Each capture: its name, the transfers, the devices that are named, the lines between `power` and
# `end` or None where it is refused, and a part of what is said besides.
CAPTURES = (
    ("session", SESSION, (), WANTED, ""),
    (
        "payload lost",
        ((5, PICOBOOT, WRITE), (5, PICOBOOT, DATA[:4000]), (5, PICOBOOT, ERASE)), (),
        (ANEW, PART, ERASES + " token=0x00000001"), "96 bytes of a payload were lost",
    ),
    (
        "reboots, one address",
        ((5, PICOBOOT, NORMAL), (5, PICOBOOT, ERASE), (5, PICOBOOT, UPDATE), (5, PICOBOOT, ERASE),
         (5, PICOBOOT, TO_BOOTSEL), (5, PICOBOOT, ERASE), (5, PICOBOOT, UPDATE)), (),
        (ANEW, NORMALS, "reset normal", ANEW, ERASES + " token=0x00000001", UPDATES, "reset update=0x10020000",
         ANEW, ERASES + " token=0x00000001", TO_BOOTSELS, ANEW, ERASES + " token=0x00000001", UPDATES), "",
    ),
    (
        "reboots, other addresses",
        ((5, PICOBOOT, NORMAL), (6, PICOBOOT, ERASE), (6, PICOBOOT, TO_ARM)), (),
        (ANEW, NORMALS, "reset normal", ANEW, ERASES + " token=0x00000001", TO_ARMS, "reset update=0x10000000"), "",
    ),
    (
        "no reboot seen",
        ((5, PICOBOOT, ERASE), (6, PICOBOOT, ERASE)), (),
        (ANEW, ERASES, ANEW, ERASES + " token=0x00000001"), "no reboot is seen before 1.6",
    ),
    (
        "two boards",
        ((5, PICOBOOT, ERASE), (6, PICOBOOT, ERASE), (5, PICOBOOT, READ)), (),
        None, "two boards are in the capture, 1.5 and 1.6",
    ),
    (
        "two boards, one named",
        ((5, PICOBOOT, ERASE), (6, PICOBOOT, ERASE), (5, PICOBOOT, READ)), ("1.5",),
        (ANEW, ERASES, READS + " token=0x00000001"), "",
    ),
    (
        "drag",
        ((5, DRIVE, wrapper(1, 512)), (5, DRIVE, bytes(512)), (5, 0x81, b"USBS" + bytes(9)),
         (5, DRIVE, wrapper(200, 1024)), (5, DRIVE, SECTORS[:1024]), (5, 0x81, b"USBS" + bytes(9)),
         (5, DRIVE, wrapper(202, 512)), (5, DRIVE, SECTORS[1024:1324]), (5, DRIVE, SECTORS[1324:])), (),
        (ANEW, *map(uf2, range(3))), "",
    ),
    (
        "drag, and another drive",
        ((9, DRIVE, wrapper(7, 512)), (5, DRIVE, wrapper(200, 512)), (9, DRIVE, bytes(512)),
         (5, DRIVE, BLOCKS[0]), (6, PICOBOOT, ERASE)), (),
        (ANEW, uf2(0), ANEW, ERASES), "",
    ),
    ("no board", ((9, DRIVE, b"another device"),), (), None, "no command of PICOBOOT and no UF2 block"),
)


def usbmon(at, device, endpoint, data, kept=None):
    """The packets of a transfer by usbmon, of which so many bytes are kept: submission and end."""
    is_in = bool(endpoint & 0x80)
    packets = []
    for kind in "SC":
        has_data = (kind == "C") == is_in and bool(data)
        part = data[:kept] if has_data else b""
        head = struct.pack("<Q", at) + bytes((ord(kind), BULK, endpoint, device)) + struct.pack("<H", 1)
        head += b"-" + (b"\0" if has_data else b"<" if is_in else b">")
        head += struct.pack("<qiiII", at, 0, 0, len(data), len(part)) + bytes(8)
        head += struct.pack("<iiII", 0, 0, 0, 0)
        packets.append(head + part)
    return packets


def usbpcap(at, device, endpoint, data):
    """The packets of a transfer by USBPcap: down to the device, and back."""
    is_in = bool(endpoint & 0x80)
    packets = []
    for is_back in (False, True):
        part = data if is_back == is_in else b""
        head = struct.pack("<HQIHBHHBBI", 27, at, 0, 9, int(is_back), 1, device, endpoint, BULK, len(part))
        packets.append(head + part)
    return packets


def pcapng_block(kind, body):
    body += bytes(-len(body) % 4)
    size = 12 + len(body)
    return struct.pack("<II", kind, size) + body + struct.pack("<I", size)


def capture(link, transfers):
    """A pcapng file of transfers."""
    packets_of = usbmon if link == USBMON else usbpcap
    made = pcapng_block(0x0A0D0D0A, struct.pack("<IHHq", 0x1A2B3C4D, 1, 0, -1))
    made += pcapng_block(1, struct.pack("<HHI", link, 0, 0))
    for at, transfer in enumerate(transfers):
        for packet in packets_of(at, *transfer):
            made += pcapng_block(6, struct.pack("<IIIII", 0, 0, at, len(packet), len(packet)) + packet)
    return made


def record(folder, made, named=()):
    """The lines of the text of a capture, or None where it is refused, and what was said besides."""
    source, out = os.path.join(folder, "session.pcapng"), os.path.join(folder, "session.text")
    with open(source, "wb") as file:
        file.write(made)
    done = subprocess.run(
        [sys.executable, os.path.join(HERE, "record.py"), source, out, *named],
        capture_output=True, text=True, check=False,
    )
    if done.returncode != 0:
        return None, done.stderr
    with open(out, encoding="ascii") as file:
        return file.read().splitlines(), done.stderr


def is_script(program, folder, lines):
    """Whether the program makes a script of the text."""
    words_ = [program, "script", "session.text", "session.script"]
    done = subprocess.run(words_, cwd=folder, capture_output=True, text=True, check=False)
    return done.stdout == f"script records={len(lines)}\n"


class Tally:
    def __init__(self, program):
        self.program = program
        self.right = self.wrong = 0

    def look(self, name, made, named, wanted, said):
        """Compares the text of a capture, and what is said, with what is wanted."""
        wanted = None if wanted is None else ["power", *wanted, "end"]
        with tempfile.TemporaryDirectory() as folder:
            lines, heard = record(folder, made, named)
            is_right = lines == wanted and (said in heard if said else not heard)
            if is_right and lines and self.program:
                is_right = is_script(self.program, folder, lines)
        self.right, self.wrong = self.right + is_right, self.wrong + (not is_right)
        if not is_right:
            print(f"{name}: another text than wanted. {heard.strip()}")


def main():
    if len(sys.argv) > 2:
        sys.exit(__doc__)
    if not shutil.which("tshark"):
        sys.exit("record_test.py: there is no tshark; it is a package of Debian's")
    tally = Tally(os.path.abspath(sys.argv[1]) if len(sys.argv) == 2 else None)
    for link_name, link in (("usbmon", USBMON), ("USBPcap", USBPCAP)):
        for name, transfers, named, wanted, said in CAPTURES:
            tally.look(f"{link_name}, {name}", capture(link, transfers), named, wanted, said)
        short = capture(link, SESSION)[:-CUT]
        tally.look(f"{link_name}, cut short", short, (), WANTED[:-1], "cut short")
    part = ((5, DRIVE, wrapper(200, 1536)), (5, DRIVE, SECTORS, 1024))
    tally.look("usbmon, transfer in part", capture(USBMON, part), (), (ANEW, *map(uf2, range(2))),
               "512 bytes of a transfer are not in the capture")
    print(f"{tally.right} captures as wanted, {tally.wrong} not")
    sys.exit(1 if tally.wrong else 0)


main()
