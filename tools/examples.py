#!/usr/bin/env python3
"""Writes the files that the documents take as examples.

    examples.py PROGRAM FOLDER

Images and flashes are made here; what is a file of the program's own, as a table or a sealed image,
is made by the program. The files:

    plain.bin    a flash of 256 KiB without a partition table, with one image, version 1.0
    pair.bin     a flash of 256 KiB with a table of one pair: A has version 1.0, B is erased
    otp.bin      the OTP of a board on which nothing is set
    sdk.img      an image as the SDK makes them, version 1.1: a start block, an end block, no digest
    single.img   an image of one block, version 1.2, rollback version 2, without a digest
    sealed.img   the image of sdk.img, sealed: version 1.1, a load map and a digest
    sealed.uf2   its UF2 file
    update.script   the script of a host that writes sealed.img into B of pair.bin, by `plan`
    update.text  its text
    ota.text     the text of an update that an application makes itself, with bytes of an image
    table.json, spec.json, otp.json   the texts of the table, of the sealed image and of the OTP
    require.json   what is asked of an update
    pattern      the one byte that a torn step leaves here
"""

import os
import struct
import subprocess
import sys

FLASH = 256 * 1024
SECTOR = 4096
A = 2 * SECTOR
BLOCK_START, BLOCK_END = 0xFFFFDED3, 0xAB123579
ARM_IMAGE = 0x1021  # an executable, secure, for the Arm cores of the RP2350
FIRST_BLOCK = 0x124  # where the SDK's start block stands
STACK, ENTRY = 0x20082000, 0x10000201
SIZE = 10 * 1024
ROLLBACK_ROW = 0x0C0

TABLE = """{"version": [1, 0],
 "unpartitioned": {"families": ["absolute"],
                   "permissions": {"secure": "rw", "nonsecure": "rw", "bootloader": "rw"}},
 "partitions": [
   {"first": 2, "last": 31, "families": ["rp2350-arm-s"],
    "permissions": {"secure": "rw", "nonsecure": "rw", "bootloader": "rw"}},
   {"first": 32, "last": 61, "families": ["rp2350-arm-s"], "link": ["a", 0],
    "permissions": {"secure": "rw", "nonsecure": "rw", "bootloader": "rw"}}]}
"""
FORMER_SPEC = '{"processor": "arm", "version": [1, 0]}\n'
SPEC = '{"processor": "arm", "version": [1, 1]}\n'
REQUIRE = """\
{"version": "up",
 "fallback": true,
 "hash": true,
 "again": true,
 "session": "staged"}
"""
OTA = """\
# The application runs from A, writes B at 0x10020000, and asks for the update.
power
reset bootsel                        # each erase, write and reboot is a call of the application's
erase 0x10020000+0x3000              # the sectors that the image takes
write 0x10021000 image 0x1000+       # all of it but its first sector,
write 0x10020000 image 0x0+0x1000    # and then the first sector
reboot update=0x10020000             # the flash-update boot, which may start a trial image
buy                                  # the new image's self test has passed
reset normal
"""
OTP = '{"rollback_required": false, "flash_off": false, "slot_size": 4096}\n'


def words(*values):
    return struct.pack(f"<{len(values)}I", *(value & 0xFFFFFFFF for value in values))


def block(items, link):
    """The bytes of a block with these item words and this link."""
    return words(BLOCK_START, *items, 0xFF | len(items) << 8, link, BLOCK_END)


def image_type():
    return [ARM_IMAGE << 16 | 1 << 8 | 0x42]


def version(major, minor):
    return [2 << 8 | 0x48, major << 16 | minor]


def rollback(major, minor, least, row):
    """A VERSION item with a rollback version and one row."""
    return [1 << 24 | 3 << 8 | 0x48, major << 16 | minor, row << 16 | least]


def body(seed):
    """The vectors of an image, and bytes that stand for a program."""
    code = bytes((seed + 7 * at) % 251 for at in range(SIZE - 8))
    return bytearray(words(STACK, ENTRY) + code)


def put(image, at, part):
    image[at:at + len(part)] = part


def sdk_image(seed, major, minor):
    """A start block that names the image, and an end block that closes the loop."""
    image = body(seed)
    end = SIZE - 20
    put(image, FIRST_BLOCK, block(image_type() + version(major, minor), end - FIRST_BLOCK))
    put(image, end, block([0x1FE], FIRST_BLOCK - end))
    return bytes(image)


def single_image(seed, major, minor, least):
    """One block, whose loop it closes by itself."""
    image = body(seed)
    put(image, FIRST_BLOCK, block(image_type() + rollback(major, minor, least, ROLLBACK_ROW), 0))
    return bytes(image)


def flash(*pieces):
    """An erased flash with these bytes at these offsets."""
    whole = bytearray(b"\xff" * FLASH)
    for at, part in pieces:
        put(whole, at, part)
    return bytes(whole)


class Folder:
    """The folder that the files go to, and the program that makes some of them."""

    def __init__(self, program, path):
        self.program = os.path.abspath(program)
        self.path = path
        os.makedirs(path, exist_ok=True)

    def write(self, name, part):
        with open(os.path.join(self.path, name), "wb") as file:
            file.write(part.encode() if isinstance(part, str) else part)

    def read(self, name):
        with open(os.path.join(self.path, name), "rb") as file:
            return file.read()

    def remove(self, *names):
        for name in names:
            os.remove(os.path.join(self.path, name))

    def run(self, *arguments):
        """Runs the program in the folder; what it prints."""
        done = subprocess.run(
            [self.program, *arguments], cwd=self.path, capture_output=True, text=True, check=False
        )
        if done.returncode != 0:
            sys.exit(f"{' '.join(arguments)}: status {done.returncode}, {done.stdout.strip()}")
        return done.stdout


def main():
    if len(sys.argv) != 3:
        sys.exit(__doc__)
    folder = Folder(sys.argv[1], sys.argv[2])
    for name, text in (("table.json", TABLE), ("spec.json", SPEC), ("otp.json", OTP)):
        folder.write(name, text)
    folder.write("pattern", b"\xa5")
    folder.write("sdk.img", sdk_image(1, 1, 1))
    folder.write("single.img", single_image(1, 1, 2, 2))
    folder.run("seal", "sdk.img", "spec.json", "sealed.img")
    folder.run("uf2", "sealed.img", "rp2350-arm-s", "sealed.uf2")
    folder.run("otp", "otp.json", "otp.bin")
    folder.write("former.img", sdk_image(2, 1, 0))
    folder.write("former.json", FORMER_SPEC)
    folder.run("seal", "former.img", "former.json", "former.sealed")
    folder.run("table", "table.json", "table.bin")
    folder.write("plain.bin", flash((0, folder.read("former.img"))))
    folder.write("pair.bin", flash((0, folder.read("table.bin")), (A, folder.read("former.sealed"))))
    folder.run("plan", "pair.bin", "otp.bin", "arm", "sealed.img", "update.script")
    folder.write("update.text", folder.run("list", "update.script"))
    folder.write("ota.text", OTA)
    folder.write("require.json", REQUIRE)
    folder.remove("former.img", "former.json", "former.sealed", "table.bin")


main()
