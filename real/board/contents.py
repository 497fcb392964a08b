"""The contents of the cases: blocks, images, tables and flashes, made of words."""

import hashlib
import struct

FLASH = 512 << 10  # of the program: no case depends on what a longer one has
REACH = 0x48000  # what cases write lies below, but for the flash's last sector
FLASH_START = 0x10000000
SRAM = 0x20000000
PAGE = 256
END_MARK = bytes(range(256)) * 16  # what the last sector has before a drag
BLOCK_START, BLOCK_END = 0xFFFFDED3, 0xAB123579
ARM_IMAGE, RISCV_IMAGE = 0x1021, 0x1101
FIRST_BLOCK = 0x100
CODE = 0x40
STACK, ENTRY = 0x20082000, FLASH_START + CODE + 1
ALL_RIGHTS = 0xFC000000
TAKES = {"absolute": 1 << 15, "data": 1 << 16, "arm": 1 << 17, "riscv": 1 << 18}
FIRST_A, LAST_A, FIRST_B, LAST_B, FIRST_C, LAST_C = 2, 31, 32, 61, 62, 70
SECTOR = 4096

# The machine code of probe.S and of probe_riscv.S, up to their numbers.
PROBE = bytes.fromhex(
    "162413231b78022b00d01824248810480c214160012101600e480421a047054686b0684605214022"
    "a8477f26002802db019e360cf6b208480421a047054607480a210022064b36023343a847fee700bf"
    "30801040475300005242000002010000"
)
RISCV_PROBE = bytes.fromhex(
    "83423001378400001304a4df130320006386620037840000130484dfb7821040938202031303c000"
    "23a262001303100023a06200375500001305753493051000e700040093020500130101fe13050100"
    "9305500013060004e78002009304f0076344050083446100374500001305252593051000e7000400"
    "9302050017030000130383028326030093948400b3e69600130520119305a00013060000e7800200"
    "6f000000"
)


def words(*values):
    return struct.pack(f"<{len(values)}I", *(value & 0xFFFFFFFF for value in values))


def item(kind, size, *rest, low=0, high=0):
    """The words of an item: its header with two further bytes, and what follows."""
    assert len(rest) == size - 1
    return [kind | size << 8 | low << 16 | high << 24, *rest]


def block(items, link=0):
    return words(BLOCK_START, *items, 0xFF | len(items) << 8, link, BLOCK_END)


def image_type(flags=ARM_IMAGE):
    return item(0x42, 1, low=flags & 0xFF, high=flags >> 8)


def version(major, minor):
    return item(0x48, 2, minor | major << 16)


def vector_table(address):
    return item(0x03, 2, address)


def nothing():
    """An item that is passed over."""
    return item(0xFE, 1)


def with_hash(items, data=b""):
    """The items, and a HASH_DEF of all of them behind this data."""
    return items + item(0x47, 2, 1 + len(items) + 2, high=1)


def hashed(items, data=b"", size=8, flips=0):
    """The items with a digest of so many words, in whose first byte these bits are flipped."""
    covered = with_hash(items)
    digest = bytearray(hashlib.sha256(data + words(BLOCK_START, *covered)).digest())
    digest[0] ^= flips
    return covered + item(0x4B, 1 + size, *struct.unpack(f"<{size}I", digest[:4 * size]))


def load_map(items, kind, size=0x100, target=0x20000000, source=0):
    """The items, and a LOAD_MAP of one entry: storage, target and size, as its kind has them."""
    at = FIRST_BLOCK + 4 + 4 * len(items)
    start = FLASH_START + source
    entry = {
        "relative": (0x01, source - at, target, size),
        "absolute, storage end": (0x81, start, target, start + size),
        "absolute, runtime end": (0x81, start, target, target + size),
    }[kind]
    return items + item(0x06, 4, *entry[1:], high=entry[0])


def image(number, items=None, blocks=None, at=FIRST_BLOCK, entry=ENTRY, size=0, program=PROBE):
    """An image whose program tells this number; blocks are pairs of an offset and bytes."""
    made = bytearray(b"\xff" * FIRST_BLOCK)
    made[0:8] = words(STACK, entry)
    code = program + words(number)
    made[CODE:CODE + len(code)] = code
    for offset, part in blocks or [(at, block(items or image_type()))]:
        made.extend(b"\xff" * (offset - len(made)))
        made[offset:offset + len(part)] = part
    return bytes(made.ljust(size, b"\xff"))


def riscv_image(number):
    """An image for the RISC-V processors."""
    items = image_type(RISCV_IMAGE) + item(0x44, 3, FLASH_START + CODE, STACK)
    return image(number, items, program=RISCV_PROBE)


def part(first, last, flags=0, rights=ALL_RIGHTS):
    """The words of a partition from one sector to another."""
    return [rights | last << 13 | first, rights | flags]


def table(*parts, major=None, singleton=False, is_hashed=True):
    """The block of a table with these partitions, and at will a version."""
    fields = [ALL_RIGHTS | TAKES["absolute"], *(word for it in parts for word in it)]
    items = item(0x0A, 1 + len(fields), *fields, high=(0x80 if singleton else 0) | len(parts))
    items += [] if major is None else version(major, 0)
    return items if not is_hashed else hashed(items)


def flash(*pieces):
    """The first bytes of a flash with these bytes at these offsets; the rest is erased."""
    made = bytearray(b"\xff" * max(at + len(piece) for at, piece in pieces))
    for at, piece in pieces:
        made[at:at + len(piece)] = piece
    return bytes(made)


def uf2_block(data, address, family, number, count, flags=0x2000, tag=b""):
    head = words(0x0A324655, 0x9E5D5157, flags, address, PAGE, number, count, family)
    return (head + data + tag).ljust(508, b"\0") + words(0x0AB16F30)


def absolute_block():
    """The block that the SDK puts in front of each UF2 file for the erratum E10."""
    tag = words(0x9957E304)
    return uf2_block(b"\xef" * PAGE, 0x10FFFF00, 0xE48BFF57, 0, 2, 0xA000, tag)


def uf2(content):
    """The UF2 file of an Arm image."""
    pages = [content[at:at + PAGE].ljust(PAGE, b"\xff") for at in range(0, len(content), PAGE)]
    return b"".join(
        uf2_block(page, FLASH_START + PAGE * at, 0xE48BFF59, at, len(pages))
        for at, page in enumerate(pages)
    )


def number_at(content, at):
    """The number of the probe whose code stands there, or 0."""
    for code in (PROBE, RISCV_PROBE):
        end = at + len(code)
        if content[at:end] == code:
            return struct.unpack_from("<I", content, end)[0]
    return 0


def number_of(line, content):
    """The number of the image that a line of the program says to start; 0 where none does."""
    if "start window=" not in line:
        return 0
    start = int(line.split("window=")[1][:10], 16)
    entry = int(line.split("pc=")[1][:10], 16) & ~1
    return number_at(content, start + entry - (FLASH_START if entry < SRAM else SRAM))
