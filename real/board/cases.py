"""The cases: a flash content each, the kind of boot, the rule that it tries, and what the chip does.

What the chip does is from memory: the number of the image that starts, `bootsel`, or `?` where it is
not known; and how sure that is. Of a drag onto the drive the answer says too whether the flash's
last sector is kept. The plainest case is the first one, and those that may hang a board, or leave
it with rights that refuse an erase, are the last ones.
"""

from contents import (
    FIRST_BLOCK, FIRST_C, LAST_C, SECTOR, TAKES, absolute_block, block, flash, hashed, image,
    image_type, item, load_map, nothing, part, riscv_image, table, uf2, vector_table, version,
    with_hash, words, FIRST_A, FIRST_B, LAST_A, LAST_B, ALL_RIGHTS, STACK, PROBE,
)

A, B, C = FIRST_A * SECTOR, FIRST_B * SECTOR, FIRST_C * SECTOR
IGNORED_BY_ARM = 1 << 9
IN_A = part(FIRST_A, LAST_A, TAKES["arm"])
IN_B = part(FIRST_B, LAST_B, TAKES["arm"] | 1 << 1)
ALONE = part(FIRST_B, LAST_B, TAKES["arm"])
IN_C = part(FIRST_C, LAST_C, TAKES["arm"])
UPDATE_A, UPDATE_B, UPDATE_C = (f"update=0x{0x10000000 + at:08x}" for at in (A, B, C))
OTHER_ENTRY = 0x10000241


PLAINEST = "minimal"
RISKY = (
    "unknown-item", "block-at-4096", "type-unspecified", "type-nonsecure", "type-rp2040",
    "map-absolute-storage-end", "map-absolute-runtime-end", "map-covers-block", "window-delta",
    "map-to-other-place", "map-to-xip-sram", "table-rights-differ", "no-secure-read",
    "riscv-alone", "riscv-beside-arm", "drag", "drag-with-absolute-block", "drag-onto-table",
    "drag-onto-table-with-absolute-block",
)


class Case:
    """A case: its name, its content, the rule, what the chip does, how sure, and the boot.

    Where the boot is that of a drag, there is a UF2 file that is dragged onto the drive.
    """

    def __init__(self, name, content, rule, chip, sure, kind="normal", file=b""):
        self.file = file
        self.name = name
        self.content = content
        self.rule = rule
        self.chip = chip
        self.sure = sure
        self.kind = kind


def pair(first=None, second=None, top=None):
    """A flash with a table of a pair, and images in A and B."""
    pieces = [(0, block(top or table(IN_A, IN_B, major=1)))]
    pieces += [(A, first)] if first else []
    pieces += [(B, second)] if second else []
    return flash(*pieces)


def of_version(major, minor, is_trial=False):
    return image_type(0x9021 if is_trial else 0x1021) + version(major, minor)


def ring(count):
    """A loop of so many blocks, 32 bytes apart, of which the first is a definition."""
    step = 0x20
    links = [step] * (count - 1) + [-step * (count - 1)]
    items = [image_type()] + [nothing()] * (count - 1)
    return [(FIRST_BLOCK + step * i, block(items[i], links[i])) for i in range(count)]


def block_cases():
    two = [
        (0x100, block(image_type(), 0x40)),
        (0x140, block(image_type() + vector_table(0x10000200), -0x40)),
        (0x200, words(STACK, OTHER_ENTRY)),
        (0x240, PROBE + words(2)),
    ]
    to_second = [
        (0x100, block(image_type(), 0x20)), (0x120, block(nothing(), 0x20)),
        (0x140, block(nothing(), -0x20)),
    ]
    ends = [(0x100, block(image_type(), 0x1000)), (0x1100, block(nothing(), -0x1000))]
    alone = image(1, blocks=[(0xE0, words(0xFFFFDED3)), (0x100, block(image_type()))])
    return [
        Case("minimal", flash((0, image(1))), "first block", "1", "certain"),
        Case("erased", b"\xff" * 16, "first block", "bootsel", "certain"),
        Case("block-ends-at-4096", flash((0, image(1, at=4076))), "first block", "1", "likely"),
        Case(
            "block-begins-at-4092", flash((0, image(1, at=4092))),
            "first block, our own", "bootsel", "unsure",
        ),
        Case("block-at-4096", flash((0, image(1, at=4096))), "first block", "bootsel", "likely"),
        Case(
            "version-before-type", flash((0, image(1, version(1, 0) + image_type()))),
            "item order, our own", "bootsel", "likely",
        ),
        Case(
            "two-definitions", flash((0, image(1, blocks=two))),
            "last definition", "2", "likely",
        ),
        Case(
            "two-image-types", flash((0, image(1, image_type() + image_type()))),
            "repeated item, our own", "?", "unsure",
        ),
        Case(
            "unknown-item", flash((0, image(1, image_type() + item(0x30, 2, 0)))),
            "unread item", "?", "unsure",
        ),
        Case(
            "end-block-missing", flash((0, image(1, blocks=ends[:1]))),
            "loop closes", "bootsel", "certain",
        ),
        Case("end-block-there", flash((0, image(1, blocks=ends))), "loop closes", "1", "certain"),
        Case(
            "loop-of-32", flash((0, image(1, blocks=ring(32)))),
            "most blocks, our own", "1", "unsure",
        ),
        Case(
            "loop-of-33", flash((0, image(1, blocks=ring(33)))),
            "most blocks, our own", "?", "unsure",
        ),
        Case(
            "link-to-second", flash((0, image(1, blocks=to_second))),
            "overlap", "bootsel", "likely",
        ),
        Case("marker-without-block", flash((0, alone)), "first block", "?", "unsure"),
    ]


def type_cases():
    kinds = (
        (0x1001, "unspecified", "?", "unsure"), (0x1011, "nonsecure", "bootsel", "likely"),
        (0x0021, "rp2040", "bootsel", "likely"), (0x1022, "data", "bootsel", "likely"),
    )
    return [
        Case(
            f"type-{name}", flash((0, image(1, image_type(flags)))),
            "suits the processor", chip, sure,
        )
        for flags, name, chip, sure in kinds
    ]


def digest_cases():
    plain = image_type()
    return [
        Case("digest", flash((0, image(1, hashed(plain)))), "digest", "1", "likely"),
        Case(
            "wrong-digest", flash((0, image(1, hashed(plain, flips=1)))),
            "digest", "bootsel", "likely",
        ),
        Case("hash-def-alone", flash((0, image(1, with_hash(plain)))), "digest", "1", "likely"),
        Case(
            "digest-of-4-words", flash((0, image(1, hashed(plain, size=4)))),
            "short digest, left out", "1", "likely",
        ),
    ]


def map_cases():
    loaded = image_type() + vector_table(0x20000000)
    in_sram = 0x20000041
    beside = image_type() + vector_table(0x13FFC000)
    moved = image_type() + item(0x05, 2, 0x1000)
    elsewhere = image_type() + item(0x06, 4, -0x108, 0x10001000, 0x100, high=1)
    made = [
        Case(
            f"map-{name}", flash((0, image(1, load_map(loaded, kind), entry=in_sram))),
            "load map", chip, sure,
        )
        for name, kind, chip, sure in (
            ("relative", "relative", "1", "likely"),
            ("absolute-storage-end", "absolute, storage end", "?", "unsure"),
            ("absolute-runtime-end", "absolute, runtime end", "?", "unsure"),
        )
    ]
    covers = image(1, load_map(loaded, "relative", size=0x200), entry=in_sram, size=0x200)
    xip = image(1, load_map(beside, "relative", target=0x13FFC000), entry=0x13FFC041)
    return made + [
        Case(
            "map-covers-block", flash((0, covers)),
            "map covers its block, our own", "1", "likely",
        ),
        Case("map-to-xip-sram", flash((0, xip)), "runtime address, our own", "?", "unsure"),
        Case("window-delta", flash((0, image(1, moved))), "window delta, our own", "?", "unsure"),
        Case(
            "map-to-other-place", flash((0, image(1, elsewhere))),
            "runtime address", "bootsel", "unsure",
        ),
    ]


def table_cases():
    wrong = bytearray(block(table(IN_A, IN_B, major=1)))
    wrong[-30] ^= 1
    rights = [IN_A[0], IN_A[1] ^ 1 << 31]
    low = part(1, LAST_A, TAKES["arm"])
    here = (A, image(1))
    both = (here, (B, image(2)))
    first = block(table(IN_A, major=1))
    inside = image(3, blocks=[
        (0x100, block(image_type(), 0x2000)),
        (0x2100, block(table(part(16, LAST_A, TAKES["arm"]), IN_B), -0x2000)),
    ])
    below = image(3, blocks=[
        (0x100, block(image_type(), 0x40)), (0x140, block(table(IN_A, IN_B), -0x40)),
    ])
    late = version(1, 0) + item(0x0A, 4, ALL_RIGHTS | TAKES["absolute"], *IN_A, high=1)
    tail = block(table(IN_A, part(32, 2047, TAKES["arm"])))
    return [
        Case("table", pair(image(1)), "table", "1", "certain"),
        Case(
            "table-without-hash", pair(image(1), top=table(IN_A, IN_B, is_hashed=False)),
            "table's digest", "1", "likely",
        ),
        Case(
            "table-with-wrong-hash", flash((0, bytes(wrong)), here),
            "table's digest", "bootsel", "likely",
        ),
        Case(
            "table-rights-differ", flash((0, block(table(rights, IN_B, is_hashed=False))), here),
            "table's rights, our own", "?", "unsure",
        ),
        Case(
            "table-overlap", flash((0, block(table(IN_A, part(31, LAST_B, TAKES["arm"])))), here),
            "table's overlap, our own", "?", "unsure",
        ),
        Case(
            "table-past-the-flash", flash((0, tail), here),
            "table's range, our own", "1", "likely",
        ),
        Case(
            "partition-in-slot-1",
            flash((0, block(table(low, IN_B, singleton=True))), (SECTOR, image(1))),
            "table's range, our own", "1", "unsure",
        ),
        Case(
            "two-tables-tie", flash((0, first), (SECTOR, block(table(ALONE, major=1))), *both),
            "two tables, our own", "1", "likely",
        ),
        Case(
            "greater-table-in-slot-1",
            flash((0, first), (SECTOR, block(table(ALONE, major=2))), *both),
            "two tables, our own", "2", "likely",
        ),
        Case(
            "singleton-in-slot-0",
            flash(
                (0, block(table(IN_A, major=1, singleton=True))),
                (SECTOR, block(table(ALONE, major=2))), *both,
            ),
            "two tables, our own", "1", "likely",
        ),
        Case(
            "update-of-slot-0", flash((0, first), (SECTOR, block(table(ALONE, major=2))), *both),
            "update of a table slot, our own", "1", "likely", "update=0x10000000",
        ),
        Case(
            "table-in-image", flash((0, inside), (0x10000, image(1))),
            "table in an image, left out", "3", "likely",
        ),
        Case(
            "table-in-image-below-4096", flash((0, below), here),
            "table in an image, left out", "3", "likely",
        ),
        Case(
            "image-in-slot-0-table-in-slot-1", flash((0, image(3)), (SECTOR, first), here),
            "image in a slot beside partitions, our own", "3", "likely",
        ),
        Case(
            "image-in-slot-1-behind-table", flash((0, first), (SECTOR, image(3)), here),
            "image in a slot beside partitions, our own", "?", "unsure",
        ),
        Case(
            "image-in-slot-1", flash((SECTOR, image(1))),
            "slots without a table, our own", "1", "likely",
        ),
        Case(
            "table-item-not-first", flash((0, block(late)), here),
            "item order, our own", "bootsel", "likely",
        ),
    ]


def pair_cases():
    newer, older = image(2, of_version(1, 10)), image(1, of_version(1, 9))
    return [
        Case("greater-minor", pair(older, newer), "version", "2", "certain"),
        Case("tie", pair(older, image(2, of_version(1, 9))), "tie, our own", "1", "likely"),
        Case(
            "no-version-and-0-0", pair(image(1), image(2, of_version(0, 0))),
            "version, our own", "1", "likely",
        ),
        Case(
            "no-version-and-0-1", pair(image(1), image(2, of_version(0, 1))),
            "version, our own", "2", "likely",
        ),
        Case(
            "newer-has-wrong-digest", pair(older, image(2, hashed(of_version(1, 10), flips=1))),
            "only valid image", "1", "likely",
        ),
        Case(
            "newer-is-trial", pair(older, image(2, of_version(1, 10, True))),
            "trial", "1", "likely",
        ),
        Case(
            "update-of-older", pair(image(1, of_version(2, 0)), image(2, of_version(1, 0))),
            "update", "2", "likely", UPDATE_B,
        ),
        Case(
            "update-of-trial", pair(image(1, of_version(1, 0)), image(2, of_version(1, 1, True))),
            "trial by update", "2", "likely", UPDATE_B,
        ),
        Case(
            "update-of-nothing", pair(image(1, of_version(1, 0))),
            "update", "1", "likely", UPDATE_B,
        ),
        Case(
            "update-within-b", pair(image(1, of_version(2, 0)), image(2, of_version(1, 0))),
            "address of an update, our own", "1", "likely", "update=0x10021000",
        ),
        Case(
            "update-of-equal", pair(older, image(2, of_version(1, 9))),
            "tie in an update, our own; the last column tells whether A is erased",
            "2", "likely", UPDATE_B,
        ),
    ]


def unit_cases():
    two = block(table(IN_A, IN_C))
    images = ((A, image(1)), (C, image(2)))
    ignored = part(FIRST_A, LAST_A, TAKES["arm"] | IGNORED_BY_ARM)
    second_ignored = part(FIRST_B, LAST_B, TAKES["arm"] | 1 << 1 | IGNORED_BY_ARM)
    owned = part(FIRST_C, LAST_C, TAKES["data"] | 2 << 1)
    unreadable = part(FIRST_A, LAST_A, TAKES["arm"], ALL_RIGHTS & ~(3 << 26))
    return [
        Case("first-unit-first", flash((0, two), *images), "order of units", "1", "likely"),
        Case(
            "update-of-second-unit", flash((0, two), *images),
            "update moves its unit, our own", "?", "unsure", UPDATE_C,
        ),
        Case(
            "ignored-by-arm", flash((0, block(table(ignored, IN_C))), *images),
            "ignored partition", "2", "likely",
        ),
        Case(
            "owned-partition", flash((0, block(table(IN_A, IN_B, owned))), (C, image(3))),
            "owned partition, our own", "?", "unsure",
        ),
        Case(
            "b-ignored-by-arm",
            pair(
                image(1, of_version(1, 0)), image(2, of_version(1, 1)),
                table(IN_A, second_ignored, major=1),
            ),
            "ignored B, our own", "?", "unsure",
        ),
        Case(
            "no-secure-read", flash((0, block(table(unreadable))), (A, image(1))),
            "rights of a boot, not modelled", "?", "unsure",
        ),
    ]


def other_processor_cases():
    beside = flash(
        (0, block(table(part(FIRST_A, LAST_A, TAKES["arm"] | TAKES["riscv"]), IN_C))),
        (A, riscv_image(1)), (C, image(2)),
    )
    return [
        Case(
            "riscv-alone", flash((0, riscv_image(1))),
            "switch of the processor, left out", "1", "certain",
        ),
        Case(
            "riscv-beside-arm", beside,
            "switch of the processor, left out", "1", "likely (two to one)",
        ),
    ]


def drag_cases():
    file = uf2(image(1))
    top = flash((0, block(table(IN_A, IN_B, major=1))))
    erased = b"\xff" * 16
    absolute = absolute_block() + file
    return [
        Case("drag", erased, "drag onto the drive", "1, end kept", "likely", "drag", file),
        Case(
            "drag-with-absolute-block", erased,
            "block of E10", "1, end erased", "likely", "drag", absolute,
        ),
        Case(
            "drag-onto-table", top,
            "erratum E10: the revision matters", "?", "unsure", "drag", file,
        ),
        Case(
            "drag-onto-table-with-absolute-block", top,
            "block of E10", "1, end erased", "likely", "drag", absolute,
        ),
    ]


def all_cases():
    """The cases, in the order in which they are played."""
    made = (
        block_cases() + type_cases() + digest_cases() + map_cases() + table_cases() + pair_cases()
        + unit_cases() + other_processor_cases() + drag_cases()
    )
    assert made[0].name == PLAINEST and set(RISKY) <= {it.name for it in made}
    return sorted(made, key=lambda it: it.name in RISKY)
