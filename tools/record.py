#!/usr/bin/env python3
"""Makes the text of a script of a recorded session between a host and a board in BOOTSEL.

    record.py CAPTURE OUT [DEVICE ..]

CAPTURE is a capture of USB by Wireshark, from usbmon on Linux or USBPcap on Windows. It is read by
tshark (Debian's package tshark). OUT is the text of a script, in words where a line in words gives
the record: `dugnatsew script OUT SCRIPT` makes the script of it.

The devices that count are those that are sent a command of PICOBOOT, 32 bytes that begin with
0x431fd10b, or a UF2 block by SCSI's WRITE(10). Each command becomes a record with the payload that
follows it, however many transfers that has, and each UF2 block on the drive becomes one too. Behind
each reboot command there is a `reset` of its kind, and `reset bootsel` where the board comes back to
be sent more, whether its address is another one or not. Behind the last record there is none where
the command itself does it: `check` then still sees one session of a host.

Where bytes are missing a warning says so: a command that comes while a payload is short, a transfer
that the capture has in part, and a last payload that is cut short, whose command is left out.

Where two boards are in the capture there is no text. DEVICE names the one that is meant, BUS.ADDRESS
as Wireshark has them; a board that comes back has one address after the other, and all are named.
"""

import shutil
import subprocess
import sys

MAGIC = bytes.fromhex("0bd11f43")  # 0x431fd10b, the lowest byte first
COMMAND = 32
BULK = 3
REBOOT = 0x0A
RESETS = {0: "normal", 2: "bootsel", 4: "update"}  # kinds of a reboot that a reset has too
KIND_BITS, SERVED_BITS = 0x0F, 0x10F  # of its flags; the program serves no other ones
WRAPPER, WRAPPER_SIZE, WRITE_10 = b"USBC", 31, 0x2A
SECTOR = 512
FAMILIES = {
    0xE48BFF56: "rp2040", 0xE48BFF57: "absolute", 0xE48BFF58: "data", 0xE48BFF59: "rp2350-arm-s",
    0xE48BFF5A: "rp2350-riscv", 0xE48BFF5B: "rp2350-arm-ns",
}
UF2 = (  # the fixed words of a UF2 block
    (0, bytes.fromhex("5546320a")), (4, bytes.fromhex("57515d9e")), (508, bytes.fromhex("306fb10a")),
)
FIELDS = (
    "usb.transfer_type", "usb.bus_id", "usb.device_address", "usb.endpoint_address",
    "usb.urb_type", "usb.irp_info.direction", "usb.urb_len", "usb.data_len", "usb.capdata",
)


# The spelling of each record.

def power_line():
    return "power"


def reset_line(kind, base=0):
    return f"reset update=0x{base:08x}" if kind == "update" else f"reset {kind}"


def word(data, at):
    return int.from_bytes(data[at:at + 4], "little")


def range_word(start, size):
    return f"0x{start:08x}+0x{size:08x}"


def reboot_words(flags, p0, p1):
    """The words of a reboot, and the argument words that they stand for; None for other flags."""
    kinds = {
        0: ("normal", (0, 0, 0, 0)), 2: ("bootsel", (2, 0, 0, 0)),
        4: (f"update=0x{p0:08x}", (4, 0, p0, 0)), 3: (f"ram={range_word(p0, p1)}", (3, 0, p0, p1)),
    }
    return kinds.get(flags)


def info_words(kind, argument, length):
    """The same of an info command."""
    kinds = {
        1: ("table", (1, 0, 0, 0)), 2: (f"target=0x{argument:08x}", (2, argument, 0, 0)),
        3: ("device", (3, 0, 0, 0)), 4: (f"partition={argument}", (4, argument, 0, 0)),
    }
    return kinds[kind] and (f"{kinds[kind][0]} {length}", kinds[kind][1]) if kind in kinds else None


def said(command, payload):
    """The words of a command without its token, what they are for: its argument size, its argument
    words, its transfer length and its payload. None where no words are."""
    number, length = command[8], word(command, 12)
    first, second, third, fourth = (word(command, 16 + 4 * at) for at in range(4))
    row, count = first & 0xFFFF, first >> 16
    if number == 0x01 and first < 0x100:
        return f"exclusive {first}", 1, (first, 0, 0, 0), 0, b""
    if number == 0x03:
        return f"erase {range_word(first, second)}", 8, (first, second, 0, 0), 0, b""
    if number == 0x84:
        return f"read {range_word(first, second)}", 8, (first, second, 0, 0), second, b""
    if number == 0x05 and payload:
        size = len(payload)
        return f"write 0x{first:08x} {payload.hex()}", 8, (first, size, 0, 0), size, payload
    if number in (0x06, 0x07):
        return "exit-xip" if number == 0x06 else "enter-xip", 0, (0, 0, 0, 0), 0, b""
    if number == REBOOT and reboot_words(first, third, fourth):
        words, arguments = reboot_words(first, third, fourth)
        return f"reboot {words}", 16, arguments, 0, b""
    if number == 0x8C and row < 0x1000:
        return f"otp-read 0x{row:03x} {count}", 5, (row | count << 16, 0, 0, 0), 4 * count, b""
    if number == 0x0D and row < 0x1000 and 0 < len(payload) <= 4 * 4096 and len(payload) % 4 == 0:
        rows = [word(payload, at) for at in range(0, len(payload), 4)]
        words = " ".join(f"0x{it:08x}" for it in rows)
        return f"otp-write 0x{row:03x} {words}", 5, (row | len(rows) << 16, 0, 0, 0), len(payload), payload
    if number == 0x8B and info_words(first, second, length):
        words, arguments = info_words(first, second, length)
        return f"info {words}", 16, arguments, length, b""
    return None


def command_line(command, payload, next_token):
    """The line of a command: in words where these give its bytes, and otherwise by its bytes. The
    token is left out where it is the one that comes next."""
    token = word(command, 4)
    found = said(command, payload)
    if found:
        words, size, arguments, length, sent = found
        made = MAGIC + token.to_bytes(4, "little") + bytes((command[8], size, 0, 0))
        made += b"".join(it.to_bytes(4, "little") for it in (length, *arguments))
        if made == command and sent == payload:
            return words if token == next_token else f"{words} token=0x{token:08x}"
    return f"command {command.hex()} {payload.hex()}" if payload else f"command {command.hex()}"


def uf2_line(block):
    """The line of a UF2 block: in words where these give its bytes."""
    at, number, count, family = (word(block, it) for it in (12, 20, 24, 28))
    page = block[32:288]
    fixed = (word(block, 8), word(block, 16), block[288:508]) == (0x2000, 256, bytes(220))
    if not fixed or any(block[it:it + 4] != magic for it, magic in UF2):
        return f"uf2 {block.hex()}"
    name = FAMILIES.get(family, f"0x{family:08x}")
    return f"uf2 {number} of {count} at 0x{at:08x} family={name} {page.hex()}"


def end_line():
    return "end"


def warn(text):
    print(f"record.py: {text}", file=sys.stderr)


class Sent:
    """What a host sent in one bulk transfer: the device, the endpoint, the bytes, how many lack."""

    def __init__(self, device, endpoint, data, missing):
        self.device = device
        self.endpoint = endpoint
        self.data = data
        self.missing = missing

    def pipe(self):
        return self.device, self.endpoint


def number(text):
    return int(text, 0) if text else None


def is_sent(endpoint, urb_type, direction):
    """Whether a packet is what a host sends: a submission by usbmon, or one down by USBPcap."""
    if endpoint & 0x80:
        return False
    return urb_type in ("'S'", "S", "83") if urb_type else direction in ("0", "0x00", "0x0", "False")


def sent_of(line):
    """What a packet's fields say was sent in a bulk transfer, or None."""
    kind, bus, device, endpoint, urb_type, direction, wanted, there, data = line.split("\t")
    if number(kind) != BULK or not data or not is_sent(number(endpoint), urb_type, direction):
        return None
    missing = number(wanted) - number(there) if urb_type and wanted and there else 0
    sent = bytes.fromhex(data.replace(":", ""))
    return Sent((number(bus), number(device)), number(endpoint), sent, missing)


def read(capture):
    """The bulk transfers of a capture that a host sent, in their order."""
    words = ["tshark", "-r", capture, "-T", "fields", "-E", "occurrence=f"]
    words += ["--disable-protocol", "usbms", "--disable-protocol", "uasp"]
    for field in FIELDS:
        words += ["-e", field]
    done = subprocess.run(words, capture_output=True, text=True, check=False)
    if done.returncode != 0 and not done.stdout:
        sys.exit(f"record.py: tshark cannot read {capture}: {done.stderr.strip()}")
    if done.returncode != 0:
        warn("the capture is cut short")
    found = [sent_of(line) for line in done.stdout.splitlines()]
    return [it for it in found if it]


def is_command(data):
    return len(data) == COMMAND and data.startswith(MAGIC)


def payload_length(command):
    """How many bytes follow a command from the host."""
    is_answered = command[8] & 0x80
    return 0 if is_answered else int.from_bytes(command[12:16], "little")


def is_write(data):
    """Whether the bytes are the wrapper of a WRITE(10)."""
    return len(data) == WRAPPER_SIZE and data.startswith(WRAPPER) and data[15] == WRITE_10


def is_uf2(sector):
    return len(sector) == SECTOR and all(sector[at:at + 4] == word for at, word in UF2)


def flags_of(command):
    return int.from_bytes(command[16:20], "little")


def reset_after(command):
    """The line of the reset that a reboot command makes, or None for other commands and kinds."""
    if command[8] != REBOOT or flags_of(command) & KIND_BITS not in RESETS:
        return None
    base = int.from_bytes(command[24:28], "little")
    return reset_line(RESETS[flags_of(command) & KIND_BITS], base)


class Drive:
    """What a host writes to a board's drive: the sectors of each WRITE(10)."""

    def __init__(self):
        self.left = 0
        self.sectors = b""

    def begin(self, wrapper):
        if self.left:
            warn(f"{self.left} bytes of a WRITE(10) were lost")
        self.left, self.sectors = int.from_bytes(wrapper[8:12], "little"), b""

    def take(self, sent):
        """The UF2 blocks that are whole with what was sent."""
        self.left = max(0, self.left - len(sent.data) - sent.missing)
        self.sectors += sent.data
        count = len(self.sectors) // SECTOR * SECTOR
        done, self.sectors = self.sectors[:count], self.sectors[count:]
        sectors = [done[at:at + SECTOR] for at in range(0, count, SECTOR)]
        return [it for it in sectors if is_uf2(it)]


class Session:
    """What one board was sent: its commands with their payloads, its blocks, and its resets."""

    def __init__(self):
        self.device = self.endpoint = self.command = self.rebooted = None
        self.lines = []
        self.payload = b""
        self.drives = {}
        self.former = set()  # addresses that the board had before
        self.commands = self.blocks = self.devices = 0
        self.next_token = 1  # of a command in words without a token

    def take(self, sent):
        """Takes what was sent, where it belongs to the session."""
        if is_command(sent.data):
            self.begin(sent)
        elif self.command is not None and sent.pipe() == (self.device, self.endpoint):
            self.payload += sent.data
            self.tell_missing(sent)
        else:
            self.take_drive(sent)
        self.end()

    def tell_missing(self, sent):
        if sent.missing:
            warn(f"{sent.missing} bytes of a transfer are not in the capture")

    def take_drive(self, sent):
        drive = self.drives.setdefault(sent.pipe(), Drive())
        if is_write(sent.data):
            drive.begin(sent.data)
        elif drive.left:
            blocks = drive.take(sent)
            for block in blocks:
                self.come(sent.device)
                self.lines.append(uf2_line(block))
                self.blocks += 1
            if blocks:
                self.tell_missing(sent)

    def begin(self, sent):
        if self.command is not None:
            lack = payload_length(self.command) - len(self.payload)
            warn(f"{lack} bytes of a payload were lost: a new command comes before them")
            self.finish()
        self.come(sent.device)
        self.endpoint = sent.endpoint
        self.command, self.payload = sent.data, b""

    def come(self, device):
        """The board is sent something: where it has come anew, it was reset into BOOTSEL."""
        if device in self.former:
            sys.exit(f"record.py: two boards are in the capture, {spelled(device)} and "
                     f"{spelled(self.device)}: name the one that is meant")
        if device != self.device or self.rebooted:
            self.come_anew(device)

    def come_anew(self, device):
        if self.device is not None and device != self.device:
            self.former.add(self.device)
            if not self.rebooted and not self.blocks:
                warn(f"no reboot is seen before {spelled(device)}: where it is another board, "
                     "name the one that is meant")
        resets = [reset_after(self.rebooted)] if self.rebooted else []
        if reset_line("bootsel") not in resets:
            resets.append(reset_line("bootsel"))
        self.lines += [it for it in resets if it]
        self.device, self.rebooted = device, None
        self.devices += 1

    def end(self):
        """Writes the command that has its whole payload."""
        if self.command is not None and len(self.payload) >= payload_length(self.command):
            self.finish()

    def finish(self):
        self.lines.append(command_line(self.command, self.payload, self.next_token))
        self.next_token = (word(self.command, 4) + 1) % 2**32
        self.commands += 1
        self.rebooted = self.command if self.command[8] == REBOOT else None
        self.command = None

    def text(self):
        last = self.rebooted and reset_after(self.rebooted)
        needs_reset = last and flags_of(self.rebooted) & ~SERVED_BITS
        lines = [*self.lines, last] if needs_reset else self.lines
        return "\n".join([power_line(), *lines, end_line()]) + "\n"


def spelled(device):
    return f"{device[0]}.{device[1]}"


def main():
    if len(sys.argv) < 3:
        sys.exit(__doc__)
    if not shutil.which("tshark"):
        sys.exit("record.py: there is no tshark; it is a package of Debian's")
    named = sys.argv[3:]
    session = Session()
    for sent in read(sys.argv[1]):
        if not named or spelled(sent.device) in named:
            session.take(sent)
    if session.command is not None:
        warn("the last command's payload is cut short, so it is left out")
    if not session.lines:
        sys.exit("record.py: no command of PICOBOOT and no UF2 block is in the capture")
    with open(sys.argv[2], "w", encoding="ascii") as file:
        file.write(session.text())
    print(f"commands={session.commands} blocks={session.blocks} devices={session.devices}")


main()
