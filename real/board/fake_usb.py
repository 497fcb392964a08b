"""A stand-in for pyusb, so that usb_link.py can be run: it shows that its steps go together, and
nothing of how a board or pyusb behaves. Behind it is a link of fake.py.
"""

import sys
import types

from contents import words
from picoboot import Stall

BLOCK = 512
FINDS_OF_A_HANG = 6  # how often a board that hangs is looked for before it is plugged in again


class USBError(Exception):
    """What pyusb raises."""


class End:
    """An endpoint, whose transfers are a function of a link."""

    def __init__(self, address, transfer):
        self.bEndpointAddress = address
        self.transfer = transfer

    def write(self, data, _):
        self.move(data)

    def read(self, length, _):
        return self.move(length)

    def clear_halt(self):
        pass

    def move(self, what):
        try:
            return self.transfer(what)
        except Stall as stall:
            raise USBError from stall


class Interface(list):
    def __init__(self, kind, number, ends):
        super().__init__(ends)
        self.bInterfaceClass = kind
        self.bInterfaceNumber = number


class Device:
    def __init__(self, link):
        self.link = link
        self.bus, self.address = 1, len(link.log)
        self.blocks = b""

    def get_active_configuration(self):
        drive = Interface(8, 0, [End(2, self.write_drive), End(0x81, lambda length: b"USBS")])
        board = Interface(255, 1, [End(3, self.link.write), End(0x84, self.link.read)])
        return [drive, board]

    def write_drive(self, data):
        """Takes the blocks of WRITE(10), and plays them as one drag when all are there."""
        if data[:4] == b"USBC":
            return
        self.blocks += data
        if len(self.blocks) == self.link.awaited * BLOCK:
            self.link.drag(self.blocks)
            self.link.log.append(("drag",))

    def ctrl_transfer(self, kind, request, _, number, answer):
        assert number == 1
        if (kind, request) == (0x41, 0x41):
            self.link.reset()
            return 0
        assert (kind, request, answer) == (0xC1, 0x42, 16)
        return words(0, self.link.status(), 0, 0)

    def is_kernel_driver_active(self, _):
        return True

    def detach_kernel_driver(self, _):
        pass


def put_in_place(link):
    """Makes `import usb` give this stand-in, over this link."""
    hung = []

    def find(idVendor, idProduct):
        assert (idVendor, idProduct) == (0x2E8A, 0x000F)
        if link.is_hung:
            hung.append(None)
            if len(hung) < FINDS_OF_A_HANG:
                return None
            link.wait_for_replug(0)
        return Device(link)

    usb, core, util = (types.ModuleType(name) for name in ("usb", "usb.core", "usb.util"))
    core.find, core.USBError, util.dispose_resources = find, USBError, lambda _: None
    usb.core, usb.util = core, util
    sys.modules.update({"usb": usb, "usb.core": core, "usb.util": util})
