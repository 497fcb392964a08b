"""A board over USB, by pyusb. UNTRIED: written from memory of picotool's and the SDK's headers."""

import struct
import time

import usb.core
import usb.util

from contents import words
from picoboot import NoBoard, Stall

VENDOR, PRODUCT = 0x2E8A, 0x000F
DRIVE, PICOBOOT = 0x08, 0xFF  # classes of interfaces
BLOCK = 512
OPEN_SECONDS = 20
TO_INTERFACE, FROM_INTERFACE = 0x41, 0xC1
RESET, STATUS = 0x41, 0x42


def ends_of(interface):
    """The endpoints of an interface: out, and in."""
    out = next(it for it in interface if not it.bEndpointAddress & 0x80)
    return out, next(it for it in interface if it.bEndpointAddress & 0x80)


class UsbLink:
    def __init__(self):
        self.place = None
        if not self.open(OPEN_SECONDS):
            raise NoBoard("there is no board in BOOTSEL, or none that you may open")

    def open(self, seconds):
        """Waits for a board, and opens it."""
        end = time.monotonic() + seconds
        while time.monotonic() < end:
            device = usb.core.find(idVendor=VENDOR, idProduct=PRODUCT)
            if device is not None and self.take(device):
                return True
            time.sleep(0.1)
        return False

    def take(self, device):
        try:
            interfaces = device.get_active_configuration()
            interface = next(it for it in interfaces if it.bInterfaceClass == PICOBOOT)
            self.device, self.number = device, interface.bInterfaceNumber
            self.out, self.into = ends_of(interface)
            self.end_stall()
        except (usb.core.USBError, StopIteration):
            return False
        self.place = (device.bus, device.address)
        return True

    def write(self, data):
        try:
            self.out.write(data, 10000)
        except usb.core.USBError as error:
            raise Stall from error

    def read(self, length):
        try:
            return bytes(self.into.read(max(length, 1), 60000))
        except usb.core.USBError as error:
            raise Stall from error

    def status(self):
        try:
            answer = self.device.ctrl_transfer(FROM_INTERFACE, STATUS, 0, self.number, 16)
            return struct.unpack_from("<I", answer, 4)[0]
        except usb.core.USBError:
            return "unknown"

    def reset(self):
        try:
            self.end_stall()
        except usb.core.USBError as error:
            raise NoBoard("the board has gone") from error

    def end_stall(self):
        for end in (self.out, self.into):
            try:
                end.clear_halt()
            except usb.core.USBError:
                pass
        self.device.ctrl_transfer(TO_INTERFACE, RESET, 0, self.number, b"")

    def drag(self, blocks):
        """Writes the blocks to the drive, one by one, as SCSI's WRITE(10)."""
        try:
            self.write_blocks(blocks)
        except (usb.core.USBError, StopIteration) as error:
            raise Stall from error

    def write_blocks(self, blocks):
        interfaces = self.device.get_active_configuration()
        interface = next(it for it in interfaces if it.bInterfaceClass == DRIVE)
        if self.device.is_kernel_driver_active(interface.bInterfaceNumber):
            self.device.detach_kernel_driver(interface.bInterfaceNumber)
        out, into = ends_of(interface)
        for at in range(0, len(blocks), BLOCK):
            place = 0x1000 + at // BLOCK
            scsi = struct.pack(">BBIBHB", 0x2A, 0, place, 0, 1, 0).ljust(16, b"\0")
            out.write(b"USBC" + words(at, BLOCK) + bytes((0, 0, 10)) + scsi, 10000)
            out.write(blocks[at:at + BLOCK], 10000)
            try:
                into.read(13, 10000)
            except usb.core.USBError:
                if at + BLOCK < len(blocks):
                    raise

    def comes_back(self, seconds):
        """Waits until the board has gone, and then until it is back."""
        end = time.monotonic() + 3
        while time.monotonic() < end and self.is_there():
            time.sleep(0.02)
        usb.util.dispose_resources(self.device)
        return self.open(seconds)

    def is_there(self):
        device = usb.core.find(idVendor=VENDOR, idProduct=PRODUCT)
        return device is not None and (device.bus, device.address) == self.place

    def wait_for_replug(self, seconds):
        return self.open(seconds)
