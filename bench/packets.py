"""Packets of both protocols, as the scripts of this folder send and expect them."""
import struct

ISO, BULK, INTERRUPT, INVALID = 1, 2, 3, 255
OUT, IN = 0, 1

# ---- usbredir, with 64-bit ids behind a hello

HOST_HELLO = struct.pack("<III", 0, 68, 0) + b"host".ljust(64, b"\0") + struct.pack("<I", 0x7A)


def redir(kind, ident, behind):
    return struct.pack("<IIQ", kind, len(behind), ident) + behind


def endpoint(direction):
    return 0x81 if direction == IN else 0x01


def answer(ident, direction, length, byte=0xA5, status=0):
    fields = struct.pack("<BBHIH", endpoint(direction), status, length & 0xFFFF, 0, length >> 16)
    return redir(101, ident, fields + (bytes([byte]) * length if direction == IN else b""))


def interrupt_packet(length, byte=0xA5):
    """A packet from interrupt endpoint 2."""
    return redir(103, 0, struct.pack("<BBH", 0x82, 0, length) + bytes([byte]) * length)


def iso_packet(length, byte=0xA5):
    """A packet from isochronous endpoint 3."""
    return redir(102, 0, struct.pack("<BBH", 0x83, 0, length) + bytes([byte]) * length)


def device():
    """A host's hello with all that the gateway announces, and a device whose endpoints 1 are bulk, 2 interrupt and 3
    isochronous, both ways; the largest packets of 2 have 64 bytes, and of 3 1,024."""
    kinds = bytes([0, BULK, INTERRUPT, ISO] + [INVALID] * 12)
    sizes = struct.pack("<16H", 64, 512, 64, 1_024, *[0] * 12)
    endpoints = kinds * 2 + bytes(64) + sizes * 2
    facts = struct.pack("<BBBBHHH", 2, 0, 0, 0, 0xFFF0, 2, 0x0100)
    return HOST_HELLO + redir(5, 0, endpoints) + redir(1, 0, facts)


# ---- USB/IP

IMPORT = struct.pack(">HHI", 0x0111, 0x8003, 0) + b"1-1".ljust(32, b"\0")


def submit(number, direction, length, byte=0x5A):
    head = struct.pack(">10I", 1, number, 0x00010002, direction, 1, 0, length, 0, 0, 0)
    return head + bytes(8) + (bytes([byte]) * length if direction == OUT else b"")


def unlink(number, target):
    return struct.pack(">6I", 2, number, 0x00010002, 0, 0, target) + bytes(24)


def submit_control(number, setup):
    """A request of endpoint 0 that has no data to the device."""
    direction, length = setup[0] >> 7, struct.unpack("<H", setup[6:])[0]
    return struct.pack(">10I", 1, number, 0x00010002, direction, 0, 0, length, 0, 0, 0) + setup


def submit_stream(number, ep, length, packets=()):
    """A request of an endpoint from the device, with the lengths of its isochronous packets."""
    head = struct.pack(">10I", 1, number, 0x00010002, IN, ep, 0, length, 0, len(packets), 0) + bytes(8)
    places = [sum(packets[:place]) for place in range(len(packets))]
    return head + b"".join(struct.pack(">4I", place, size, 0, 0) for place, size in zip(places, packets))


def ret_data(number, data):
    return struct.pack(">5IiI", 3, number, 0, 0, 0, 0, len(data)) + bytes(20) + data


def ret_submit(number, direction, length, byte=0xA5, status=0):
    head = struct.pack(">5IiI", 3, number, 0, 0, 0, status, length) + bytes(20)
    return head + (bytes([byte]) * length if direction == IN else b"")


# ---- the lines of a tape that bring packets

def line(side, packet):
    return b"%s %s\n" % (side, packet.hex().encode())


def imported():
    """A host and its device, and a client's import."""
    return line(b"h", device()) + line(b"c", IMPORT)


def transfer(number, direction, length):
    # Nothing but the submits takes ids, so a submit's id is its number.
    return line(b"c", submit(number, direction, length)) + line(b"h", answer(number, direction, length))
