"""A run of `usbgate model` as a tape of `usbgate replay`, whose gateway begins at another id: the clients' pieces as they
were, and what the modelled device's host sent with the ids that it would have had to answer. With 64-bit ids, or with a
host that has 32-bit ones, after whose greatest 1 comes."""
import struct

HELLO, ACKNOWLEDGED = 0, 24
STATUSES = (8, 11, 14, 17, 20)
DATA, ISO_DATA, INTERRUPT_DATA = (100, 101), 102, 103
WIDE_IDS = 1 << 5


def packets_in(data, is_first):
    """The kind, the id and the rest of each packet; a hello's header has a 32-bit id."""
    at = 0
    while at < len(data):
        kind, length = struct.unpack_from("<II", data, at)
        size = 12 if is_first else 16
        ident = int.from_bytes(data[at + 8:at + size], "little")
        yield kind, ident, data[at + size:at + size + length], size + length
        at, is_first = at + size + length, False


def is_answer(kind, rest):
    """Whether a packet of the host has an id that the gateway gave: packets of receiving streams have the host's own."""
    return kind in STATUSES or kind in DATA or kind == INTERRUPT_DATA and rest[0] < 0x80


class Renumbered:
    """The packets of both ways with ids from another first one on, by those of a run that began at 1."""

    def __init__(self, first, is_wide):
        self.first, self.is_wide = first, is_wide
        self.greatest = (1 << 64) - 1 if is_wide else (1 << 32) - 1

    def number(self, ident):
        return (ident + self.first - 2) % self.greatest + 1 if ident else 0

    def packet(self, kind, ident, rest, is_first):
        return struct.pack("<IIQ" if self.is_wide and not is_first else "<III", kind, len(rest), ident) + rest

    def to_host(self, data, is_first):
        """What the gateway would have sent."""
        return b"".join(
            self.packet(kind, ident if kind in (HELLO, ACKNOWLEDGED) else self.number(ident), rest, is_first)
            for kind, ident, rest, _ in packets_in(data, is_first))

    def from_host(self, data, is_first):
        """What the host would have sent, each packet with its size in the run and its bytes."""
        for kind, ident, rest, size in packets_in(data, is_first):
            if kind == HELLO and not self.is_wide:
                caps, = struct.unpack_from("<I", rest, 64)
                rest = rest[:64] + struct.pack("<I", caps & ~WIDE_IDS)
            yield size, self.packet(kind, self.number(ident) if is_answer(kind, rest) else ident, rest, is_first)
            is_first = False


class Wire:
    """Packets on their way to the gateway, each with its size in the run. As many whole ones get across as in the run,
    and of the next one some of its bytes, but never all."""

    def __init__(self, packets):
        self.packets, self.crossed, self.given = list(packets), 0, 0

    def take(self, count):
        self.crossed, data = self.crossed + count, b""
        while self.packets and self.crossed >= self.packets[0][0]:
            size, packet = self.packets.pop(0)
            data += packet[self.given:]
            self.crossed, self.given = self.crossed - size, 0
        if self.packets:
            packet = self.packets[0][1]
            upto = max(self.given, min(self.crossed, len(packet) - 1))
            data, self.given = data + packet[self.given:upto], upto
        return data


def renumbered(steps, crossings, told, first, is_wide):
    """The tape for `replay`, and the lines that it is to print, by those that the run printed. `crossings` has, for each
    step that brings bytes to the gateway, how many these were."""
    ids, tape, wanted, sent, is_first = Renumbered(first, is_wide), [], [], b"", True
    for line in told:
        if line[0] == "H":
            wanted.append(f"H {ids.to_host(bytes.fromhex(line[2:]), is_first).hex()}")
            is_first = False
        elif line[0] == "D":
            sent += bytes.fromhex(line[2:])
        elif line[0] != "T":
            wanted.append(line)
    wire, crossings = Wire(ids.from_host(sent, True)), iter(crossings)
    for step in steps:
        if step[0] == "c":
            tape.append(step)
        elif step[0] == "h":
            data = wire.take(next(crossings))
            tape += [f"h {data.hex()}"] if data else []
    return tape, wanted
