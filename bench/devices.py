"""The modelled devices, written anew by docs/PROTOCOL.md: what each answers on endpoint 0 and on its other endpoints,
and what it sends by itself. A state is never changed in place."""
import struct
from dataclasses import dataclass, replace
from typing import NamedTuple, Optional

CONTROL, ISO, BULK, INTERRUPT, INVALID = range(5)
SUCCESS, CANCELLED, INVAL, IO_ERROR, STALL, TIMEOUT, BABBLE = range(7)


class Setup(NamedTuple):
    kind: int
    request: int
    value: int
    index: int
    length: int


class Transfer(NamedTuple):
    endpoint: int
    setup: Optional[Setup]
    wanted: int
    body: bytes


class Outcome(NamedTuple):
    status: int
    done: int
    body: bytes


class Row(NamedTuple):
    kind: int
    interface: int
    largest: int


STALLED = Outcome(STALL, 0, b"")
NO_ROW = Row(INVALID, 0, 0)
CONTROL_ROW = Row(CONTROL, 0, 64)


def gives(body):
    return Outcome(SUCCESS, len(body), body)


def takes(count):
    return Outcome(SUCCESS, count, b"")


def is_in(endpoint):
    return endpoint >= 128


def is_control(endpoint):
    return endpoint % 128 == 0


@dataclass(frozen=True)
class State:
    """What every device keeps, and what it has of its own."""
    configuration: int = 0
    setting: int = 0
    halted: frozenset = frozenset()
    own: object = None


class Device:
    """A device of one configuration and one interface. `settings` has the endpoints of each alternate setting."""
    settings = {}
    first = None

    def __init__(self, product, configuration, name):
        self.descriptors = {
            0x0100: bytes.fromhex(f"12010002 00000040 f0ff{product:02x}00 00010001 0001"),
            0x0200: bytes.fromhex(configuration),
            0x0300: bytes.fromhex("04030904"),
            0x0301: bytes([2 + 2 * len(name), 3]) + name.encode("utf-16-le"),
        }

    def start(self):
        return State(own=self.first)

    def row(self, state, endpoint):
        if is_control(endpoint):
            return CONTROL_ROW
        if state.configuration == 0:
            return NO_ROW
        return self.settings[state.setting].get(endpoint, NO_ROW)

    def runs(self, state, endpoint):
        return self.row(state, endpoint).kind != INVALID and endpoint not in state.halted

    # ---- endpoint 0

    def perform(self, state, transfer):
        """The state after a transfer and what came of it, or None where the device isn't ready."""
        if transfer.setup is not None:
            return self.control(state, transfer.setup, transfer.wanted)
        if not self.runs(state, transfer.endpoint):
            return state, STALLED
        return self.move(state, transfer)

    def control(self, state, setup, wanted):
        given = self.read(state, setup)
        if given is not None:
            return state, gives(given[:min(setup.length, wanted)])
        new = self.written(state, setup)
        return (state, STALLED) if new is None else (new, takes(0))

    def has(self, state, index):
        return index < 256 and index % 128 < 16 and self.row(state, index).kind != INVALID

    def read(self, state, setup):
        """What a request gives, or None where it gives nothing."""
        configured = state.configuration != 0 and setup.index == 0
        match (setup.kind, setup.request):
            case (0x80, 6):
                return self.descriptors.get(setup.value)
            case (0x80, 0):
                return bytes(2)
            case (0x81, 0) if configured:
                return bytes(2)
            case (0x82, 0) if self.has(state, setup.index):
                return bytes([setup.index in state.halted, 0])
            case (0x80, 8):
                return bytes([state.configuration])
            case (0x81, 10) if configured:
                return bytes([state.setting])
        return None

    def written(self, state, setup):
        """The state after a request that has no data, or None where it is refused."""
        empty = setup.length == 0
        match (setup.kind, setup.request):
            case (0x02, 1) if setup.value == 0 and self.has(state, setup.index):
                return replace(state, halted=state.halted - {setup.index})
            case (0x02, 3) if setup.value == 0 and self.has(state, setup.index):
                return state if is_control(setup.index) else replace(state, halted=state.halted | {setup.index})
            case (0x00, 5) if empty:
                return state
            case (0x00, 9) if empty and setup.value < 2:
                return State(setup.value, 0, frozenset(), self.renewed(state))
            case (0x01, 11) if empty and state.configuration and setup.index == 0 and setup.value in self.settings:
                return State(state.configuration, setup.value, frozenset(), self.renewed(state))
            case (0x23, 3) if empty and setup.value == 4:
                return State(0, 0, frozenset(), self.renewed(state))
        return None

    def renewed(self, state):
        """What it keeps of its own behind a change."""
        return self.first

    # ---- the other endpoints

    def move(self, state, transfer):
        return state, STALLED

    def offer(self, state, endpoint):
        """The state behind a packet that it sends by itself and the packet's bytes, or None where it has none."""
        if not self.runs(state, endpoint) or endpoint != 0x81:
            return None
        body = self.sent(state.own)
        return None if body is None else (replace(state, own=state.own + 1), body)

    def sent(self, own):
        return None


class Keyboard(Device):
    settings = {0: {0x81: Row(INTERRUPT, 0, 8)}}
    first = 0

    def __init__(self):
        super().__init__(1, "09021900010100 8032 09040000 01ff000000 0705810308000a", "keyboard")

    def sent(self, own):
        return bytes([0, 0, 4 + own % 26, 0, 0, 0, 0, 0])


class Tone(Device):
    settings = {0: {}, 1: {0x81: Row(ISO, 0, 192)}}
    first = 0

    def __init__(self):
        super().__init__(3, "09022200010100 8032 09040000 00ff000000 09040001 01ff000000 07058101c00001", "tone")

    def sent(self, own):
        return bytes([own % 256]) * 192


BULK_ENDPOINTS = {0x01: Row(BULK, 0, 512), 0x81: Row(BULK, 0, 512)}
BULK_CONFIGURATION = "09022000010100 8032 09040000 02{} 00 07050102000200 07058102000200"


class Loop(Device):
    settings = {0: BULK_ENDPOINTS}
    first = b""
    MOST = 1_048_576

    def __init__(self):
        super().__init__(2, BULK_CONFIGURATION.format("ff0000"), "loop")

    def move(self, state, transfer):
        held, body, wanted = state.own, transfer.body, transfer.wanted
        if is_in(transfer.endpoint):
            if not held and wanted:
                return None
            return replace(state, own=held[wanted:]), gives(held[:wanted])
        if len(body) > self.MOST:
            return state, STALLED
        if len(held) + len(body) > self.MOST:
            return None
        return replace(state, own=held + body), takes(len(body))

    def offer(self, state, endpoint):
        return None


# ---- the disk: mass storage by the bulk-only transport

BLOCK = 512
PASSED, FAILED, PHASE_ERROR = range(3)
UNKNOWN_COMMAND, OUT_OF_RANGE, WRONG_FIELD = 0x20, 0x21, 0x24
INQUIRY = bytes.fromhex("00 80 04 02 1f 00 00 00") + b"USBGATE MODEL DISK      1.0 "


class Command(NamedTuple):
    tag: int
    length: int
    is_in: bool
    block: bytes


class Report(NamedTuple):
    tag: int
    residue: int
    status: int


@dataclass(frozen=True)
class Course:
    """Its blocks, the sense of its last failure, and at which stage of a command it is."""
    blocks: bytes
    sense: Optional[int] = None
    stage: tuple = ("waits",)


class Disk(Device):
    settings = {0: BULK_ENDPOINTS}

    def __init__(self, blocks=64):
        super().__init__(4, BULK_CONFIGURATION.format("080650"), "disk")
        self.first = Course(bytes(BLOCK * blocks))

    def renewed(self, state):
        return Course(state.own.blocks)

    def control(self, state, setup, wanted):
        if (setup.kind, setup.request, setup.length) == (0x21, 0xFF, 0):
            return replace(state, own=replace(state.own, stage=("waits",))), takes(0)
        if (setup.kind, setup.request) == (0xA1, 0xFE):
            return state, gives(bytes(1)[:min(setup.length, wanted)])
        return super().control(state, setup, wanted)

    def offer(self, state, endpoint):
        return None

    def move(self, state, transfer):
        own = state.own
        if is_in(transfer.endpoint):
            match own.stage:
                case ("gives", answer, report):
                    return self.give(state, transfer.wanted, answer, report)
                case ("reports", report):
                    return self.report(state, transfer.wanted, report)
            return None
        match own.stage:
            case ("waits",):
                return self.begin(state, transfer.body)
            case ("gathers", command, data):
                return self.gather(state, command, data, transfer.body)
        return None

    def begin(self, state, body):
        command = self.command(body)
        if command is None:
            return replace(state, halted=state.halted | {0x01, 0x81}), STALLED
        if command.length == 0:
            return self.act(state, command, b""), takes(len(body))
        if not command.is_in:
            return replace(state, own=replace(state.own, stage=("gathers", command, b""))), takes(len(body))
        status, answer, sense, blocks = self.done(state.own, command, b"")
        stage = ("gives", answer[:command.length], Report(command.tag, command.length, status))
        return replace(state, own=Course(blocks, sense, stage)), takes(len(body))

    def command(self, body):
        """The command of a wrapper, or None where it is none."""
        if len(body) != 31:
            return None
        signature, tag, length, flags, unit, size = struct.unpack_from("<4sIIBBB", body)
        if signature != b"USBC" or length > 1_048_576 or unit != 0 or not 1 <= size <= 16:
            return None
        return Command(tag, length, flags >= 128, body[15:])

    def act(self, state, command, data):
        status, _, sense, blocks = self.done(state.own, command, data)
        residue = 0 if status == PASSED else command.length
        return replace(state, own=Course(blocks, sense, ("reports", Report(command.tag, residue, status))))

    def gather(self, state, command, data, body):
        whole = data + body
        if len(whole) > command.length:
            return state, STALLED
        if len(whole) == command.length:
            return self.act(state, command, whole), takes(len(body))
        return replace(state, own=replace(state.own, stage=("gathers", command, whole))), takes(len(body))

    def give(self, state, wanted, answer, report):
        count = min(wanted, len(answer))
        left = report._replace(residue=report.residue - count)
        over = count < wanted or left.residue == 0
        stage = ("reports", left) if over else ("gives", answer[count:], left)
        return replace(state, own=replace(state.own, stage=stage)), gives(answer[:count])

    def report(self, state, wanted, report):
        if wanted < 13:
            return state, STALLED
        wrapper = b"USBS" + struct.pack("<IIB", *report)
        return replace(state, own=replace(state.own, stage=("waits",))), gives(wrapper)

    def done(self, own, command, data):
        """A command's status, what it answers, the sense behind it, and the blocks."""
        code = command.block[0]
        goes = {0x03: True, 0x12: True, 0x25: True, 0x28: True, 0x2A: False}
        if command.length and code in goes and goes[code] != command.is_in:
            return PHASE_ERROR, b"", own.sense, own.blocks
        match code:
            case 0x00:
                return PASSED, b"", own.sense, own.blocks
            case 0x03:
                return PASSED, self.sensed(own.sense)[:command.block[4]], None, own.blocks
            case 0x12:
                if command.block[1] % 2:
                    return FAILED, b"", WRONG_FIELD, own.blocks
                return PASSED, INQUIRY[:int.from_bytes(command.block[3:5], "big")], own.sense, own.blocks
            case 0x25:
                return PASSED, struct.pack(">II", len(own.blocks) // BLOCK - 1, BLOCK), own.sense, own.blocks
            case 0x28 | 0x2A:
                return self.accessed(own, command, data)
        return FAILED, b"", UNKNOWN_COMMAND, own.blocks

    def sensed(self, sense):
        return bytes([0x70, 0, 5 if sense else 0, 0, 0, 0, 0, 10, 0, 0, 0, 0, sense or 0, 0, 0, 0, 0, 0])

    def accessed(self, own, command, data):
        block, = struct.unpack_from(">I", command.block, 2)
        count, = struct.unpack_from(">H", command.block, 7)
        at, end = BLOCK * block, BLOCK * (block + count)
        if end > len(own.blocks):
            return FAILED, b"", OUT_OF_RANGE, own.blocks
        if command.block[0] == 0x28:
            return PASSED, own.blocks[at:end], own.sense, own.blocks
        if command.length != end - at:
            return FAILED, b"", WRONG_FIELD, own.blocks
        return PASSED, b"", own.sense, own.blocks[:at] + data + own.blocks[end:]


DEVICES = {"keyboard": Keyboard, "loop": Loop, "tone": Tone, "disk": Disk}
