"""The device attached directly, written apart from the gateway by the definitions that docs/MODEL.md has in words: what
it keeps, which items of a trace it allows, and what each answers."""
import struct
from dataclasses import dataclass, field
from typing import NamedTuple, Optional

from devices import BABBLE, BULK, CANCELLED, CONTROL, INTERRUPT, INVAL, INVALID, IO_ERROR, ISO, STALL, SUCCESS, TIMEOUT
from devices import Outcome, Row, Setup, Transfer, is_control, is_in

NO_ENTRY, BUSY, INVALID_ARGUMENT, TOO_LONG, SHUT_DOWN, RESET, SHORT = -2, -16, -22, -90, -108, -104, -121
ERRORS = {SUCCESS: 0, CANCELLED: -104, INVAL: -22, IO_ERROR: -71, STALL: -32, TIMEOUT: -110, BABBLE: -75}
MOST_LIVE, MOST_HELD, SHORT_NOT_OK = 4_096, 1_024, 1


class Desc(NamedTuple):
    offset: int
    length: int
    actual: int
    status: int


class Request(NamedTuple):
    number: int
    is_in: bool
    flags: int
    packets: int
    descs: tuple
    transfer: Transfer


class Unlink(NamedTuple):
    number: int
    target: int


# ---- verdicts: NOW with a status, WIRE, ROUTED with a route, STREAM with a row

NOW, WIRE, ROUTED, STREAM = "now", "wire", "routed", "stream"
SET_CONFIG, GET_CONFIG, SET_SETTING, GET_SETTING, RESET_PORT = "set config", "get config", "set alt", "get alt", "reset"
CHANGES = (SET_CONFIG, SET_SETTING, RESET_PORT)


class Verdict(NamedTuple):
    kind: str
    what: object = None

    def is_change(self):
        return self.kind == ROUTED and self.what[0] in CHANGES


class Route(NamedTuple):
    kind: str
    interface: int = 0
    value: int = 0

    def touches(self, interface):
        return self.kind in (SET_CONFIG, RESET_PORT) or self.kind == SET_SETTING and self.interface == interface

    def transfer(self):
        """What the device is asked for in its place."""
        kind, request, value, index, length = {
            SET_CONFIG: (0x00, 9, self.value, 0, 0),
            GET_CONFIG: (0x80, 8, 0, 0, 1),
            SET_SETTING: (0x01, 11, self.value, self.interface, 0),
            GET_SETTING: (0x81, 10, 0, self.interface, 1),
            RESET_PORT: (0x23, 3, 4, 0, 0),
        }[self.kind]
        return Transfer(kind & 0x80, Setup(kind, request, value, index, length), length, b"")


def routed(setup):
    """The verdict of a setup: answered at once, by a route of its own, or as it is."""
    empty = setup.length == 0
    bad = Verdict(NOW, INVALID_ARGUMENT)
    match (setup.kind, setup.request):
        case (0x00, 5):
            return Verdict(NOW, 0) if empty else bad
        case (0x00, 9):
            return Verdict(ROUTED, Route(SET_CONFIG, 0, setup.value)) if empty and setup.value < 256 else bad
        case (0x80, 8):
            return Verdict(ROUTED, Route(GET_CONFIG))
        case (0x01, 11):
            fits = empty and setup.index < 256 and setup.value < 256
            return Verdict(ROUTED, Route(SET_SETTING, setup.index, setup.value)) if fits else bad
        case (0x81, 10):
            return Verdict(ROUTED, Route(GET_SETTING, setup.index)) if setup.index < 256 else bad
        case (0x23, 3) if setup.value == 4:
            return Verdict(ROUTED, Route(RESET_PORT)) if empty else bad
    return Verdict(WIRE)


def of_control(request):
    setup = request.transfer.setup
    crossed = setup.length != 0 and is_in(setup.kind) != request.is_in
    if request.descs or crossed or setup.length != request.transfer.wanted:
        return Verdict(NOW, INVALID_ARGUMENT)
    return routed(setup)


def are_laid(descs, length):
    end = 0
    for desc in descs:
        if desc.length > 65_535 or desc.offset < end:
            return False
        end = desc.offset + desc.length
    return end <= length


def of_endpoint(request, row):
    wanted = request.transfer.wanted
    if row.kind == INVALID:
        return Verdict(NOW, NO_ENTRY)
    if row.kind == CONTROL or (row.kind == ISO) != bool(request.descs) or not are_laid(request.descs, wanted):
        return Verdict(NOW, INVALID_ARGUMENT)
    if row.kind == INTERRUPT and not request.is_in and wanted > 65_535:
        return Verdict(NOW, TOO_LONG)
    if row.kind == BULK or not request.is_in:
        return Verdict(WIRE)
    return Verdict(STREAM, row)


# ---- what is spelled

def ret_submit(request, status, actual, body=b"", descs=()):
    short = request.is_in and not request.descs and status == 0 and actual < request.transfer.wanted
    told = SHORT if short and request.flags & SHORT_NOT_OK else status
    errors = sum(desc.status != 0 for desc in descs)
    head = struct.pack(">5IiIIII8x", 3, request.number, 0, 0, 0, told, actual, 0, request.packets, errors)
    return head + body + b"".join(struct.pack(">IIIi", *desc) for desc in descs)


def without_packets(request, status):
    return ret_submit(request, status, 0, b"", echoed(request, status))


def with_outcome(request, outcome):
    status = ERRORS[outcome.status]
    return ret_submit(request, status, outcome.done, outcome.body, echoed(request, status))


def echoed(request, status):
    return tuple(desc._replace(actual=0, status=status) for desc in request.descs)


def ret_unlink(number, status):
    return struct.pack(">5Ii24x", 4, number, 0, 0, 0, status)


# ---- what packets of a stream give

def cut_interrupt(held, wanted, largest):
    """The fewest packets that fill the request: what it gets, and how many they are; or None."""
    body = b""
    for count, packet in enumerate(held, 1):
        body += packet
        if len(packet) < largest or largest == 0 or len(body) >= wanted:
            status = BABBLE if len(body) > wanted else SUCCESS
            return Outcome(status, len(body[:wanted]), body[:wanted]), count
    return None


def cut_iso(held, descs):
    if len(held) < len(descs):
        return None
    pieces = [packet[:desc.length] for desc, packet in zip(descs, held)]
    filled = tuple(desc._replace(actual=len(piece), status=ERRORS[BABBLE] if len(packet) > desc.length else 0)
                   for desc, packet, piece in zip(descs, held, pieces))
    return b"".join(pieces), filled


# ---- the device

class NotAllowed(Exception):
    """An item of a trace isn't allowed where it stands."""


@dataclass
class Live:
    request: Request
    verdict: Verdict
    unlinker: Optional[int] = None


@dataclass
class Waiting:
    request: Request
    verdict: Verdict
    asked: bool = False

    def transfer(self):
        return self.verdict.what.transfer() if self.verdict.kind == ROUTED else self.request.transfer


class Ran(NamedTuple):
    request: Request
    verdict: Verdict
    outcome: Outcome


@dataclass
class Up:
    row: Row
    way: list = field(default_factory=list)
    held: list = field(default_factory=list)


def queue_of(endpoint):
    return 0 if is_control(endpoint) else endpoint


class Direct:
    """The state, and an item's effect by the method that has its name; each gives the packets that the client gets.
    `seen` counts what happened."""

    def __init__(self, device, seen):
        self.device, self.seen = device, seen
        self.gadget = device.start()
        self.live, self.queue, self.ran, self.streams = {}, [], [], {}
        self.imported = self.gone = False

    def allow(self, holds, why):
        if not holds:
            raise NotAllowed(why)

    def count(self, what):
        self.seen[what] += 1

    def row(self, endpoint):
        return self.device.row(self.gadget, endpoint)

    # ---- I, S, U

    def imports(self):
        self.allow(not self.imported and not self.gone and not self.queue, "an import")
        self.imported = True
        return []

    def verdict(self, request):
        if self.gone:
            return Verdict(NOW, SHUT_DOWN)
        if len(self.live) >= MOST_LIVE:
            return Verdict(NOW, BUSY)
        if request.transfer.setup is not None:
            return of_control(request)
        if any(live.verdict.is_change() for live in self.live.values()):
            self.count("submits while a change is live")
            return Verdict(NOW, NO_ENTRY)
        verdict = of_endpoint(request, self.row(request.transfer.endpoint))
        up = self.streams.get(request.transfer.endpoint)
        return Verdict(STREAM, up.row) if verdict.kind == STREAM and up else verdict

    def submits(self, request):
        self.allow(self.imported, "a submit before an import")
        self.allow(request.number not in self.live, "a submit with a number that is live")
        verdict = self.verdict(request)
        if verdict.kind == NOW:
            self.count(f"submits answered {verdict.what} at once")
            return [without_packets(request, verdict.what)]
        self.count(f"submits by {verdict.what[0]}" if verdict.kind == ROUTED else f"submits by {verdict.kind}")
        answers = self.changes(verdict.what) if verdict.is_change() else []
        self.live[request.number] = Live(request, verdict)
        if verdict.kind == STREAM:
            self.streams.setdefault(request.transfer.endpoint, Up(verdict.what))
        else:
            self.queue.append(Waiting(request, verdict))
        return answers

    def changes(self, route):
        """A change ends what waits for the streams that it touches, and takes these down."""
        def is_ended(live):
            return live.verdict.kind == STREAM and route.touches(live.verdict.what.interface)
        ended = [live for live in self.live.values() if is_ended(live)]
        self.live = {number: live for number, live in self.live.items() if not is_ended(live)}
        down = [endpoint for endpoint, up in self.streams.items() if route.touches(up.row.interface)]
        for endpoint in down:
            del self.streams[endpoint]
        self.seen["waiting submits ended by a change"] += len(ended)
        self.seen["streams ended by a change"] += len(down)
        return [without_packets(live.request, SHUT_DOWN) for live in ended]

    def unlinks(self, number, target):
        self.allow(self.imported, "an unlink before an import")
        live = self.live.get(target)
        if live is not None and live.verdict.kind == STREAM:
            del self.live[target]
            self.count("unlinks of waiting submits")
            return [ret_unlink(number, RESET)]
        for waiting in self.queue:
            waiting.asked |= waiting.request.number == target
        if live is None or live.unlinker is not None:
            self.count("unlinks of nothing" if live is None else "unlinks of what is unlinked")
            return [ret_unlink(number, 0)]
        live.unlinker = number
        return []

    # ---- P, C, A

    def joins(self, more):
        if self.imported:
            self.ran += more
        elif more:
            self.count("requests ended with no client")

    def performs(self, endpoint, number):
        self.allow(not self.gone, "a perform of a device that is gone")
        first = next((w for w in self.queue if queue_of(w.transfer().endpoint) == queue_of(endpoint)), None)
        self.allow(first is not None and first.request.number == number, "a perform that isn't its queue's first")
        done = self.device.perform(self.gadget, first.transfer())
        self.allow(done is not None, "a perform that the device isn't ready for")
        before = self.gadget
        self.gadget, outcome = done
        self.queue.remove(first)
        self.joins(self.flushed(first, outcome, before))
        self.joins([Ran(first.request, first.verdict, self.seen_of(first, outcome))])
        return []

    def flushed(self, change, outcome, before):
        """A change that succeeds takes the requests of the endpoints that it touches off the queue."""
        if not change.verdict.is_change():
            return []
        self.count("changes that succeed" if outcome.status == SUCCESS else "changes that are refused")
        if outcome.status != SUCCESS:
            return []

        def is_touched(waiting):
            endpoint = waiting.transfer().endpoint
            return not is_control(endpoint) and change.verdict.what.touches(self.device.row(before, endpoint).interface)
        gone = [waiting for waiting in self.queue if is_touched(waiting)]
        self.queue = [waiting for waiting in self.queue if not is_touched(waiting)]
        self.seen["requests flushed"] += len(gone)
        return [Ran(waiting.request, waiting.verdict, Outcome(CANCELLED, 0, b"")) for waiting in gone]

    def seen_of(self, waiting, outcome):
        """What the client sees of an outcome."""
        if waiting.verdict.kind != ROUTED:
            return outcome
        route = waiting.verdict.what
        if route.kind in CHANGES or outcome.status != SUCCESS:
            return Outcome(outcome.status, 0, b"")
        byte = bytes([self.gadget.configuration]) if route.kind == GET_CONFIG else (outcome.body[:1] or bytes(1))
        byte = byte[:waiting.request.transfer.setup.length]
        return Outcome(outcome.status, len(byte), byte)

    def cancels(self, number):
        self.allow(not self.gone, "a cancel of a device that is gone")
        first = next((w for w in self.queue if w.request.number == number and w.verdict.kind == WIRE), None)
        self.allow(first is not None and first.asked, "a cancel of what isn't queued or asked back")
        self.queue.remove(first)
        self.joins([Ran(first.request, first.verdict, Outcome(CANCELLED, 0, b""))])
        return []

    def answers(self, number):
        live = self.live.get(number)
        self.allow(self.imported and live is not None, "an answer of what isn't live")
        return self.fills(live) if live.verdict.kind == STREAM else self.answers_ran(live)

    def answers_ran(self, live):
        self.allow(self.ran and self.ran[0].request.number == live.request.number, "an answer that isn't the next")
        outcome = self.ran.pop(0).outcome
        del self.live[live.request.number]
        if live.unlinker is None:
            if outcome.status == CANCELLED:
                self.count("flushed requests answered")
            return [with_outcome(live.request, outcome)]
        if live.verdict.kind == WIRE and outcome.status == CANCELLED:
            self.count("unlinks that won")
            return [ret_unlink(live.unlinker, RESET)]
        self.count("unlinks that lost")
        return [with_outcome(live.request, outcome), ret_unlink(live.unlinker, 0)]

    def fills(self, live):
        endpoint = live.request.transfer.endpoint
        first = next(other for other in self.live.values() if other.verdict.kind == STREAM
                     and other.request.transfer.endpoint == endpoint)
        self.allow(first is live, "an answer that isn't the earliest of its stream")
        up = self.streams.get(endpoint)
        self.allow(up is not None, "an answer by a stream that is down")
        request = live.request
        if request.descs:
            cut = cut_iso(up.held, request.descs)
            self.allow(cut is not None, "an answer by too few packets")
            answer, count = ret_submit(request, 0, len(cut[0]), *cut), len(request.descs)
        else:
            cut = cut_interrupt(up.held, request.transfer.wanted, up.row.largest)
            self.allow(cut is not None, "an answer by too few packets")
            answer, count = with_outcome(request, cut[0]), cut[1]
        self.count("fills by one packet" if count == 1 else "fills by several packets")
        up.held = up.held[count:]
        del self.live[request.number]
        return [answer]

    # ---- O, R, D, E

    def offers(self, endpoint):
        self.allow(not self.gone, "an offer of a device that is gone")
        sent = self.device.offer(self.gadget, endpoint)
        self.allow(sent is not None, "an offer of nothing")
        self.gadget, packet = sent
        up = self.streams.get(endpoint)
        if up is None:
            self.count("packets lost, with their stream down")
        else:
            up.way.append(packet)
        return []

    def arrives(self, endpoint):
        up = self.streams.get(endpoint)
        self.allow(up is not None and up.way, "an arrival of nothing")
        packet = up.way.pop(0)
        if len(up.held) < MOST_HELD:
            up.held.append(packet)
        else:
            self.count("packets lost, with 1,024 held")
        return []

    def goes(self):
        self.allow(self.imported and not self.gone and not self.ran, "a loss ahead of what ran")
        answers = []
        for live in self.live.values():
            self.count("submits lost" if live.unlinker is None else "unlinked submits lost")
            lost = without_packets(live.request, SHUT_DOWN)
            answers.append(lost if live.unlinker is None else ret_unlink(live.unlinker, RESET))
        self.live, self.streams, self.gone = {}, {}, True
        return answers

    def leaves(self):
        if self.imported:
            self.seen["requests left behind in the queue"] += len(self.queue)
            self.seen["answers left behind"] += len(self.ran)
            self.seen["streams left behind"] += len(self.streams)
            for waiting in self.queue:
                waiting.asked = True
            self.live, self.ran, self.streams, self.imported = {}, [], {}, False
        return []
