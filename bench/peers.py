"""The program between sockets of this machine, and the peers at both ends, as the scripts of this folder play them."""
import os
import resource
import signal
import socket
import struct
import subprocess
import time
from pathlib import Path

from packets import HOST_HELLO, IMPORT, device

TOP = Path(__file__).resolve().parent.parent
PROGRAM = TOP / "crates/usbgate_cli/out/usbgate_cli"
PATIENCE = 20
HELLO_LENGTH, HEAD_LENGTH, FIELDS_LENGTH, URB_LENGTH, IMPORTED_LENGTH = 80, 16, 10, 48, 320
BULK_PACKET, CANCEL, DISCONNECT, DISCONNECT_ACK = 101, 21, 2, 24
CANCELLED, SHUT_DOWN = 1, -108


def free_port():
    """A port that nothing is bound to now."""
    with socket.socket() as probe:
        probe.bind(("127.0.0.1", 0))
        return probe.getsockname()[1]


def tuned(link):
    link.setsockopt(socket.IPPROTO_TCP, socket.TCP_NODELAY, 1)
    link.settimeout(PATIENCE)
    return link


def dialed(port):
    for _ in range(500):
        try:
            return tuned(socket.create_connection(("127.0.0.1", port)))
        except ConnectionRefusedError:
            time.sleep(0.01)
    raise AssertionError("nothing listens")


class Peer:
    """One end of a link, which reads exactly what it asks for, and keeps it where that is asked."""

    keeps = False

    def __init__(self, link):
        self.link = link
        self.stream = link.makefile("rb", buffering=1 << 18)
        self.got = bytearray() if Peer.keeps else None

    def send(self, data):
        self.link.sendall(data)

    def read(self, count):
        data = self.stream.read(count)
        assert len(data) == count, "the link ended %d bytes early" % (count - len(data))
        if self.got is not None:
            self.got += data
        return data

    def ends(self):
        return self.stream.read(1) == b""

    def close(self):
        self.stream.close()
        self.link.close()

    def reset(self):
        """Goes as a process does that is killed with bytes unread: its link is reset."""
        self.link.setsockopt(socket.SOL_SOCKET, socket.SO_LINGER, struct.pack("ii", 1, 0))
        self.close()

    def kill(self):
        """Goes with a process that holds the link as the last one, and is killed."""
        holder = os.fork()
        if holder == 0:
            signal.pause()
        self.close()
        os.kill(holder, signal.SIGKILL)
        os.waitpid(holder, 0)

    def shut(self):
        """Closes its own direction of the link."""
        self.link.shutdown(socket.SHUT_WR)


class Host(Peer):
    """The usbredir end, once the gateway has dialed it and its device is told."""

    def __init__(self, link, cut=None):
        super().__init__(link)
        for piece in cut(device()) if cut else [device()]:
            self.send(piece)
        self.read(HELLO_LENGTH)

    def packet(self):
        """The type, the id, the length and the data of the next packet to the host."""
        kind, length, ident = struct.unpack("<IIQ", self.read(HEAD_LENGTH))
        if kind != BULK_PACKET:
            return kind, ident, length, self.read(length)
        fields = self.read(FIELDS_LENGTH)
        low, high = struct.unpack("<HxxxxH", fields[2:])
        return kind, ident, low | high << 16, self.read(length - FIELDS_LENGTH)


class Client(Peer):
    """A USB/IP client that has imported the device, which was told before the client asked for it."""

    def __init__(self, link, status=0):
        super().__init__(link)
        time.sleep(0.2)
        self.send(IMPORT)
        length = IMPORTED_LENGTH if status == 0 else 8
        assert struct.unpack(">I", self.read(length)[4:8])[0] == status, "the import's status isn't %d" % status


def imported(session):
    """A client that has imported the device, where the host may not have answered yet what the one before left."""
    for _ in range(200):
        client = Peer(session.link())
        client.send(IMPORT)
        if struct.unpack(">I", client.read(8)[4:])[0] == 0:
            client.read(IMPORTED_LENGTH - 8)
            return client
        client.close()
        time.sleep(0.01)
    raise AssertionError("the device isn't imported")


def gateway_at(host, listen, after_loss="keep", record=None):
    ends = ["--host", "127.0.0.1:%d" % host, "--listen", "127.0.0.1:%d" % listen]
    recorded = ["--record", record] if record else []
    return [PROGRAM, "serve", *ends, "--idle", "4294967295", "--after-loss", after_loss, *recorded]


def relay_at(host, listen):
    """A plain relay at the same ports."""
    return ["socat", "-b", "65536", "TCP-LISTEN:%d,nodelay,reuseaddr" % listen, "TCP:127.0.0.1:%d,nodelay" % host]


def limited(most):
    """From now on no file of this process can have more bytes, and a write that would need that fails."""
    signal.signal(signal.SIGXFSZ, signal.SIG_IGN)
    resource.setrlimit(resource.RLIMIT_FSIZE, (most, most))


class Session:
    """The program between a host and clients. It ends with the block, and with a status of its own."""

    def __init__(self, cut=None, after_loss="keep", out=None, record=None, most=None):
        self.limit = None if most is None else lambda: limited(most)
        self.cut = cut
        self.after_loss = after_loss
        self.out = out
        self.record = record
        self.status = None

    def __enter__(self):
        with socket.create_server(("127.0.0.1", 0)) as door:
            self.port = free_port()
            door.settimeout(PATIENCE)
            command = gateway_at(door.getsockname()[1], self.port, self.after_loss, self.record)
            self.program = subprocess.Popen(command, stdout=self.out, stderr=self.out, preexec_fn=self.limit)
            self.host = Host(tuned(door.accept()[0]), self.cut)
        return self

    def link(self):
        return dialed(self.port)

    def ended(self):
        self.status = self.program.wait(PATIENCE)
        assert self.status >= 0, "the program ended by signal %d" % -self.status
        return self.status

    def __exit__(self, *_):
        self.host.close()
        if self.status is None:
            self.program.kill()
            self.program.wait()


class Lent:
    """A device that `host` lends, and its guest, who has asked for packets: one request after the other, each with the
    type of its answer. It ends with the block."""

    def __init__(self, name, idle, asked):
        self.port, self.asked = free_port(), asked
        lender = ["host", "--device", name, "--listen", "127.0.0.1:%d" % self.port, "--idle", str(idle)]
        self.program = subprocess.Popen([PROGRAM, *lender])

    def __enter__(self):
        self.guest = Peer(dialed(self.port))
        self.guest.send(HOST_HELLO)
        self.guest.read(HELLO_LENGTH)
        for packet, answer in self.asked:
            self.guest.send(packet)
            while self.kind() != answer:
                pass
        return self

    def kind(self):
        """The type of the next packet to the guest."""
        kind, length, _ = struct.unpack("<IIQ", self.guest.read(HEAD_LENGTH))
        self.guest.read(length)
        return kind

    def __exit__(self, *_):
        self.guest.close()
        self.program.kill()
        self.program.wait()


def processor_time(pid):
    fields = Path("/proc/%d/stat" % pid).read_text().rsplit(")", 1)[1].split()
    return (int(fields[11]) + int(fields[12])) / os.sysconf("SC_CLK_TCK")
