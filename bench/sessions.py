"""Sessions between real sockets, each of which fails where something isn't as it should be."""
import os
import socket
import struct
import subprocess
import tempfile
import threading
import time

from packets import HOST_HELLO, IN, OUT, answer, device, interrupt_packet, redir, ret_data, ret_submit, submit
from packets import submit_control, submit_stream, unlink
from peers import BULK_PACKET, CANCEL, CANCELLED, DISCONNECT, DISCONNECT_ACK, PATIENCE, PROGRAM, SHUT_DOWN
from peers import Client, Lent, Peer, Session, dialed, free_port, gateway_at, imported, processor_time

KEYBOARD = bytes.fromhex("12010002 00000040 f0ff0100 00010001 0001")


def odd_pieces(data):
    sizes = [1, 7, 2, 13, 3, 29, 5, 11]
    at = count = 0
    while at < len(data):
        size = sizes[count % len(sizes)]
        yield data[at:at + size]
        at, count = at + size, count + 1


def cut_into_odd_pieces():
    lengths = [1, 64, 511, 512, 513, 4_096]
    with Session(odd_pieces) as session:
        client = Client(session.link())
        asked = b"".join(submit(number, number % 2, length) for number, length in enumerate(lengths, 1))
        for piece in odd_pieces(asked):
            client.send(piece)
        for number, length in enumerate(lengths, 1):
            kind, ident, wanted, data = session.host.packet()
            sent = b"\x5a" * length if number % 2 == OUT else b""
            assert (kind, ident, wanted, data) == (BULK_PACKET, number, length, sent), "another packet came"
            for piece in odd_pieces(answer(ident, number % 2, length)):
                session.host.send(piece)
        for number, length in enumerate(lengths, 1):
            wanted = ret_submit(number, number % 2, length)
            assert client.read(len(wanted)) == wanted, "another answer came"
        client.close()
        session.host.close()
        assert session.ended() == 0


def one_after_the_other():
    with Session() as session:
        first = Client(session.link())
        second = session.link()
        first.send(submit(1, IN, 64))
        assert session.host.packet()[:2] == (BULK_PACKET, 1)
        first.close()
        assert session.host.packet()[:2] == (CANCEL, 1), "no cancel for a client that left"
        session.host.send(answer(1, IN, 0, status=CANCELLED))
        client = Client(second)
        client.send(submit(1, IN, 64))
        assert session.host.packet()[:2] == (BULK_PACKET, 2)
        session.host.send(answer(2, IN, 64))
        wanted = ret_submit(1, IN, 64)
        assert client.read(len(wanted)) == wanted, "another answer came"
        client.close()


IN_FLIGHT, LENGTH = 256, 64


def ask(client):
    client.send(b"".join(submit(number, IN, LENGTH) for number in range(1, IN_FLIGHT + 1)))


def asked_of(host):
    packets = [host.packet() for _ in range(IN_FLIGHT)]
    assert all(kind == BULK_PACKET for kind, *_ in packets), "another packet came"
    return [ident for _, ident, *_ in packets]


def leave_unread(session, client, idents):
    """Goes when the first answers have come, and isn't there to read them."""
    for ident in idents[:16]:
        session.host.send(answer(ident, IN, LENGTH))
    while len(client.link.recv(65_536, socket.MSG_PEEK)) < 16 * len(ret_submit(1, IN, LENGTH)):
        time.sleep(0.001)
    client.close()
    return idents[16:]


def leave_half(_, client, idents):
    """Closes one direction, and waits for the other to be closed."""
    client.shut()
    assert client.ends(), "the link isn't closed"
    client.close()
    return idents


def leave(how):
    def leaving(_, client, idents):
        how(client)
        return idents
    return leaving


def fifty_clients_that_go():
    ways = [leave(Peer.close), leave(Peer.reset), leave(Peer.kill), leave_unread, leave_half]
    with Session() as session:
        for turn in range(50):
            client = imported(session)
            ask(client)
            left = ways[turn % len(ways)](session, client, asked_of(session.host))
            for ident in left:
                assert session.host.packet()[:2] == (CANCEL, ident), "a transfer isn't cancelled"
                session.host.send(answer(ident, IN, 0, status=CANCELLED))
        client = imported(session)
        client.send(submit(1, IN, 64))
        session.host.send(answer(session.host.packet()[1], IN, 64))
        wanted = ret_submit(1, IN, 64)
        assert client.read(len(wanted)) == wanted, "another answer came"
        client.close()


def expect_lost(client):
    for number in range(1, IN_FLIGHT + 1):
        wanted = ret_submit(number, IN, 0, status=SHUT_DOWN)
        assert client.read(len(wanted)) == wanted, "a request isn't answered -108"


def hosts_that_go():
    for after_loss in ["keep", "close"]:
        for how in [Peer.close, Peer.reset, Peer.kill, Peer.shut]:
            with Session(after_loss=after_loss) as session:
                client = Client(session.link())
                ask(client)
                asked_of(session.host)
                how(session.host)
                expect_lost(client)
                if after_loss == "close":
                    assert client.ends(), "the client isn't let go"
                client.close()
                assert session.ended() == 0, "the gateway ends with %d" % session.status


def device_that_is_replugged():
    for after_loss in ["keep", "close"]:
        with Session(after_loss=after_loss) as session:
            client = Client(session.link())
            for _ in range(3):
                ask(client)
                asked_of(session.host)
                session.host.send(redir(DISCONNECT, 0, b""))
                expect_lost(client)
                assert session.host.packet()[0] == DISCONNECT_ACK, "the disconnect isn't acknowledged"
                if after_loss == "close":
                    assert client.ends(), "the client isn't let go"
                client.close()
                session.host.send(device()[len(HOST_HELLO):])
                client = imported(session)
            client.close()


def both_write_first():
    """Each peer writes 16 MiB before it reads; then each reads by itself."""
    length = 1 << 24
    wrong = []
    with Session() as session:
        client, host = Client(session.link()), session.host
        client.send(submit(1, IN, length))
        ident = host.packet()[1]

        def play_host():
            host.send(answer(ident, IN, length))
            kind, asked, wanted, data = host.packet()
            if (kind, wanted, data) != (BULK_PACKET, length, b"\x5a" * length):
                wrong.append("another packet came")
            host.send(answer(asked, OUT, length))

        hosting = threading.Thread(target=play_host)
        hosting.start()
        client.send(submit(2, OUT, length))
        for number, direction in [(1, IN), (2, OUT)]:
            wanted = ret_submit(number, direction, length)
            assert client.read(len(wanted)) == wanted, "another answer came"
        hosting.join(PATIENCE)
        assert not hosting.is_alive() and not wrong, wrong
        client.close()


def idle_share():
    with Session() as session:
        client = Client(session.link())
        before, begin = processor_time(session.program.pid), time.monotonic()
        time.sleep(10)
        share = (processor_time(session.program.pid) - before) / (time.monotonic() - begin)
        client.close()
        assert share < 0.02, "an idle gateway takes %.1f %% of a processor" % (100 * share)
        return "%.2f %% of a processor" % (100 * share)


def reader_that_stops():
    count, length = 256, 65_536
    with Session() as session:
        client = Client(session.link())
        client.send(b"".join(submit(number, IN, length) for number in range(1, count + 1)))

        def answer_all():
            for _ in range(count):
                ident = session.host.packet()[1]
                session.host.send(answer(ident, IN, length, ident % 251))

        answering = threading.Thread(target=answer_all)
        answering.start()
        time.sleep(2)
        for number in range(1, count + 1):
            wanted = ret_submit(number, IN, length, number % 251)
            assert client.read(len(wanted)) == wanted, "an answer was lost"
        answering.join()
        client.close()


def device_that_is_lent():
    lent, served = free_port(), free_port()
    lender = ["host", "--device", "keyboard", "--listen", "127.0.0.1:%d" % lent, "--idle", "4294967295"]
    requests = [(submit_control(1, bytes.fromhex("8006000100001200")), KEYBOARD)]
    requests += [(submit_control(2, bytes.fromhex("0009010000000000")), b"")]
    requests += [(submit_stream(key, 1, 8), bytes([0, 0, key, 0, 0, 0, 0, 0])) for key in range(4, 30)]
    programs = [subprocess.Popen([PROGRAM, *lender])]
    try:
        time.sleep(0.5)
        programs.append(subprocess.Popen(gateway_at(lent, served)))
        client = Client(dialed(served))
        for asked, data in requests:
            client.send(asked)
            wanted = ret_data(struct.unpack(">I", asked[4:8])[0], data)
            assert client.read(len(wanted)) == wanted, "the device answers something else"
        client.close()
        programs[0].kill()
        assert programs[1].wait(PATIENCE) == 0, "the gateway doesn't end with its host"
    finally:
        for program in programs:
            program.kill()
            program.wait()


CONFIGURATION = (redir(6, 1, bytes([1])), 8)
KEYS = [CONFIGURATION, (redir(15, 2, bytes([0x81])), 17)]
TONE = [CONFIGURATION, (redir(9, 2, bytes([0, 1])), 11), (redir(12, 3, bytes([0x81, 8, 2])), 14)]
INTERRUPT_PACKET, ISO_PACKET = 103, 102
STOP_INTERRUPT, INTERRUPT_STATUS = 16, 17


def packets_a_second():
    told = []
    for name, asked, wanted, a_second in [("keyboard", KEYS, INTERRUPT_PACKET, 100), ("tone", TONE, ISO_PACKET, 1_000)]:
        with Lent(name, 4294967295, asked) as lent:
            before, begin, count = processor_time(lent.program.pid), time.monotonic(), 0
            while time.monotonic() < begin + 3:
                count += lent.kind() == wanted
            took = time.monotonic() - begin
            share = (processor_time(lent.program.pid) - before) / took
        told.append("%s %.0f, %.1f %% of a processor" % (name, count / took, 100 * share))
        assert 0.9 < count / took / a_second < 1.1, "; ".join(told)
    return "; ".join(told)


def idle_with_a_stream_up():
    with Lent("keyboard", 100, KEYS) as lent:
        begin = time.monotonic()
        status = None
        while status is None and time.monotonic() < begin + PATIENCE:
            lent.guest.stream.read1(4_096)
            status = lent.program.poll()
        took = time.monotonic() - begin
        assert status == 8, "it ends with %s" % status
        assert 0.9 < took < 2, "100 rounds of 10 ms take %.2f s" % took
        return "%.2f s" % took


def three_clients_and_a_host_that_goes(session):
    first = Client(session.link())
    first.send(submit(1, IN, 64))
    assert session.host.packet()[:2] == (BULK_PACKET, 1)
    first.send(unlink(2, 1))
    assert session.host.packet()[:2] == (CANCEL, 1), "no cancel for an unlink"
    session.host.send(answer(1, IN, 0, status=CANCELLED))
    first.read(len(ret_submit(2, OUT, 0)))
    first.send(submit_stream(3, 2, 8))
    session.host.packet()
    session.host.send(interrupt_packet(8))
    assert first.read(len(ret_data(3, bytes(8)))) == ret_data(3, b"\xa5" * 8), "another packet came"
    first.close()
    kind, ident, *_ = session.host.packet()
    assert kind == STOP_INTERRUPT, "no stop for a client that has left"
    session.host.send(redir(INTERRUPT_STATUS, ident, bytes([0, 0x82])))
    second = Client(session.link())
    second.send(submit(1, OUT, 65_536))
    kind, ident, *_ = session.host.packet()
    assert kind == BULK_PACKET
    session.host.send(answer(ident, OUT, 65_536))
    assert second.read(len(ret_submit(1, OUT, 65_536))) == ret_submit(1, OUT, 65_536), "another answer came"
    second.close()
    third = Client(session.link())
    third.send(submit(1, IN, 64))
    assert session.host.packet()[0] == BULK_PACKET
    session.host.close()
    third.read(len(ret_submit(1, IN, 0)))
    third.close()
    assert session.ended() == 0
    return [first, second, third]


def replayed(tape):
    """What the replay of a tape sends to each side."""
    with open(tape, "rb") as text:
        lines = subprocess.run([PROGRAM, "replay"], stdin=text, capture_output=True, check=True).stdout.decode().split("\n")
    return [b"".join(bytes.fromhex(line[2:]) for line in lines if line.startswith(side)) for side in ("C ", "H ")]


def recorded_and_replayed():
    Peer.keeps = True
    try:
        with tempfile.TemporaryDirectory() as folder:
            tape = os.path.join(folder, "a.tape")
            with Session(record=tape) as session:
                clients = three_clients_and_a_host_that_goes(session)
                to_host = bytes(session.host.got)
            size = os.path.getsize(tape)
            to_clients = b"".join(bytes(client.got) for client in clients)
            assert replayed(tape) == [to_clients, to_host], "the replay sends something else"
            again = subprocess.run([PROGRAM, *gateway_at(1, 1, record=tape)[1:]], capture_output=True)
            assert again.returncode == 1 and os.path.getsize(tape) == size, "a file that is there is written"
            assert os.stat(tape).st_mode & 0o777 == 0o600, "others may read it"
            return "%d bytes" % size
    finally:
        Peer.keeps = False


def recorded_until_the_disk_is_full():
    with tempfile.TemporaryDirectory() as folder:
        tape = os.path.join(folder, "a.tape")
        with Session(record=tape, most=100) as session:
            assert session.ended() == 4, "it goes on unrecorded"
        assert os.path.getsize(tape) == 100
        return "100 bytes"


SESSIONS = [cut_into_odd_pieces, recorded_and_replayed, recorded_until_the_disk_is_full, one_after_the_other,
            fifty_clients_that_go, hosts_that_go, device_that_is_replugged, both_write_first, idle_share, reader_that_stops, device_that_is_lent,
            packets_a_second, idle_with_a_stream_up]
