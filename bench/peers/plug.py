"""A modelled device that can be pulled out and plugged in again, while the link of its host stays up."""
import contextlib
import socket
import struct
import threading

HELLO_LENGTH, HEAD_LENGTH = 80, 16
DISCONNECT = struct.pack("<IIQ", 2, 0, 0)


def read(link, count):
    """So many bytes, or fewer where the link ends."""
    data = b""
    while len(data) < count:
        piece = link.recv(count - len(data))
        if not piece:
            break
        data += piece
    return data


def packet(link):
    """The next packet of a link whose sides have ids of 64 bits, or nothing where it ends."""
    try:
        head = read(link, HEAD_LENGTH)
        if len(head) < HEAD_LENGTH:
            return b""
        return head + read(link, struct.unpack("<I", head[4:8])[0])
    except OSError:
        return b""


class Plug:
    """Stands between the gateway and a `usbgate host`, packet by packet. Pulled out, it tells the gateway so and lets its
    `host` go; plugged in, it tells the gateway of the device of another `host`, on the same link."""

    def __init__(self, lend):
        """`lend` begins a `host`, and gives its port."""
        self.lend, self.device, self.lock = lend, None, threading.Lock()
        self.door = socket.create_server(("127.0.0.1", 0))
        self.port = self.door.getsockname()[1]
        threading.Thread(target=self.hear_gateway, daemon=True).start()

    def hear_gateway(self):
        self.gateway, _ = self.door.accept()
        self.hello = read(self.gateway, HELLO_LENGTH)
        self.plug(self.gateway.sendall)
        while said := packet(self.gateway):
            with self.lock:
                # what is asked of a device that is gone is lost
                if self.device:
                    self.device.sendall(said)

    def hear_device(self, device):
        while said := packet(device):
            with self.lock:
                if self.device is device:
                    self.gateway.sendall(said)

    def plug(self, take_hello=lambda hello: None):
        """Plugs the device in. Its host's hello is for the link's beginning alone."""
        device = socket.create_connection(("127.0.0.1", self.lend()))
        device.sendall(self.hello)
        take_hello(read(device, HELLO_LENGTH))
        with self.lock:
            self.device = device
        threading.Thread(target=self.hear_device, args=[device], daemon=True).start()

    def pull(self):
        with self.lock:
            device, self.device = self.device, None
            self.gateway.sendall(DISCONNECT)
        device.shutdown(socket.SHUT_RDWR)

    def close(self):
        """Ends the host's link, unless the gateway has."""
        with contextlib.suppress(OSError):
            self.gateway.shutdown(socket.SHUT_RDWR)
