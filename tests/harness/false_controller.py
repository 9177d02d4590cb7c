"""A controller that does as a test says: it stays silent, or replies what and when it likes. And who disturbs it."""
import socket
import struct
import threading
import time


def padded(text):
    return text.encode() + b"\0" * (4 - len(text) % 4)


def reply(address, made, known, refused, code):
    """The datagram of a `/reply`."""
    return padded("/reply") + padded(",siiii") + padded(address[:64]) + struct.pack(">iiii", made, known, refused, code)


def address_of(datagram):
    return datagram[:datagram.index(b"\0")].decode()


class FalseController:
    """A socket that keeps what it is asked: each address with the port that asked."""

    def __init__(self):
        self.wire = socket.socket(socket.AF_INET, socket.SOCK_DGRAM)
        self.wire.bind(("127.0.0.1", 0))
        self.port = self.wire.getsockname()[1]

    def hear(self, seconds=5.0):
        """The address that is asked next, and the port that asks."""
        self.wire.settimeout(seconds)
        datagram, (_, port) = self.wire.recvfrom(4096)
        return address_of(datagram), port

    def say(self, port, datagram):
        self.wire.sendto(datagram, ("127.0.0.1", port))

    def close(self):
        self.wire.close()


class Pretender(threading.Thread):
    """Has the port of a controller that has ended: it gives the last status of that one, and says of each command that it
    was made."""

    def __init__(self, port, status):
        super().__init__(daemon=True)
        self.wire = socket.socket(socket.AF_INET, socket.SOCK_DGRAM)
        self.wire.bind(("127.0.0.1", port))
        self.wire.settimeout(0.05)
        self.status, self.asked, self.stopped = status, [], False

    def run(self):
        while not self.stopped:
            try:
                datagram, sender = self.wire.recvfrom(4096)
            except socket.timeout:
                continue
            address = address_of(datagram)
            if address == "/status":
                self.wire.sendto(self.status, sender)
            else:
                self.asked.append(address)
                self.wire.sendto(reply(address, 1, 0, 0, 0), sender)
        self.wire.close()

    def stop(self):
        self.stopped = True
        self.join()


class Strays(threading.Thread):
    """Datagrams of a stranger to a port of this machine, so many a second."""

    def __init__(self, port, rate):
        super().__init__(daemon=True)
        self.port, self.rate, self.sent, self.stopped = port, rate, 0, False

    def run(self):
        wire = socket.socket(socket.AF_INET, socket.SOCK_DGRAM)
        stray, began = reply("/cue/1/go", 1, 0, 0, 0), time.monotonic()
        while not self.stopped:
            due = int((time.monotonic() - began) * self.rate) + 1
            while self.sent < due and not self.stopped:
                self.sent += 1
                try:
                    wire.sendto(stray, ("127.0.0.1", self.port))
                except ConnectionRefusedError:
                    pass
            time.sleep(min(0.001, 1 / self.rate))
        wire.close()

    def stop(self):
        self.stopped = True
        self.join()
