"""A network that loses, copies and delays datagrams, between a controller and one device."""
import collections
import heapq
import random
import select
import socket
import struct
import threading
import time

LOSS, COPIES = 0.2, 0.2


class LossyNetwork(threading.Thread):
    """Stands at a port of its own, and hands on what it does not lose: some twice, each after a delay of its own. What
    becomes of a datagram is drawn from its bytes and how often they came: a run can be repeated, whatever the load."""

    def __init__(self, device_port, seed, delay):
        super().__init__(daemon=True)
        self.device, self.seed, self.delay = ("127.0.0.1", device_port), seed, delay
        self.front, self.back = self.open(), self.open()  # at the front is the controller, at the back the device
        self.port, self.controller = self.front.getsockname()[1], None
        self.said, self.came, self.overtaken = [], [], 0  # by the device, and to either: address, number, and when
        self.copies = collections.Counter()  # how often the same bytes came to the same side
        self.ended = threading.Event()

    @staticmethod
    def open():
        wire = socket.socket(socket.AF_INET, socket.SOCK_DGRAM)
        wire.bind(("127.0.0.1", 0))
        return wire

    def run(self):
        under_way, latest, count = [], 0, 0
        while not self.ended.is_set():
            ready, _, _ = select.select([self.front, self.back], [], [], 0.005)
            for wire in ready:
                for delay, *copy in self.take(wire):
                    count += 1
                    heapq.heappush(under_way, (time.monotonic() + delay, count, *copy))
            while under_way and under_way[0][0] <= time.monotonic():
                _, number, wire, data = heapq.heappop(under_way)
                self.overtaken += number < latest
                latest = max(latest, number)
                self.hand_on(wire, data)

    def hand_on(self, wire, data):
        to = self.device if wire is self.back else self.controller
        if to:
            wire.sendto(data, to)
            self.came.append(self.noted(data))

    @staticmethod
    def noted(data):
        """The address of a datagram, and what a reply replies to; else the number of its attempt; and this moment."""
        address, at = LossyNetwork.text(data, 0)
        _, at = LossyNetwork.text(data, at)
        if address == "/reply":
            return f"/reply {LossyNetwork.text(data, at)[0]}", None, time.monotonic()
        return address, struct.unpack_from(">i", data, at)[0], time.monotonic()

    @staticmethod
    def text(data, at):
        """An OSC-string, and the place after its zeros."""
        end = data.index(b"\0", at)
        return data[at:end].decode(), end + 4 - end % 4

    def take(self, wire):
        """The copies that go on of a datagram that came, each with its delay."""
        try:
            data, sender = wire.recvfrom(4096)
        except ConnectionRefusedError:
            return []
        if wire is self.front:
            self.controller = sender
        else:
            self.said.append(self.noted(data)[:2])
        side = "front" if wire is self.front else "back"
        self.copies[side, data] += 1
        chance = random.Random(f"{self.seed} {side} {data.hex()} {self.copies[side, data]}")
        drawn = chance.random()
        copies = 0 if drawn < LOSS else 2 if drawn > 1 - COPIES else 1
        return [(self.delay * chance.random(), self.back if side == "front" else self.front, data)
                for _ in range(copies)]

    def has_brought(self, address, since=0.0, number=None):
        """Whether a message with this address, and this number if it is asked for, came through since then."""
        return any(came == address and number in (None, of) and since <= at for came, of, at in list(self.came))

    def times_said(self, address, number):
        """How often the device has sent this answer, also if it was lost."""
        return list(self.said).count((address, number))

    @staticmethod
    def waits(holds, seconds):
        """Waits until this holds; whether it does."""
        end = time.monotonic() + seconds
        while not holds() and time.monotonic() < end:
            time.sleep(0.005)
        return holds()

    def brings(self, address, since, seconds, number=None):
        """Waits until such a message has come through since then; whether it has."""
        return self.waits(lambda: self.has_brought(address, since, number), seconds)

    def hears(self, address, number, seconds):
        """Waits until the device has sent this answer; whether it has."""
        return self.waits(lambda: self.times_said(address, number) > 0, seconds)

    def close(self):
        self.ended.set()
        self.join()
        for wire in (self.front, self.back):
            wire.close()
