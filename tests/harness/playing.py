"""Plays the controller for one device of the examples, datagram by datagram."""
import os
import signal
import socket
import struct
import subprocess
import sys
import time
from pathlib import Path

import model
import serving

PYTHON = [sys.executable, str(serving.ROOT / "examples" / "device.py")]
NUMBER = 3  # of the device


class Controller:
    """A device that runs as a child, and a socket that speaks to it. Its number is kept in a folder."""

    def __init__(self, program, folder, *more):
        self.folder, self.port = Path(folder), serving.device_port(7)
        self.kept, self.said = self.folder / "kept", self.folder / "said"
        self.copies = []  # of what it said first of all, in spite of a reply
        self.words = [*map(str, [*program, NUMBER, self.port, self.kept, *more])]
        self.kept.unlink(missing_ok=True)
        self.said.write_text("")
        self.wire = self.open()
        self.start()

    @staticmethod
    def open():
        wire = socket.socket(socket.AF_INET, socket.SOCK_DGRAM)
        wire.bind(("127.0.0.1", 0))
        return wire

    def start(self, *around):
        """Starts the device, and waits until it listens."""
        self.child = subprocess.Popen([*around, *self.words], stdout=self.said.open("a"), stderr=subprocess.DEVNULL)
        while self.child.poll() is None and not self.listens():
            time.sleep(0.01)

    def listens(self):
        sockets = Path("/proc/net/udp").read_text().splitlines()[1:]
        return any(line.split()[1].endswith(f":{self.port:04X}") for line in sockets)

    def stop(self):
        """The power of the device is lost."""
        for pid in [*serving.children(self.child.pid), self.child.pid] if self.child.poll() is None else []:
            os.kill(pid, signal.SIGKILL)
        self.child.wait()
        while self.listens():
            time.sleep(0.01)

    def restart(self):
        self.stop()
        self.start()
        return self.is_told()

    def is_told(self):
        """What a device that was started says of the number that it kept: in its first second, and until a reply."""
        said = self.answer(3.0)
        if said:
            self.sends("/reply", b"/device/%d/%s" % (NUMBER, said[0].encode()), 0, 0, 1, 15)
            self.copies = self.answers(1.1)
            while self.answer(0.2):
                pass
        return said

    def trips(self):
        """The motor of a winch finds that it cannot go on."""
        self.child.send_signal(signal.SIGUSR1)

    def motions(self):
        return self.said.read_text().count("the motor moves")

    def sends(self, address, *values, wire=None):
        (wire or self.wire).sendto(model.message(address, *values), ("127.0.0.1", self.port))

    def answer(self, seconds, wire=None):
        """The last word of an answer, and its number; none where none comes in time."""
        wire = wire or self.wire
        wire.settimeout(seconds)
        try:
            data = wire.recv(4096)
        except (socket.timeout, ConnectionRefusedError):
            return None
        return data.split(b"\0")[0].decode().rpartition("/")[2], struct.unpack(">i", data[-4:])[0]

    def answers(self, seconds, wire=None):
        """All that come in this time."""
        end, found = time.monotonic() + seconds, []
        while (left := end - time.monotonic()) > 0:
            found.append(self.answer(left, wire))
        return [answer for answer in found if answer]

    def hears(self, order, number, *rest, seconds=3.0):
        self.sends(order, number, NUMBER, *rest)
        return self.answer(seconds)

    def is_silent(self, order, number, *rest):
        return self.hears(order, number, *rest, seconds=0.4) is None

    def standby(self, number, cue=b"1", data=b"\x01", seconds=3.0):
        return self.hears("/msc/standby", number, cue, model.Blob(data), seconds=seconds)

    def is_silent_to_standby(self, number):
        return self.standby(number, seconds=0.4) is None

    def close(self):
        self.stop()
        self.wire.close()
