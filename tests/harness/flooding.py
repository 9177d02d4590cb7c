"""A flood of commands that move the place of a served show, and where the place may be."""
import os
import socket
import sys
import threading
import time

import model
import serving

CUES, PACE, MOST_OPEN = 500, 2000, 64
MADE = (1, 0, 0, 0)


class Flood(threading.Thread):
    """Moves the place, one cue further with each command. The n-th command moves it to the cue `place(n)`."""

    def __init__(self, serve):
        super().__init__(daemon=True)
        self.serve, self.desk = serve, serving.Ears(serve)
        self.desk.wire.setsockopt(socket.SOL_SOCKET, socket.SO_RCVBUF, 2**22)
        self.datagrams = [model.message(f"/cue/{place(n)}/goto") for n in range(CUES)]
        self.sent = self.answered = 0
        self.stopped = False

    def run(self):
        self.desk.wire.settimeout(0.05)
        began = time.monotonic()
        while not self.stopped:
            due = int((time.monotonic() - began) * PACE)
            while self.sent < due and self.sent - self.answered < MOST_OPEN:
                self.sent += 1
                self.desk.say(self.datagrams[self.sent % CUES])
            self.hear()

    def hear(self):
        try:
            while self.answered < self.sent:
                self.desk.wire.recvfrom(4096)
                self.answered += 1
        except (socket.timeout, ConnectionRefusedError):
            pass


def place(n):
    return n % CUES + 1


def generation(folder):
    """The higher one of both files."""
    return max(int.from_bytes(data[1:9], "big") for data in serving.files(folder) if data[:1] == b"\1")


def one_of(first, last, shown):
    """The number of a command from the first to the last that moved the place to this cue; none where there is none."""
    at = first + (shown - place(first)) % CUES
    return at if at <= last else None


def add_show(serve):
    """One device, and many cues; the place is the first one of the flood."""
    desk = serving.Ears(serve)
    answers = [desk.ask(model.message("/show/device", 3, serving.device_port(6)))]
    answers += [desk.ask(model.message("/show/cue", str(place(n)).encode(), 3, model.Blob(b""))) for n in range(CUES)]
    answers.append(desk.ask(model.message(f"/cue/{place(0)}/goto")))
    desk.close()
    return answers == [MADE] * (CUES + 2)


def beside(serve, calls, read):
    """Floods a served show, and calls `read(flood, least)` so many times meanwhile: it gives the number of the command
    whose state it saw, at least the given one. How long that took, and what was beside it."""
    before, flood = generation(serve.folder), Flood(serve)
    flood.start()
    began, at = time.monotonic(), 0
    for n in range(calls):
        at = read(flood, at)
        if n % 1000 == 0:
            os.truncate(serve.said.name, 0)  # its log
    seconds = time.monotonic() - began
    flood.stopped = True
    flood.join()
    turned = generation(serve.folder) - before
    serve.kill()
    if not turned:
        sys.exit("FAIL the files were turned over")
    return f"{seconds:.0f} s", f"beside {flood.answered / seconds:.0f} commands a second and {turned} turn-overs"
