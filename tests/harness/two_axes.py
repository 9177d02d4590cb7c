#!/usr/bin/env python3
"""A box with two axes at one port for the tests: two devices, made from docs/DEVICES.md alone, with nothing of ours.

    two_axes.py FIRST SECOND PORT KEPT [ADDRESS PORT [relay]]

Each axis is a hoist with a place of its own. Its part in a cue is two bytes, the height in centimetres, and, if it
likes, one more byte, the speed in decimetres in a second. It travels at three metres a second, and a motion to where
it stands is over at once. Its brake opens while it prepares, and closes again when it is at rest or gives up. The file
KEPT has a line for each axis, its number and the place of its sender. ADDRESS PORT is the one sender that it hears;
with `relay` each axis tells it what it may of itself.
SIGUSR1 is the emergency stop of both, SIGUSR2 resets it, and SIGHUP has the box forget its numbers. For each motion it
prints a line with `moves`.
"""
import os
import selectors
import signal
import socket
import sys
import time

HIGHEST, SPEED, BRAKE = 600, 300, 0.1  # centimetres, centimetres in a second, seconds
COPY, FIRST, FORTY = 0.25, 0.025, 40
TENTH, MINUTE = 0.1, 60.0


def text_of(text):
    """An OSC-string."""
    return text + b"\0" * (4 - len(text) % 4)


def int_of(number):
    return number.to_bytes(4, "big", signed=True)


class Reader:
    """The arguments of a message; a fault is a ValueError."""

    def __init__(self, data):
        self.data, self.at = data, 0

    def take(self, count):
        part = self.data[self.at:self.at + count]
        if len(part) != count:
            raise ValueError
        self.at += count
        return part

    def zeros(self, count):
        if any(self.take(count)):
            raise ValueError

    def text(self):
        end = self.data.find(b"\0", self.at)
        if end < 0:
            raise ValueError
        text = self.take(end - self.at)
        self.zeros(4 - len(text) % 4)
        return text

    def number(self):
        return int.from_bytes(self.take(4), "big", signed=True)

    def blob(self):
        count = self.number()
        if not 0 <= count <= 32:
            raise ValueError
        blob = self.take(count)
        self.zeros(-count % 4)
        return blob

    def end(self):
        if self.at != len(self.data):
            raise ValueError


def is_cue(text):
    return 1 <= len(text) <= 16 and all(part.isdigit() for part in text.split(b"."))


def read(data):
    """A message as its kind and arguments."""
    reader = Reader(data)
    address, tags = reader.text(), reader.text()
    if (address, tags) == (b"/msc/standby", b",iisb"):
        found = ("standby", reader.number(), reader.number(), reader.text(), reader.blob())
        if not is_cue(found[3]):
            raise ValueError
    elif (address, tags) in ((b"/msc/go_2pc", b",ii"), (b"/msc/cancel", b",ii")):
        found = (address[5:].decode(), reader.number(), reader.number())
    elif (address, tags) == (b"/reply", b",siiii"):
        found = ("reply", reader.text())
        reader.take(12)
        found += (reader.number(),)
    else:
        raise ValueError
    reader.end()
    return found


class Axis:
    """One device: its half of the exchange, and its machine."""
    brake = BRAKE

    def __init__(self, box, number, last, place):
        self.box, self.number, self.last, self.place = box, number, last, place
        self.phase, self.cue, self.part = "over", None, None
        self.work = self.work_number = self.end = None
        self.height, self.target = 0, 0
        self.tells_at, self.tells_who = None, 0.0
        self.next_abort, self.forty = None, 0
        if last:
            self.next_abort, self.forty = time.monotonic(), FORTY

    # -- the machine

    def start(self, work):
        self.work, self.work_number = work, self.last
        takes = self.brake
        if work == "move":
            speed = 10 * self.part[2] if len(self.part) == 3 else SPEED
            self.target = int.from_bytes(self.part[:2], "big")
            takes = abs(self.target - self.height) / speed
            print(f"axis {self.number} attempt {self.last} moves from {self.height} to {self.target}", flush=True)
        self.takes, self.end = takes, time.monotonic() + takes

    def can(self):
        """Whether it may be driven to its part."""
        is_height = len(self.part) in (2, 3) and int.from_bytes(self.part[:2], "big") <= HIGHEST
        is_speed = len(self.part) < 3 or 10 <= self.part[2] <= 40
        return is_height and is_speed and not self.box.is_stopped

    def stop(self, now):
        """It is at rest, and cannot go on."""
        is_of_now = self.work is None or self.work_number == self.last
        self.work = None
        if is_of_now and self.phase in ("preparing", "ready", "moving", "letting go"):
            self.fail(now)

    def fail(self, now):
        self.phase = "failed"
        self.say("abort", self.last)
        self.tell_why("emergency stop" if self.box.is_stopped else "no height of this hoist")
        self.next_abort = now + COPY

    def look(self, now):
        """The end of what the machine does, and the aborts that nobody asked for."""
        if self.work and now >= self.end:
            work, is_of_now = self.work, self.work_number == self.last
            self.work = None
            if work == "move":
                self.height = self.target
            ends = {"prepare": ("preparing", "standing_by", "ready"), "move": ("moving", "complete", "done"),
                    "give_up": ("letting go", "cancelled", "let go")}[work]
            if is_of_now and self.phase == ends[0]:
                if work == "prepare" and not self.can():
                    self.fail(now)
                else:
                    self.phase = ends[2]
                    self.say(ends[1], self.last)
        if self.box.has_relay and self.place[1]:
            self.tell(now)
        if self.next_abort is not None and now >= self.next_abort:
            self.say("abort", self.last)
            self.tell_why("overrun" if self.box.is_stopped else "restarted or given up")
            self.forty = max(0, self.forty - 1)
            self.next_abort += FIRST if self.forty else COPY

    # -- the exchange

    def say(self, word, number):
        address = f"/device/{self.number}/{word}".encode()
        self.box.wire.sendto(text_of(address) + text_of(b",i") + int_of(number), self.place)

    def tell(self, now):
        """Where it is, ten times a second and once at rest; and each minute who made it."""
        is_moving = self.work == "move"
        if is_moving and self.tells_at is None or self.tells_at is not None and (now >= self.tells_at or not is_moving):
            done = 1 - max(0.0, self.end - now) / self.takes if is_moving and self.takes else 1
            at = round(self.height + done * (self.target - self.height))
            self.claim("at", b",iis", int_of(at) + int_of(self.target) + text_of(b"cm"))
            self.tells_at = now + TENTH if is_moving else None
        if now >= self.tells_who:
            self.tells_who = now + MINUTE
            self.claim("who", b",s", text_of(b"Two hoists, box 1.0"))

    def tell_why(self, reason):
        if self.box.has_relay and self.place[1]:
            self.claim("why", b",is", int_of(self.last) + text_of(reason.encode()))

    def claim(self, word, tags, rest):
        address = f"/device/{self.number}/{word}".encode()
        self.box.wire.sendto(text_of(address) + text_of(tags) + rest, self.place)

    def hear_reply(self, text, _):
        if text == f"/device/{self.number}/abort".encode() and not self.forty:
            self.next_abort = None

    def hear(self, kind, attempt, place, rest):
        if not 1 <= attempt:
            return
        if attempt > self.last:
            self.last, self.place = attempt, place
            self.next_abort, self.forty = None, 0
            self.cue, self.part = rest or (None, None)
            self.box.keep()
            answer = self.higher(kind)
        else:
            if place != self.place:
                self.place = place
                self.box.keep()
            if attempt < self.last or self.phase == "over":
                answer = "cancelled" if kind == "cancel" else "abort"
            else:
                answer = getattr(self, "on_" + kind)(rest)
        if answer:
            self.say(answer, attempt)

    def higher(self, kind):
        if kind == "cancel":
            self.phase = "let go"
            return "cancelled"
        if kind == "go_2pc" or self.work:
            self.phase = "failed"
            return "abort"
        self.phase = "preparing"
        self.start("prepare")
        return None

    def on_standby(self, rest):
        if (self.cue, self.part) != rest:
            if self.phase in ("preparing", "ready"):
                self.start("give_up")
            self.phase = "failed"
            return "abort"
        return {"ready": "standing_by", "let go": "abort", "failed": "abort"}.get(self.phase)

    def on_go_2pc(self, _):
        if self.phase == "ready":
            self.phase = "moving"
            self.start("move")
            return None
        if self.phase in ("preparing", "letting go", "let go", "failed"):
            self.phase = "failed"
            return "abort"
        return "complete" if self.phase == "done" else None

    def on_cancel(self, _):
        if self.phase in ("preparing", "ready"):
            self.phase = "letting go"
            self.start("give_up")
            return None
        return "cancelled" if self.phase in ("done", "let go", "failed") else None


class Box:
    """Both axes, their port and their file."""

    def __init__(self, numbers, port, kept, only, kinds=(Axis, Axis), has_relay=False):
        self.kept, self.only, self.is_stopped, self.has_relay = kept, only, False, has_relay
        self.wire = socket.socket(socket.AF_INET, socket.SOCK_DGRAM)
        self.wire.bind(("127.0.0.1", port))
        self.wire.setblocking(False)
        found = {}
        if os.path.exists(kept):
            with open(kept, encoding="ascii") as file:
                for line in file:
                    number, last, address, at = line.split()
                    found[int(number)] = (int(last), (address, int(at)))
        self.axes = [kind(self, number, *found.get(number, (0, ("0.0.0.0", 0))))
                     for kind, number in zip(kinds, numbers)]

    def keep(self):
        """Writes both numbers beside the old file, which the new one replaces when it is whole."""
        with open(self.kept + ".new", "w", encoding="ascii") as file:
            for axis in self.axes:
                file.write(f"{axis.number} {axis.last} {axis.place[0]} {axis.place[1]}\n")
            file.flush()
            os.fsync(file.fileno())
        os.replace(self.kept + ".new", self.kept)
        folder = os.open(os.path.dirname(os.path.abspath(self.kept)), os.O_RDONLY)
        os.fsync(folder)
        os.close(folder)

    def hear(self):
        while True:
            try:
                data, place = self.wire.recvfrom(2048)
            except BlockingIOError:
                return
            except ConnectionError:
                continue
            if self.only and place != self.only:
                continue
            try:
                kind, *found = read(data)
            except ValueError:
                continue
            for axis in self.axes:
                if kind == "reply":
                    axis.hear_reply(*found)
                elif found[1] == axis.number:
                    axis.hear(kind, found[0], place, tuple(found[2:]))

    def forget(self):
        for axis in self.axes:
            if not axis.work and axis.phase not in ("ready",):
                axis.__init__(self, axis.number, 0, ("0.0.0.0", 0))
        self.keep()

    def on_signal(self, number, _):
        if number == signal.SIGHUP:
            self.forget()
        self.is_stopped = number == signal.SIGUSR1
        if self.is_stopped:
            for axis in self.axes:
                axis.stop(time.monotonic())

    def run(self):
        ears = selectors.DefaultSelector()
        ears.register(self.wire, selectors.EVENT_READ)
        while True:
            ears.select(0.005)
            self.hear()
            for axis in self.axes:
                axis.look(time.monotonic())


def main(words, *kinds):
    only = (words[4], int(words[5])) if len(words) > 5 else None
    box = Box([int(words[0]), int(words[1])], int(words[2]), words[3], only, *kinds, has_relay=words[6:] == ["relay"])
    for number in (signal.SIGHUP, signal.SIGUSR1, signal.SIGUSR2):
        signal.signal(number, box.on_signal)
    box.run()


if __name__ == "__main__":
    main(sys.argv[1:])
