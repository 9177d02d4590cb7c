#!/usr/bin/env python3
"""A box with two winches at one port, made from docs/DEVICES.md alone, by somebody who had not read tools/try-device.

    two_winches.py PORT KEPT FIRST SECOND [--hear ADDRESS:PORT]

The winches have the numbers FIRST and SECOND; each is a device of its own, with a record of its own beside KEPT. Their
parts are a height in millimetres (two bytes, 0 to 8000) and, if there are more, a speed in millimetres a second (two
bytes, 1 to 4000). At other parts they say abort. A brake takes 200 ms to open or close. The file KEPT.NUMBER.machine is
the machine itself, which a restart of the box does not change: where it stands, a line for each motion that it ended.
SIGUSR1 has a hot drive stop both, SIGUSR2 cools it.
"""
import argparse
import json
import os
import re
import signal
import socket
import struct
import time
import zlib

MOST_ATTEMPT = 2**31 - 1
BRAKE = 0.2
SPEED = 4000
CUE = re.compile(rb"[0-9]+(\.[0-9]+)*")


def padded(text):
    return text + bytes(4 - len(text) % 4)


def number_at(data, at):
    return struct.unpack(">i", data[at:at + 4])[0]


def text_at(data, at):
    """The text there, and where the next field begins; or None."""
    end = data.find(b"\0", at)
    if end < 0:
        return None
    after = end + 4 - (end - at) % 4
    if after > len(data) or any(data[end:after]):
        return None
    return data[at:end], after


def read_standby(data):
    """Number, device, cue and bytes of a standby, or None."""
    head = padded(b"/msc/standby") + padded(b",iisb")
    if not data.startswith(head) or len(data) < len(head) + 8:
        return None
    at = len(head)
    attempt, number = number_at(data, at), number_at(data, at + 4)
    found = text_at(data, at + 8)
    if found is None or not CUE.fullmatch(found[0]) or len(found[0]) > 16:
        return None
    cue, at = found
    if len(data) < at + 4:
        return None
    length = number_at(data, at)
    if not 0 <= length <= 32 or len(data) != at + 4 + (length + 3) // 4 * 4 or any(data[at + 4 + length:]):
        return None
    return attempt, number, (cue, data[at + 4:at + 4 + length])


def read(data):
    """An order as word, number, device and part; a reply as word and text; or None."""
    standby = read_standby(data)
    if standby:
        return ("standby", *standby)
    for word, address in (("go", b"/msc/go_2pc"), ("cancel", b"/msc/cancel")):
        head = padded(address) + padded(b",ii")
        if data.startswith(head) and len(data) == len(head) + 8:
            return word, number_at(data, len(head)), number_at(data, len(head) + 4), None
    head = padded(b"/reply") + padded(b",siiii")
    if data.startswith(head):
        found = text_at(data, len(head))
        if found and len(data) == found[1] + 16:
            return "reply", found[0]
    return None


class Record:
    """A ring of eight slots in a file: a rising count, the number, the place, a checksum."""
    SLOT = 64

    def __init__(self, path):
        self.file = os.open(path, os.O_RDWR | os.O_CREAT, 0o644)
        self.count, self.last, self.place = 0, 0, None
        slots = [self.slot(os.pread(self.file, self.SLOT, k * self.SLOT)) for k in range(8)]
        whole = [slot for slot in slots if slot]
        if whole:
            self.count, self.last, self.place = max(whole)
        elif os.fstat(self.file).st_size:
            raise SystemExit("no whole record, and the memory is not blank")

    @staticmethod
    def slot(data):
        if len(data) < Record.SLOT or zlib.crc32(data[4:]) != struct.unpack(">I", data[:4])[0]:
            return None
        count, last, place = json.loads(data[4:].rstrip(b" "))
        return count, last, tuple(place)

    def keep(self, last, place):
        if (last, place) == (self.last, self.place):
            return
        body = json.dumps([self.count + 1, last, place]).encode().ljust(self.SLOT - 4)
        data = struct.pack(">I", zlib.crc32(body)) + body
        os.pwrite(self.file, data, (self.count + 1) % 8 * self.SLOT)
        os.fsync(self.file)
        self.count, self.last, self.place = self.count + 1, last, place


class Winch:
    """One device: what it has heard, how far it is, and its machine."""

    def __init__(self, box, number, path):
        self.box, self.number, self.record = box, number, Record(path)
        self.machine = open(path + ".machine", "a+")
        self.machine.seek(0)
        lines = self.machine.read().split()
        self.height = int(lines[-1]) if lines else 0
        self.last, self.place = self.record.last, self.record.place
        self.phase = "over"
        self.part = None  # the cue and bytes of the standby of `last`
        self.work, self.work_number, self.work_ends = None, 0, 0.0
        self.goal, self.speed, self.holds = self.height, SPEED, False
        self.abort_due = time.monotonic() if self.last else None
        self.announcements = 40 if self.last else 0

    # ---- what it says

    def say(self, word, number=None):
        text = b"/device/%d/%s" % (self.number, word.encode())
        data = padded(text) + padded(b",i") + struct.pack(">i", self.last if number is None else number)
        self.box.socket.sendto(data, self.place)

    def fails(self):
        """An abort that nobody asked for: it is repeated."""
        self.phase = "failed"
        self.say("abort")
        self.abort_due = time.monotonic() + 0.25

    # ---- what it hears

    def hear_reply(self, text):
        if self.announcements == 0 and text == b"/device/%d/abort" % self.number:
            self.abort_due = None

    def hear(self, word, number, part, place):
        if number > self.last:
            self.hear_higher(word, number, part, place)
        elif number < self.last or self.phase == "over":
            self.keep(self.last, place)
            self.say("cancelled" if word == "cancel" else "abort", number)
        else:
            self.keep(self.last, place)
            self.hear_known(word, part)

    def keep(self, number, place):
        self.record.keep(number, place)
        self.last, self.place = number, place

    def hear_higher(self, word, number, part, place):
        self.keep(number, place)
        self.abort_due, self.announcements = None, 0
        self.part = part
        if word == "cancel":
            self.phase = "let go"
            self.say("cancelled")
        elif word == "go" or self.work:
            self.phase = "failed"
            self.say("abort")
        else:
            self.prepare()

    def hear_known(self, word, part):
        if word == "standby":
            self.hear_copy() if part == self.part else self.hear_other()
        elif word == "go":
            self.hear_go()
        else:
            self.hear_cancel()

    def hear_copy(self):
        if self.phase == "ready":
            self.say("standing_by")
        elif self.phase in ("let go", "failed"):
            self.say("abort")

    def hear_other(self):
        was = self.phase
        self.phase = "failed"
        self.say("abort")
        if was in ("preparing", "ready"):
            self.give_up()

    def hear_go(self):
        if self.phase == "ready":
            self.phase = "moving"
            self.begin("move", 0)
        elif self.phase == "done":
            self.say("complete")
        elif self.phase != "moving":
            self.phase = "failed"
            self.say("abort")

    def hear_cancel(self):
        if self.phase in ("preparing", "ready"):
            self.phase = "letting go"
            self.give_up()
        elif self.phase in ("done", "let go", "failed"):
            self.say("cancelled")

    # ---- its machine

    def begin(self, work, seconds):
        self.work, self.work_number, self.work_ends = work, self.last, time.monotonic() + seconds

    def prepare(self):
        self.phase = "preparing"
        data = self.part[1]
        if self.box.is_hot or len(data) not in (2, 4):
            self.fails()
            return
        goal, speed = struct.unpack(">HH", data) if len(data) == 4 else (*struct.unpack(">H", data), SPEED)
        if goal > 8000 or not 1 <= speed <= 4000:
            self.fails()
            return
        self.goal, self.speed = goal, speed
        self.begin("prepare", 2 * BRAKE if self.holds else BRAKE)
        self.holds = True

    def give_up(self):
        self.begin("give up", BRAKE)

    def stop(self):
        """A hot drive: whatever it was doing ends here."""
        self.work = None
        if self.phase in ("preparing", "ready", "moving", "letting go", "failed") and self.work_number == self.last:
            self.fails()

    def work_on(self, now, passed):
        if self.work == "move":
            way = self.speed * passed
            left = self.goal - self.height
            self.height = self.goal if abs(left) <= way else self.height + (way if left > 0 else -way)
            if self.height == self.goal:
                self.ends("moving", "done", "complete")
        elif self.work and now >= self.work_ends:
            if self.work == "prepare":
                self.ends("preparing", "ready", "standing_by")
            else:
                self.ends("letting go", "let go", "cancelled")

    def ends(self, phase, then, word):
        was, self.work = self.work, None
        if was != "prepare":
            self.holds = False
        if was == "move":
            self.notes_motion()
        if self.work_number == self.last and self.phase == phase:
            self.phase = then
            self.say(word)

    def notes_motion(self):
        self.machine.write(f"{round(self.height)}\n")
        self.machine.flush()

    def tick(self, now):
        if self.abort_due is None or now < self.abort_due:
            return
        self.say("abort")
        if self.announcements:
            self.announcements -= 1
        self.abort_due = now + (0.025 if self.announcements else 0.25)


class Box:
    """Both winches at their port."""

    def __init__(self, words, kind):
        self.is_hot = False
        self.hears = words.hear
        self.socket = socket.socket(socket.AF_INET, socket.SOCK_DGRAM)
        self.socket.bind(("127.0.0.1", words.port))
        self.socket.settimeout(0.01)
        self.winches = [a_winch(self, number, f"{words.kept}.{number}")
                        for a_winch, number in ((kind, words.first), (Winch, words.second))]

    def hear(self, data, place):
        if self.hears and place != self.hears:
            return
        heard = read(data)
        if heard is None:
            return
        for winch in self.winches:
            if heard[0] == "reply":
                winch.hear_reply(heard[1])
            elif heard[2] == winch.number and heard[1] >= 1:
                winch.hear(heard[0], heard[1], heard[3], place)

    def hear_all(self):
        try:
            while True:
                self.hear(*self.socket.recvfrom(2048))
        except (TimeoutError, ConnectionError):
            pass

    def on_signal(self, which, _frame):
        self.is_hot = which == signal.SIGUSR1
        if self.is_hot:
            for winch in self.winches:
                winch.stop()

    def run(self):
        before = time.monotonic()
        while True:
            self.hear_all()
            now = time.monotonic()
            for winch in self.winches:
                winch.work_on(now, now - before)
                winch.tick(now)
            before = now


def place(text):
    address, port = text.rsplit(":", 1)
    return address, int(port)


def main(kind=Winch, words=None):
    """The box; its first winch is of this kind."""
    parser = argparse.ArgumentParser()
    parser.add_argument("port", type=int)
    parser.add_argument("kept")
    parser.add_argument("first", type=int)
    parser.add_argument("second", type=int)
    parser.add_argument("--hear", type=place)
    box = Box(parser.parse_args(words), kind)
    for which in (signal.SIGUSR1, signal.SIGUSR2):
        signal.signal(which, box.on_signal)
    box.run()


if __name__ == "__main__":
    main()
