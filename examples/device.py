#!/usr/bin/env python3
"""A device for cuectl, as docs/DEVICES.md asks for it. It prints what it does in place of moving.

    device.py NUMBER PORT KEPT           the device's number (0 to 111) and its port on 127.0.0.1
    device.py NUMBER PORT KEPT unable    it cannot prepare: each cue is given up, or goes without it if it is optional

In the file KEPT it keeps the highest number that it has heard of, and where that came from. Remove it for a new show.

    --prepare SECONDS    how long it prepares, 0 by default
    --motion SECONDS     how long it moves, 0 by default
    --fault SECONDS      so long after it is ready it finds that it cannot go on
    --only ADDRESS:PORT  the one sender that it hears: give it in a show
    --relay              that sender is a relay: it is told who made the device, where it is, and why it aborts
"""
import argparse
import os
import re
import socket
import struct
import time
import zlib

REPEAT = 0.25  # seconds between two copies of an abort that nobody asked for
COPIES, SOON = 40, 0.025  # of it in its first second: so many, and the seconds between two
MADE = "Example device 1, protocol 1"
MINUTE, OFTEN = 60.0, 0.1  # seconds between two claims: who made it; where it is, while it moves
ORDERS = {"/msc/standby": ",iisb", "/msc/go_2pc": ",ii", "/msc/cancel": ",ii"}


def text(value):
    data = value.encode() + b"\0"
    return data + b"\0" * (-len(data) % 4)


def message(address, number):
    return text(address) + text(",i") + struct.pack(">i", number)


def claim(device, word, tags, *values):
    """What a device tells the relay of itself."""
    data = b"".join(text(value) if isinstance(value, str) else struct.pack(">i", value) for value in values)
    return text(f"/device/{device}/{word}") + text(tags) + data


def take_text(data, at):
    """An OSC-string, and the place after its zeros."""
    end = data.index(b"\0", at)
    after = end + 4 - end % 4
    if data[end:after] != bytes(after - end):
        raise ValueError("no zeros after a string")
    return data[at:end].decode(), after


def read_order(data):
    """The address of an order, its two numbers, and the bytes of what a standby asks for. An error where it is none."""
    address, at = take_text(data, 0)
    tags, at = take_text(data, at)
    attempt, device = struct.unpack_from(">ii", data, at)
    asked = data[at + 8:]
    is_whole = not asked
    if address == "/msc/standby":
        cue, at = take_text(asked, 0)
        count, = struct.unpack_from(">i", asked, at)
        is_cue = len(cue) <= 16 and re.fullmatch(r"[0-9]+(\.[0-9]+)*", cue)
        is_whole = is_cue and 0 <= count <= 32 and len(asked) == at + 4 + count + -count % 4
        is_whole = is_whole and not any(asked[at + 4 + count:])
    if ORDERS.get(address) != tags or not is_whole:
        raise ValueError("no order")
    return address, attempt, device, asked


class Kept:
    """The highest number that the device has heard of, and where it came from. It outlives the device in a file, a ring
    of records: so a loss of power can tear only the one that was being written, which was not acted on."""

    SLOTS, SUMMED, LINE = 8, 36, 45  # a record: a count that rises, the number, the address, the port, a checksum

    def __init__(self, path):
        self.file = os.open(path, os.O_RDWR | os.O_CREAT, 0o644)
        around = os.open(os.path.dirname(path) or ".", os.O_RDONLY)
        os.fsync(around)  # so that a new file stays
        os.close(around)
        data = os.pread(self.file, self.SLOTS * self.LINE, 0)
        whole = [*filter(None, (self.record(data[at:at + self.LINE]) for at in range(0, len(data), self.LINE)))]
        if data and not whole:
            raise SystemExit(f"{path} has no whole record")
        self.count, self.number, self.sender = max(whole, default=(0, 0, None))

    @classmethod
    def record(cls, line):
        """What a record has; None where it is torn."""
        if len(line) != cls.LINE or line[cls.SUMMED:] != cls.sum_of(line[:cls.SUMMED]):
            return None
        count, number, address, port = line[:cls.SUMMED].split()
        return int(count), int(number), (socket.inet_ntoa(bytes.fromhex(address.decode())), int(port, 16))

    @staticmethod
    def sum_of(data):
        return b"%08x\n" % zlib.crc32(data)

    def keep(self, number, sender):
        """It is on the disk when this is done. An error ends the device: it does nothing then."""
        address = socket.inet_aton(sender[0]).hex().encode()
        line = b"%010d %010d %s %04x " % (self.count + 1, number, address, sender[1])
        line += self.sum_of(line)
        if os.pwrite(self.file, line, self.count % self.SLOTS * self.LINE) != len(line):
            raise OSError("the number cannot be kept")
        os.fsync(self.file)
        self.count, self.number, self.sender = self.count + 1, number, sender


class Device:
    """It is in one attempt: the one with the highest number that it has heard of. Each lower number is over, and so is
    the one that it had kept before a restart."""

    only = None  # the address and the port of the one sender that it hears; None: it hears each
    WORKS = ("preparing", "moving")
    NEXT = {"preparing": "standing_by", "moving": "complete", "standing_by": "abort", "abort": "abort"}

    def __init__(self, number, able=True, prepare=0.0, motion=0.0, fault=None, kept=None):
        self.number, self.able = number, able
        self.seconds = {"preparing": prepare, "moving": motion, "standing_by": fault}
        self.kept = kept  # None: it forgets its numbers when it ends
        self.attempt, self.asked = kept.number if kept else 0, None  # its number; the cue and the bytes of its standby
        # A work, or the last answer; and when something comes next without a command. After a restart it says at once
        # that it has forgotten what it prepared.
        self.step, self.due = ("abort", 0.0) if self.attempt else (None, None)
        # Of an abort that nobody asked for, still to be said in its first second, whatever comes but a higher number.
        self.copies = COPIES if self.attempt else 0
        self.is_heard = False  # whether the controller has replied to its abort
        self.printed = None
        self.reason = "restarted"  # why it aborts
        self.sender = None  # of the last datagram
        self.controller = kept.sender if kept else None  # where the last order came from

    def hear(self, data, now):
        """What to answer to a datagram; None where there is nothing to say, or not yet."""
        if self.only not in (None, self.sender):
            return None
        abort = text("/reply") + text(",siiii") + text(f"/device/{self.number}/abort")
        if self.step == "abort" and data[:-16] == abort:
            self.is_heard = True
            self.due = self.due if self.copies else None
        address, attempt, device, asked = read_order(data)
        if device != self.number or attempt < 1:
            return None  # for another device, or no number
        self.controller = self.sender  # a stray datagram is no order: nothing is answered to where it came from
        if self.kept and (attempt > self.kept.number or self.controller != self.kept.sender):
            self.kept.keep(max(attempt, self.kept.number), self.controller)  # before anything is done or answered
        if attempt > self.attempt and self.step != "moving":
            self.attempt, self.asked, self.step, self.due = attempt, None, None, None  # what was prepared is let go
            self.copies, self.is_heard = 0, False
        return self.say(attempt, self.answer_to(address, attempt, asked, now))

    def answer_to(self, address, attempt, asked, now):
        if attempt != self.attempt:
            return self.answer_to_another(address, attempt)
        if self.step == "moving":
            return None  # it goes on moving: the answer comes when that is done
        if address == "/msc/standby":
            return self.on_standby(asked, now)
        return self.on_go(now) if address == "/msc/go_2pc" else self.on_cancel(now)

    def answer_to_another(self, address, attempt):
        """To a number that is over; or to a higher one, which has to wait until the motion is done."""
        if address == "/msc/cancel":
            return "cancelled"  # it has nothing to give up
        return None if attempt > self.attempt and address == "/msc/standby" else "abort"

    def on_standby(self, asked, now):
        if self.step is None and self.able:
            self.asked = asked
            self.enter("preparing", now)
        if asked == self.asked and self.step in ("preparing", "standing_by"):
            return self.answer()  # the first one, or a copy of it
        if asked == self.asked and self.step == "complete":
            return None  # a late copy: an abort would make a good cue fail
        if self.step not in ("complete", "abort"):
            self.enter("abort", now)
        return "abort"  # it is unable, or let go or failed before, or the cue or the bytes are others

    def on_go(self, now):
        if self.step == "standing_by":
            self.enter("moving", now)
        elif self.step not in ("complete", "abort"):
            self.enter("abort", now)  # it is not ready for this number: it does not move
        return self.answer()

    def on_cancel(self, now):
        if self.step not in ("complete", "abort"):
            self.enter("cancelled", now)
        return "cancelled"  # where it has moved, too: only a store that was restored from a copy asks for that

    def enter(self, step, now):
        """Here a real device starts a motor, or stops it."""
        seconds = self.seconds.get(step)
        self.step, self.due = step, None if seconds is None else now + seconds

    def answer(self):
        """It answers only when its work is done."""
        return None if self.step in self.WORKS else self.step

    def tick(self, now):
        """What to answer without a command: a work is done, or it cannot go on."""
        if self.due is None or now < self.due:
            return None
        due, was = self.due, self.step
        self.reason = "the drive is too hot" if was == "standing_by" else self.reason
        self.enter(self.NEXT[was], now)
        if self.step == "abort":
            self.copies, self.is_heard = (self.copies, self.is_heard) if was == "abort" else (COPIES, False)
            self.due = self.repeats(due or now, now)
        return self.say(self.attempt, self.step)

    def repeats(self, due, now):
        """When it says its abort again: nobody asked for it, so nobody repeats a command. Until its reply comes."""
        self.copies = max(0, self.copies - 1)
        if self.copies:
            return due + SOON
        return None if self.is_heard else now + REPEAT

    def say(self, attempt, answer):
        if answer is None:
            return None
        line = f"device {self.number} attempt {attempt}: {answer}"
        if line != self.printed:
            print(line, flush=True)
        self.printed = line
        return message(f"/device/{self.number}/{answer}", attempt)


class Claims:
    """What the device tells the relay of itself. Nothing is decided by it, here or there."""

    def __init__(self, device, is_told):
        self.device, self.who, self.at = device, 0.0 if is_told else None, None

    def due(self):
        """When something is told next that only the clock asks for; None: never."""
        known = self.who if self.device.controller else None
        return min((due for due in (known, self.at) if due is not None), default=None)

    def told(self, unasked, now):
        """What is told now: why it aborts, beside an abort that nobody asked for; where it is; who made it."""
        if self.who is None or not self.device.controller:
            return
        if unasked and self.device.step == "abort":
            yield claim(self.device.number, "why", ",is", self.device.attempt, self.device.reason)
        is_moving = self.device.step == "moving"
        if now >= (self.at or 0.0) if is_moving else self.at is not None:
            yield claim(self.device.number, "at", ",iis", self.percent(now) if is_moving else 100, 100, "%")
            self.at = now + OFTEN if is_moving else None
        if now >= self.who:
            self.who = now + MINUTE
            yield claim(self.device.number, "who", ",s", MADE)

    def percent(self, now):
        """How much of its motion is done."""
        whole = self.device.seconds["moving"]
        return 100 - round(100 * max(0.0, self.device.due - now) / whole) if whole else 100


def receive(wire, due):
    """The next datagram and its sender; None where none comes before the device has something to do."""
    wire.settimeout(None if due is None else max(0.001, due - time.monotonic()))
    try:
        return wire.recvfrom(4096)
    except socket.timeout:
        return None, None


def hear(device, data, sender):
    device.sender = sender
    try:
        return device.hear(data, time.monotonic())
    except (ValueError, struct.error):
        return None  # this is no message of the controller


def run(wire, device, has_relay=False):
    """One loop over the socket, and nothing in it that waits but the socket."""
    claims = Claims(device, has_relay)
    while True:
        dues = [due for due in (device.due, claims.due()) if due is not None]
        data, sender = receive(wire, min(dues, default=None))
        answers = [] if data is None else [hear(device, data, sender)]
        now = time.monotonic()
        answers += [unasked := device.tick(now), *claims.told(unasked, now)]
        for answer in filter(None, answers):
            wire.sendto(answer, device.controller)


def place(text):
    """The address and the port of --only."""
    address, _, port = text.rpartition(":")
    return address, int(port)


def main():
    parser = argparse.ArgumentParser(description="A device for cuectl. It prints what it does in place of moving.")
    parser.add_argument("number", type=int, help="0 to 111")
    parser.add_argument("port", type=int, help="its port on 127.0.0.1")
    parser.add_argument("kept", help="the file of the highest number that it has heard of")
    parser.add_argument("unable", nargs="?", choices=["unable"], help="it cannot prepare")
    for name, what in (("prepare", "it prepares"), ("motion", "it moves")):
        parser.add_argument(f"--{name}", type=float, default=0.0, metavar="SECONDS", help=f"how long {what}")
    parser.add_argument("--fault", type=float, metavar="SECONDS", help="so long after it is ready it cannot go on")
    parser.add_argument("--only", type=place, metavar="ADDRESS:PORT", help="the one sender that it hears")
    parser.add_argument("--relay", action="store_true", help="that sender is a relay, which is told of the device")
    words = parser.parse_args()
    kept = Kept(words.kept)
    device = Device(words.number, not words.unable, words.prepare, words.motion, words.fault, kept)
    device.only = words.only
    with socket.socket(socket.AF_INET, socket.SOCK_DGRAM) as wire:
        wire.bind(("127.0.0.1", words.port))
        run(wire, device, words.relay)


if __name__ == "__main__":
    main()
