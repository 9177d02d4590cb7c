#!/usr/bin/env python3
"""examples/device.py with one duty of docs/DEVICES.md broken.

    broken_device.py WHICH NUMBER PORT KEPT [the other words of examples/device.py]

WHICH is a key of BROKEN; beside it is the id of the requirement. Those of RIGHT break none.
"""
import os
import socket
import sys
import time
from pathlib import Path

sys.path.insert(0, str(Path(__file__).resolve().parent.parent.parent / "examples"))
import device
from device import Device, message, take_text


def words_of(data):
    """The address of a datagram, and the place after its tags."""
    address, at = take_text(data, 0)
    return address, take_text(data, at)[1]


class AnswersOnce(Device):
    """It answers the first copy of an order, and no other."""
    said = set()

    def say(self, attempt, answer):
        if answer is None or (attempt, answer) in self.said:
            return None
        self.said.add((attempt, answer))
        return super().say(attempt, answer)


class MovesForEachCopy(Device):
    """A copy of a go makes it move again."""

    def on_go(self, now):
        if self.step == "complete":
            self.step = "standing_by"
        return super().on_go(now)


class SleepsWhileItMoves(Device):
    """It hears nothing until it has moved."""

    def enter(self, step, now):
        super().enter(step, now)
        if step == "moving":
            time.sleep(self.seconds["moving"])


class MovesUnprepared(Device):
    """It moves for a number that it never prepared."""

    def on_go(self, now):
        if self.step is None:
            self.step = "standing_by"
        return super().on_go(now)


class IgnoresUnknownCancel(Device):
    """It does not answer a cancel for a number that it does not know."""

    def on_cancel(self, now):
        return None if self.asked is None else super().on_cancel(now)


class AnswersALateStandby(Device):
    """It says again that it stands by, once it has moved."""

    def on_standby(self, asked, now):
        return "standing_by" if self.step == "complete" else super().on_standby(asked, now)


class TakesOtherBytesForACopy(Device):
    """It takes every standby of its number for a copy."""

    def on_standby(self, asked, now):
        return super().on_standby(asked if self.asked is None else self.asked, now)


class AbortsALateStandby(Device):
    """It takes a late copy of the standby of what it has carried out for another attempt."""

    def on_standby(self, asked, now):
        return "abort" if self.step == "complete" else super().on_standby(asked, now)


class MovesWhileItPrepares(Device):
    """A go makes it move before it has prepared."""

    def on_go(self, now):
        if self.step == "preparing":
            self.step = "standing_by"
        return super().on_go(now)


class IgnoresCancelWhileItPrepares(Device):
    """It prepares to the end, whatever comes."""

    def on_cancel(self, now):
        return None if self.step in ("preparing", "standing_by") and self.prepared_on(now) else super().on_cancel(now)

    def prepared_on(self, now):
        """Whether it prepares, or has prepared in spite of a cancel."""
        self.spite = self.attempt if self.step == "preparing" else getattr(self, "spite", 0)
        return self.spite == self.attempt


class ObeysBundles(Device):
    """It obeys an order in a bundle."""

    def hear(self, data, now):
        return super().hear(data[20:] if data.startswith(b"#bundle") and len(data) > 20 else data, now)


class CountsByItself(Device):
    """It answers with a count of its own in place of the number."""
    count = 1000

    def say(self, attempt, answer):
        self.count += 1
        return super().say(self.count, answer)


class ForgetsOverARestart(Device):
    """It says that it has restarted, and then begins afresh."""

    def __init__(self, *words, **more):
        super().__init__(*words, **more)
        self.has_restarted = self.attempt > 0

    def hear(self, data, now):
        if self.has_restarted and self.due is None:
            self.attempt, self.step, self.has_restarted = 0, None, False
        return super().hear(data, now)


class SaysNoRestart(Device):
    """It keeps its number over a restart, and waits until it is asked."""

    def __init__(self, *words, **more):
        super().__init__(*words, **more)
        self.due = None


class EndsAtTheFirstReply(Device):
    """It says that it has restarted, and no more once any reply to that has come."""

    def hear(self, data, now):
        if data.startswith(b"/reply"):
            self.copies = 0
        return super().hear(data, now)


class ObeysLateOrders(Device):
    """A late cancel of a lower number makes it let go."""

    def answer_to_another(self, address, attempt):
        if address == "/msc/cancel" and self.step == "standing_by":
            self.enter("cancelled", time.monotonic())
        return super().answer_to_another(address, attempt)


class AbortsOnce(Device):
    """It says once that it cannot go on."""

    def tick(self, now):
        said = super().tick(now)
        if self.step == "abort":
            self.due = None
        return said


class ObeysOthersOrders(Device):
    """It takes orders for other devices for its own."""

    def hear(self, data, now):
        address, at = words_of(data)
        if address.startswith("/msc/") and len(data) >= at + 8:
            data = data[:at + 4] + self.number.to_bytes(4, "big") + data[at + 8:]
        return super().hear(data, now)


class FallsSilent(Device):
    """After a refusal it does not answer any more in this attempt."""
    refused = None

    def hear(self, data, now):
        address, _ = words_of(data)
        if address == "/reply" and data[-1] == 15:
            self.refused = self.attempt
        return super().hear(data, now)

    def say(self, attempt, answer):
        return None if attempt == self.refused else super().say(attempt, answer)


class AnswersFromElsewhere(Device):
    """It answers from another port than its own."""
    elsewhere = None

    def say(self, attempt, answer):
        self.elsewhere = self.elsewhere or socket.socket(socket.AF_INET, socket.SOCK_DGRAM)
        if answer is not None:
            self.elsewhere.sendto(message(f"/device/{self.number}/{answer}", attempt), self.controller)


class IgnoresCancel(Device):
    """It goes on being ready."""

    def on_cancel(self, now):
        return None if self.step in ("preparing", "standing_by") else super().on_cancel(now)


class CompletesEarly(Device):
    """It says that it has moved while its machine still moves, and then cannot stand by."""
    busy = 0.0

    def on_go(self, now):
        if self.step == "standing_by":
            self.busy = now + self.seconds["moving"]
            self.enter("complete", now)
        return super().on_go(now)

    def on_standby(self, asked, now):
        if self.step is None and now < self.busy:
            self.enter("abort", now)
        return super().on_standby(asked, now)


class ObeysBadPadding(Device):
    """It does not look at the bytes behind a text."""

    def hear(self, data, now):
        return super().hear(data.replace(b"1\0\0\1", b"1\0\0\0"), now)


class ObeysNumbersBelow1(Device):
    """It takes an order with a number below 1 for one of its own number."""

    def hear(self, data, now):
        address, at = words_of(data)
        if address.startswith("/msc/") and (data[at:at + 1] >= b"\x80" or data[at:at + 4] == bytes(4)):
            data = data[:at] + self.attempt.to_bytes(4, "big") + data[at + 4:]
        return super().hear(data, now)


class AnswersTheLastSender(Device):
    """An answer that comes later goes to whoever sent something meanwhile."""

    def hear(self, data, now):
        self.controller = self.sender
        return super().hear(data, now)


class AnswersAFixedPort(Device):
    """It answers to a port of its own choice."""
    controller = property(lambda self: ("127.0.0.1", 9), lambda self, value: None)


class MovesAgainSilently(Device):
    """It answers a copy of a go at once, and moves all the same. It prints each motion."""

    def enter(self, step, now):
        super().enter(step, now)
        if step == "moving":
            print("the motor moves", flush=True)

    def on_go(self, now):
        if self.step == "complete":
            print("the motor moves", flush=True)
        return super().on_go(now)


class LetsGoByItself(Device):
    """It holds what it has prepared for six seconds."""
    ready = 0.0

    def enter(self, step, now):
        self.ready = now if step == "standing_by" else self.ready
        super().enter(step, now)

    def on_go(self, now):
        if self.step == "standing_by" and now - self.ready > 6:
            self.enter("cancelled", now)
        return super().on_go(now)


class TwoPositions(Device):
    """It keeps its duties. Its machine may be driven to 00 and to 01; anything else ends it. It begins at 00, is slower
    on its way back, and has moved at once where it is already."""
    at, to = 0, 0

    def on_standby(self, asked, now):
        data = asked[take_text(asked, 0)[1]:]
        if data not in (b"\0\0\0\1\0\0\0\0", b"\0\0\0\1\1\0\0\0"):
            os._exit(1)
        if self.step is None:
            self.to = data[4]
        return super().on_standby(asked, now)

    def enter(self, step, now):
        super().enter(step, now)
        if step == "moving":
            print("the motor moves", flush=True)
            self.due = now + (0.0 if self.to == self.at else self.seconds["moving"] * (1 if self.to else 1.6))
            self.at = self.to


class SleepsInAllItDoes(SleepsWhileItMoves):
    """It hears nothing until it has prepared or moved."""

    def enter(self, step, now):
        super().enter(step, now)
        if step == "preparing":
            time.sleep(self.seconds["preparing"])


class CountsAttempts(Device):
    """It answers with a count of its own attempts in place of the number."""
    count, counted = 0, 0

    def say(self, attempt, answer):
        if attempt > self.counted and answer is not None:
            self.count, self.counted = self.count + 1, attempt
        return super().say(self.count, answer)


class ReportsWhatItGaveUp(Device):
    """A cancel takes the place of its preparing, and it still waits for the end of that: it is at work for good."""
    stuck = False

    def on_cancel(self, now):
        if self.step == "preparing":
            self.stuck, self.due = True, None
            return None
        return super().on_cancel(now)

    def on_standby(self, asked, now):
        if self.stuck and self.step is None:
            self.enter("abort", now)
        return super().on_standby(asked, now)


class CompletesAtCopies(Device):
    """It answers each copy of a go with complete, while it still moves; a standby then has to be refused."""
    busy = 0.0

    def enter(self, step, now):
        super().enter(step, now)
        if step == "moving":
            self.busy = now + self.seconds["moving"]

    def answer_to(self, address, attempt, asked, now):
        if attempt == self.attempt and self.step == "moving" and address == "/msc/go_2pc":
            return "complete"
        return super().answer_to(address, attempt, asked, now)


class EndsItsAbortsAtACopy(Device):
    """A copy of the standby ends the aborts that nobody asked for."""

    def on_standby(self, asked, now):
        if self.step == "abort" and asked == self.asked:
            self.due = None
        return super().on_standby(asked, now)


class ComparesAtMost(Device):
    """It compares so many of the bytes of two standbys, and not their lengths."""
    MOST = 1

    def on_standby(self, asked, now):
        if self.asked is not None and self.shortened(asked) == self.shortened(self.asked):
            asked = self.asked
        return super().on_standby(asked, now)

    def shortened(self, asked):
        cue, at = take_text(asked, 0)
        count = int.from_bytes(asked[at:at + 4], "big")
        return cue, asked[at + 4:at + 4 + min(count, self.MOST)]


class ComparesSixteen(ComparesAtMost):
    """It compares the first sixteen bytes."""
    MOST = 16


class KeepsItsFaultToItself(Device):
    """It finds that it cannot go on, and says so when it is to go."""
    fails = False

    def tick(self, now):
        if self.step == "standing_by" and self.due is not None and now >= self.due:
            self.fails, self.due = True, None
        return super().tick(now)

    def on_go(self, now):
        if self.fails and self.step == "standing_by":
            self.enter("abort", now)
        return super().on_go(now)


class ReadsEightyEight(Device):
    """It reads the first 88 bytes of a datagram, the most that an order has."""

    def hear(self, data, now):
        return super().hear(data[:88], now)


class NumbersOfSixteenBits(Device):
    """It keeps sixteen bits of a number, and answers with them."""

    def say(self, attempt, answer):
        return super().say(attempt & 0xffff, answer)


class ShortCues(Device):
    """It has room for a cue of eight bytes, and cannot prepare for a longer one."""

    def on_standby(self, asked, now):
        if self.step is None and len(take_text(asked, 0)[0]) > 8:
            self.enter("abort", now)
        return super().on_standby(asked, now)


class HearsStrangers(Device):
    """It hears cancels of anybody."""

    def hear(self, data, now):
        only, self.only = self.only, None if data.startswith(b"/msc/cancel") else self.only
        try:
            return super().hear(data, now)
        finally:
            self.only = only


class SaysThatItIsReady(Device):
    """It keeps its duties. While it is ready it says so four times a second."""

    def enter(self, step, now):
        super().enter(step, now)
        if step == "standing_by":
            self.due = now + 0.25

    def tick(self, now):
        if self.step != "standing_by":
            return super().tick(now)
        if now < self.due:
            return None
        self.due = now + 0.25
        return message(f"/device/{self.number}/standing_by", self.attempt)


class TwoAxes(Device):
    """It keeps its duties, and shares its port with the device above it, which speaks from time to time. A standby for
    that one ends both."""
    speaks = 0.0

    def hear(self, data, now):
        address, at = words_of(data)
        if data[at + 4:at + 8] == (self.number + 1).to_bytes(4, "big") and address != "/msc/cancel":
            os._exit(1)
        return super().hear(data, now)

    def tick(self, now):
        said = super().tick(now)
        if said is None and self.controller and now > self.speaks:
            self.speaks = now + 0.5
            return message(f"/device/{self.number + 1}/standing_by", 7)
        return said


BROKEN = {
    "answers-once": (AnswersOnce, "1a"),
    "moves-for-each-copy": (MovesForEachCopy, "2a"),
    "sleeps-while-it-moves": (SleepsWhileItMoves, "3a"),
    "moves-unprepared": (MovesUnprepared, "4a"),
    "ignores-unknown-cancel": (IgnoresUnknownCancel, "5a"),
    "answers-a-late-standby": (AnswersALateStandby, "6c"),
    "takes-other-bytes-for-a-copy": (TakesOtherBytesForACopy, "6a"),
    "aborts-a-late-standby": (AbortsALateStandby, "6c"),
    "moves-while-it-prepares": (MovesWhileItPrepares, "4a"),
    "ignores-cancel-while-it-prepares": (IgnoresCancelWhileItPrepares, "1a"),
    "obeys-bundles": (ObeysBundles, "10d"),
    "counts-by-itself": (CountsByItself, "12d"),
    "forgets-over-a-restart": (ForgetsOverARestart, "13c"),
    "says-no-restart": (SaysNoRestart, "15a"),
    "ends-at-the-first-reply": (EndsAtTheFirstReply, "15b"),
    "obeys-late-orders": (ObeysLateOrders, "7d"),
    "aborts-once": (AbortsOnce, "9a"),
    "obeys-others-orders": (ObeysOthersOrders, "10b"),
    "falls-silent": (FallsSilent, "11a"),
    "answers-from-elsewhere": (AnswersFromElsewhere, "12a"),
    "ignores-cancel": (IgnoresCancel, "1a"),
    "completes-early": (CompletesEarly, "1a"),
    "obeys-bad-padding": (ObeysBadPadding, "10c"),
    "obeys-numbers-below-1": (ObeysNumbersBelow1, "10e"),
    "answers-the-last-sender": (AnswersTheLastSender, "12c"),
    "answers-a-fixed-port": (AnswersAFixedPort, "12b"),
    "lets-go-by-itself": (LetsGoByItself, "16a"),
    "moves-again-silently": (MovesAgainSilently, "2a"),
    "sleeps-in-all-it-does-while-it-prepares": (SleepsInAllItDoes, "3a"),
    "counts-attempts": (CountsAttempts, "12d"),
    "reports-what-it-gave-up-while-it-prepares": (ReportsWhatItGaveUp, "1a"),
    "completes-at-copies": (CompletesAtCopies, "2b"),
    "ends-its-aborts-at-a-copy": (EndsItsAbortsAtACopy, "9c"),
    "compares-one-byte": (ComparesAtMost, "6a"),
    "compares-sixteen-bytes": (ComparesSixteen, "6a"),
    "keeps-its-fault-to-itself": (KeepsItsFaultToItself, "17a"),
    "reads-eighty-eight": (ReadsEightyEight, "10c"),
    "numbers-of-sixteen-bits": (NumbersOfSixteenBits, "12d"),
    "short-cues": (ShortCues, "1a"),
    "hears-strangers": (HearsStrangers, "14a"),
}
RIGHT = {"two-positions": TwoPositions, "hears-one-sender": Device, "says-that-it-is-ready": SaysThatItIsReady,
         "two-axes": TwoAxes}


if __name__ == "__main__":
    which = sys.argv.pop(1)
    device.Device = RIGHT[which] if which in RIGHT else BROKEN[which][0]
    heard = device.receive

    def receive(wire, due):
        """Keeps who spoke last, for the device that answers from elsewhere."""
        data, sender = heard(wire, due)
        Device.controller = sender or getattr(Device, "controller", None)
        return data, sender

    device.receive = receive
    device.main()
