#!/usr/bin/env python3
"""tests/harness/two_axes.py with one duty of docs/DEVICES.md broken at its first axis, by makers who err in other ways.

    broken_boxes.py WHICH FIRST SECOND PORT KEPT [ADDRESS PORT]

WHICH is a key of BROKEN; beside it are the id of the requirement and what the tester needs for it. Those of RIGHT
break none.
"""
import pickle
import sys
from pathlib import Path

import broken_axes
from two_axes import COPY, Axis, int_of, text_of


class ObeysBundles(Axis):
    """It obeys the first message of a bundle."""

    @staticmethod
    def retagged(data):
        return data[20:] if data.startswith(b"#bundle\0") and len(data) > 20 else data


class BeginsAnewAtACopy(Axis):
    """A copy of the go_2pc has its motion begin anew."""

    def on_go_2pc(self, rest):
        if self.phase == "moving":
            self.start("move")
        return super().on_go_2pc(rest)


class AnswersTheFirstOfTwo(Axis):
    """To the second of two standbys it answers with the number of the first one, which it gave up."""
    asked = None

    def say(self, word, number):
        self.asked = None if word in ("complete", "abort") else self.asked or number
        super().say(word, self.asked if word == "standing_by" else number)


class WritesLater(broken_axes.KeepsSome):
    """It writes its number in the end of a motion."""
    kinds, ends = ("standby", "go_2pc", "cancel"), ("done",)

    def look(self, now):
        was = self.phase
        super().look(now)
        if self.phase != was and self.phase in self.ends:
            self.box.keep()


class WritesInAWhile(WritesLater):
    """It writes its number half a second after it was heard."""
    ends, written = (), 0

    def look(self, now):
        super().look(now)
        if self.last != self.written:
            self.written, self.due = self.last, now + 0.5
        elif now >= getattr(self, "due", now):
            self.due = float("inf")
            self.box.keep()


class StopsAtACancelForGood(Axis):
    """A cancel stops its motion, and nothing is said of that."""

    def on_cancel(self, rest):
        if self.phase == "moving":
            self.work, self.phase = None, "let go"
            return None
        return super().on_cancel(rest)


class CompletesFromAnotherPort(Axis):
    """It says what it has carried out from a second socket."""

    def say(self, word, number):
        wire = self.box.wire
        if word == "complete":
            self.box.wire = self.box.wire.__class__(wire.family, wire.type)
        super().say(word, number)
        self.box.wire = wire


class ComparesToTheFirstZero(Axis):
    """It compares the bytes of two standbys as texts of C."""

    def on_standby(self, rest):
        if self.part is not None and rest[0] == self.cue and rest[1].split(b"\0")[0] == self.part.split(b"\0")[0]:
            rest = self.cue, self.part
        return super().on_standby(rest)


class ComparesCuesAsNumbers(Axis):
    """It compares the cues of two standbys as numbers with a point."""

    def on_standby(self, rest):
        if self.part == rest[1] and self.number_of(self.cue) == self.number_of(rest[0]):
            rest = self.cue, self.part
        return super().on_standby(rest)

    @staticmethod
    def number_of(cue):
        return float(b".".join(cue.split(b".")[:2]))


class HoldsForBoth(Axis):
    """A higher number does not end what it has prepared: the go_2pc of each moves it."""
    held = None

    def hear(self, kind, attempt, place, rest):
        if self.phase == "ready" and attempt > self.last:
            self.held = self.last, self.part
        if self.held and kind == "go_2pc" and attempt == self.held[0] and not self.work:
            (_, self.part), self.held = self.held, None
            self.phase = "moving"
            self.start("move")
            self.work_number, self.last = attempt, attempt
            return
        super().hear(kind, attempt, place, rest)


class IsBusyWhileItIsReady(Axis):
    """A higher standby finds it at work, as long as it holds what it prepared."""

    def higher(self, kind):
        if kind == "standby" and self.was_ready:
            self.phase = "failed"
            return "abort"
        return super().higher(kind)

    def hear(self, kind, attempt, place, rest):
        self.was_ready = self.phase == "ready"
        super().hear(kind, attempt, place, rest)


class ReadsUnsigned(Axis):
    """It reads the number of an order without a sign."""

    def hear(self, kind, attempt, place, rest):
        super().hear(kind, attempt % 2**32, place, rest)

    def say(self, word, number):
        super().say(word, number - 2**32 if number >= 2**31 else number)


class StandsByAfterItsAbort(Axis):
    """After its abort a standby of that number has it prepare once more."""

    def on_standby(self, rest):
        if self.phase == "failed" and not self.work:
            self.phase = "preparing"
            self.cue, self.part = rest
            self.start("prepare")
            return None
        return super().on_standby(rest)


class SaysItsRestartForGood(Axis):
    """It repeats what it says of its restart until a higher number comes, whatever /reply it hears."""

    def hear_reply(self, text, code):
        if self.phase != "over":
            super().hear_reply(text, code)


class BeatsBeforeItIsReady(Axis):
    """It says that it is ready four times a second, as soon as it begins to prepare."""
    brake, says = 0.6, 0.0

    def look(self, now):
        super().look(now)
        if self.phase in ("preparing", "ready") and now >= self.says:
            self.says = now + COPY
            self.say("standing_by", self.last)


class TakesTheNextNumberAlone(Axis):
    """It waits for the number after its last one."""

    def hear(self, kind, attempt, place, rest):
        if attempt <= self.last + 1 or not self.last:
            super().hear(kind, attempt, place, rest)


class AbortsItsOwnCancel(Axis):
    """Once it has failed it answers abort to a cancel, too."""

    def on_cancel(self, rest):
        return "abort" if self.phase == "failed" else super().on_cancel(rest)


class MisspellsItsClaims(Axis):
    """It tells what it is without the zeros after a text of twenty-four bytes."""
    tells = 0.0

    def look(self, now):
        super().look(now)
        if self.last and now >= self.tells:
            self.tells = now + 1.0
            self.claim("who", b",s", b"Acme hoist 4, version 17")


class TellsInPlaceOfItsAbort(Axis):
    """At its emergency stop it tells the relay why, and says no abort."""

    def fail(self, now):
        self.phase = "failed"
        self.claim("why", b",is", int_of(self.last) + text_of(b"emergency stop"))


class PreparesAnewAtACopy(Axis):
    """A copy of the standby has it prepare anew, and answers at the end of that."""
    brake = 0.5

    def on_standby(self, rest):
        if self.phase == "ready" and (self.cue, self.part) == rest:
            self.phase = "preparing"
            self.start("prepare")
            return None
        return super().on_standby(rest)


class CancelsInWords(Axis):
    """To a cancel while it prepares it answers at once, and prepares to the end."""
    brake = 0.6

    def on_cancel(self, rest):
        return "cancelled" if self.phase == "preparing" else super().on_cancel(rest)


class TakesTheBytesOfALowerNumber(Axis):
    """A late standby with a lower number is refused, and leaves its bytes."""

    def hear(self, kind, attempt, place, rest):
        if kind == "standby" and 1 <= attempt < self.last:
            self.cue, self.part = rest
        super().hear(kind, attempt, place, rest)


class PreparesAgainWhileItLetsGo(Axis):
    """A copy of the standby while it lets go has it prepare again."""
    brake = 0.6

    def on_standby(self, rest):
        if self.phase == "letting go" and (self.cue, self.part) == rest:
            self.phase = "preparing"
            self.start("prepare")
            return None
        return super().on_standby(rest)


class MovesWhileItLetsGo(Axis):
    """A go_2pc while it lets go moves it all the same."""
    brake = 0.6

    def on_go_2pc(self, rest):
        if self.phase == "letting go":
            self.phase = "ready"
        return super().on_go_2pc(rest)


class TakesEqualsForLower(Axis):
    """It takes a copy for an order that is over."""

    def hear(self, kind, attempt, place, rest):
        if attempt == self.last and kind == "standby" and self.phase == "ready":
            self.say("abort", attempt)
        else:
            super().hear(kind, attempt, place, rest)


class KeepsItsFirstSender(Axis):
    """It writes where an order came from only with a higher number."""

    def hear(self, kind, attempt, place, rest):
        if attempt > self.last:
            super().hear(kind, attempt, place, rest)
            return
        self.box.keep = lambda: None
        super().hear(kind, attempt, place, rest)
        del self.box.keep


class Listening:
    """A socket that has an axis answer to whoever sent the last order for any device, or the last /reply."""

    def __init__(self, wire, axis):
        self.wire, self.axis = wire, axis

    def recvfrom(self, size):
        data, place = self.wire.recvfrom(size)
        if self.axis.last and data.startswith((b"/msc/", b"/reply")):
            self.axis.place = place
        return data, place

    def __getattr__(self, name):
        return getattr(self.wire, name)


class AnswersTheLastOfAll(Axis):
    """Its answers go to the sender of the last order for any device, or of the last /reply."""

    def __init__(self, box, *words):
        super().__init__(box, *words)
        box.wire = Listening(box.wire, self)


class OneAddress(tuple):
    """A sender whose address is compared, and not its port."""

    def __ne__(self, place):
        return self[0] != place[0]


class OnePort(tuple):
    """A sender whose port is compared, and not its address."""

    def __ne__(self, place):
        return self[1] != place[1]


class HearsOneAddress(Axis):
    """It hears every port of its sender's address."""
    sender = OneAddress

    def __init__(self, box, *words):
        super().__init__(box, *words)
        box.only = box.only and self.sender(box.only)


class HearsOnePort(HearsOneAddress):
    """It hears its sender's port of every address."""
    sender = OnePort


class ForgetsOneRecord(Axis):
    """Its key has it forget what it knows, and leaves the record of it."""

    def __init__(self, box, *words):
        if hasattr(self, "last"):
            box.keep = lambda: delattr(box, "keep")
        super().__init__(box, *words)


class CutsAtEightyEight(Axis):
    """It reads the first 88 bytes of a datagram, the most that an order has."""

    @staticmethod
    def retagged(data):
        return data[:88]


class PreparesAnewAtEachCopy(Axis):
    """A copy of the standby while it prepares has it begin that anew."""
    brake = 0.5

    def on_standby(self, rest):
        if self.phase == "preparing" and (self.cue, self.part) == rest:
            self.start("prepare")
        return super().on_standby(rest)


class KeepsTheGo(Axis):
    """A go_2pc while it prepares has no answer, and moves it once it has prepared."""
    brake, goes_for = 0.6, 0

    def on_go_2pc(self, rest):
        if self.phase == "preparing":
            self.goes_for = self.last
            return None
        return super().on_go_2pc(rest)

    def look(self, now):
        super().look(now)
        if self.phase == "ready" and self.goes_for == self.last:
            self.phase = "moving"
            self.start("move")


class KeepsAllItKnows(Axis):
    """It keeps its whole state over a restart, and goes on from there."""
    written = None
    works = {"preparing": "prepare", "moving": "move", "letting go": "give_up"}

    def __init__(self, box, number, last, place):
        super().__init__(box, number, last, place)
        self.path = Path(f"{box.kept}.{number}.state")
        if last and self.path.exists():
            self.next_abort, self.forty = None, 0
            self.phase, self.cue, self.part = pickle.loads(self.path.read_bytes())
            if self.phase in self.works:
                self.start(self.works[self.phase])

    def look(self, now):
        super().look(now)
        state = pickle.dumps((self.phase, self.cue, self.part))
        if state != self.written:
            self.written = state
            self.path.write_bytes(state)


class TellsFromAnotherPort(Axis):
    """It tells its relay what it may from a second socket."""

    def claim(self, word, tags, rest):
        wire = self.box.wire
        self.box.wire = wire.__class__(wire.family, wire.type)
        super().claim(word, tags, rest)
        self.box.wire = wire


class TellsFiftyTimes(Axis):
    """It tells fifty times a second where it is."""

    def look(self, now):
        super().look(now)
        if self.tells_at is not None:
            self.tells_at = min(self.tells_at, now + 0.02)


class TellsWhyOnce(Axis):
    """It tells why it aborts with the first abort of each number."""
    why_of = 0

    def tell_why(self, reason):
        if self.why_of != self.last:
            self.why_of = self.last
            super().tell_why(reason)


class HalfASecond(Axis):
    """It keeps its duties. It prepares and lets go for as long as two copies of an order are apart from the first."""
    brake = 0.5


# The class, the requirement, and what the tester is given: a fault, a restart, a key, a stranger, the one sender that
# it hears, that as a relay, or nothing.
BROKEN = {
    "box-that-obeys-bundles": (ObeysBundles, "10d", ""),
    "box-that-hears-strangers": (Axis, "14a", "stranger"),
    "begins-anew-at-a-copy": (BeginsAnewAtACopy, "2b", ""),
    "writes-at-the-end-of-a-motion": (WritesLater, "13b", "restart"),
    "writes-in-a-while": (WritesInAWhile, "13b", "restart"),
    "answers-the-first-of-two": (AnswersTheFirstOfTwo, "12d", ""),
    "stops-at-a-cancel-for-good": (StopsAtACancelForGood, "2b", ""),
    "completes-from-another-port": (CompletesFromAnotherPort, "12a", ""),
    "compares-to-the-first-zero": (ComparesToTheFirstZero, "6a", ""),
    "compares-cues-as-numbers": (ComparesCuesAsNumbers, "6a", ""),
    "holds-for-both": (HoldsForBoth, "7d", ""),
    "is-busy-while-it-is-ready": (IsBusyWhileItIsReady, "1a", ""),
    "reads-unsigned": (ReadsUnsigned, "10e", ""),
    "stands-by-after-its-abort": (StandsByAfterItsAbort, "6a", ""),
    "says-its-restart-for-good": (SaysItsRestartForGood, "15b", "restart"),
    "beats-before-it-is-ready": (BeatsBeforeItIsReady, "17a", ""),
    "takes-the-next-number-alone": (TakesTheNextNumberAlone, "1a", ""),
    "aborts-its-own-cancel": (AbortsItsOwnCancel, "5a", ""),
    "prepares-anew-at-a-copy": (PreparesAnewAtACopy, "2a", ""),
    "cancels-in-words": (CancelsInWords, "4a", ""),
    "takes-the-bytes-of-a-lower-number": (TakesTheBytesOfALowerNumber, "7d", ""),
    "prepares-again-while-it-lets-go": (PreparesAgainWhileItLetsGo, "2b", ""),
    "moves-while-it-lets-go": (MovesWhileItLetsGo, "4a", ""),
    "takes-equals-for-lower": (TakesEqualsForLower, "1a", ""),
    "misspells-its-claims": (MisspellsItsClaims, "18a", ""),
    "tells-in-place-of-its-abort": (TellsInPlaceOfItsAbort, "17a", "fault"),
    "tells-from-another-port": (TellsFromAnotherPort, "18b", "relay"),
    "tells-fifty-times": (TellsFiftyTimes, "18c", "relay"),
    "tells-why-once": (TellsWhyOnce, "18c", "fault relay"),
    "keeps-its-first-sender": (KeepsItsFirstSender, "13d", "restart"),
    "answers-the-last-of-all": (AnswersTheLastOfAll, "12c", ""),
    "hears-one-address": (HearsOneAddress, "14a", "sender"),
    "hears-one-port": (HearsOnePort, "14a", "sender"),
    "forgets-one-record": (ForgetsOneRecord, "8a", "forget restart"),
    "cuts-at-eighty-eight": (CutsAtEightyEight, "10c", ""),
    "prepares-anew-at-each-copy": (PreparesAnewAtEachCopy, "2b", ""),
    "keeps-the-go": (KeepsTheGo, "4a", ""),
    "keeps-all-it-knows": (KeepsAllItKnows, "13c", "restart"),
}
RIGHT = {"half-a-second": (HalfASecond, "", "")}


if __name__ == "__main__":
    broken_axes.main({**BROKEN, **RIGHT})
