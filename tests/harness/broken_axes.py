#!/usr/bin/env python3
"""tests/harness/two_axes.py with one duty of docs/DEVICES.md broken at its first axis.

    broken_axes.py WHICH FIRST SECOND PORT KEPT [ADDRESS PORT]

WHICH is a key of BROKEN; beside it are the id of the requirement and what the tester needs for it.
"""
import struct
import sys
import time

import two_axes
from two_axes import COPY, FORTY, Axis, Reader


class KeepsSilentAtALateCancel(Axis):
    """It does not answer a cancel of what it has carried out."""

    def on_cancel(self, rest):
        return None if self.phase == "done" else super().on_cancel(rest)


class KeepsSilentAtLowerNumbers(Axis):
    """It does not answer a late standby or go_2pc with a lower number."""

    def hear(self, kind, attempt, place, rest):
        if kind == "cancel" or attempt >= self.last:
            super().hear(kind, attempt, place, rest)


class AbortsLowerCancels(Axis):
    """To a late cancel with a lower number it answers abort."""

    def hear(self, kind, attempt, place, rest):
        super().hear("go_2pc" if 1 <= attempt < self.last else kind, attempt, place, rest)


class KeepsSilentUnprepared(Axis):
    """It does not move at a go_2pc for a number that it never prepared, and does not answer it."""

    def higher(self, kind):
        answer = super().higher(kind)
        return None if kind == "go_2pc" else answer

    def on_go_2pc(self, rest):
        answer = super().on_go_2pc(rest)
        return None if answer == "abort" else answer


class StaysReady(Axis):
    """To a standby that is no copy it answers abort, and stays ready for the first one."""

    def on_standby(self, rest):
        if self.phase == "ready" and (self.cue, self.part) != rest:
            return "abort"
        return super().on_standby(rest)


class LetsGoAtARefusal(Axis):
    """A /reply that refuses its standing_by has it let go."""

    def hear_reply(self, text, code):
        super().hear_reply(text, code)
        if text.endswith(b"/standing_by") and code and self.phase == "ready":
            self.phase = "let go"
            self.start("give_up")


class AbortsForGood(Axis):
    """Its abort that nobody asked for is not ended by its /reply."""

    def hear_reply(self, text, _):
        pass


class AbortsAtHigherNumbers(Axis):
    """Its abort that nobody asked for is not ended by a higher number."""

    def hear(self, kind, attempt, place, rest):
        due, last = self.next_abort, self.last
        super().hear(kind, attempt, place, rest)
        if due is not None and self.last > last and self.next_abort is None:
            self.next_abort = due


class EndsAtAnyAbort(Axis):
    """Its abort that nobody asked for is ended by the /reply to an abort of another device."""

    def hear_reply(self, text, code):
        if text.endswith(b"/abort"):
            super().hear_reply(f"/device/{self.number}/abort".encode(), code)


class KeepsNoNumber(Axis):
    """It keeps no number over a restart."""

    def __init__(self, box, number, last, place):
        super().__init__(box, number, 0, place)


class KeepsNoPlace(Axis):
    """It keeps its number over a restart, and not where its orders came from: it says so once an order came."""

    def __init__(self, box, number, last, place):
        super().__init__(box, number, last, ("127.0.0.1", 9))


class PreparesInAMotion(Axis):
    """It begins to prepare for a higher number while it moves."""

    def higher(self, kind):
        if kind == "standby" and self.work == "move":
            self.work = None
        return super().higher(kind)


class StandsByAtACopy(Axis):
    """It says that it stands by at a copy of the standby, while it still prepares."""

    def on_standby(self, rest):
        return super().on_standby(rest) or ("standing_by" if self.phase == "preparing" else None)


class AnswersLate(Axis):
    """What it answers to a copy it says eight tenths of a second later."""
    is_copy, later = False, ()

    def hear(self, kind, attempt, place, rest):
        self.is_copy = attempt == self.last
        super().hear(kind, attempt, place, rest)
        self.is_copy = False

    def say(self, word, number):
        if self.is_copy:
            self.later += ((time.monotonic() + 0.8, word, number),)
        else:
            super().say(word, number)

    def look(self, now):
        super().look(now)
        while self.later and now >= self.later[0][0]:
            (_, word, number), *self.later = self.later
            self.later = tuple(self.later)
            super().say(word, number)


class StopsAtACancel(Axis):
    """A cancel stops its motion, and is answered."""

    def on_cancel(self, rest):
        if self.phase == "moving":
            self.work, self.phase = None, "let go"
            return "cancelled"
        return super().on_cancel(rest)


class NumbersAsFloats(Axis):
    """It keeps a number as a float of 32 bits, and answers with that."""

    def say(self, word, number):
        super().say(word, min(int(struct.unpack(">f", struct.pack(">f", number))[0]), 0x7fffffff))


class ReadsNoTags(Axis):
    """It reads what its orders have, whatever their tags say."""

    @staticmethod
    def retagged(data):
        for word, tags in ((b"/msc/go_2pc\0", b",ii\0"), (b"/msc/cancel\0", b",ii\0")):
            if data.startswith(word):
                return word + tags + data[len(word) + 4:]
        return data


class MatchesPatterns(Axis):
    """It takes an address as a pattern."""

    @staticmethod
    def retagged(data):
        return data.replace(b"/msc/*\0\0", b"/msc/cancel\0", 1) if data.startswith(b"/msc/*\0\0") else data


class ReadsOneByteOfTheDevice(Axis):
    """It looks at one byte of the number of the device."""

    @staticmethod
    def retagged(data):
        try:
            reader = Reader(data)
            reader.text(), reader.text()
        except ValueError:
            return data
        at = reader.at + 4
        return data[:at] + bytes(3) + data[at + 3:] if data.startswith(b"/msc/") and len(data) >= at + 4 else data


class SaysItsRestartRarely(Axis):
    """It says its restart every quarter of a second, from the beginning."""

    def look(self, now):
        before, forty = self.next_abort, self.forty
        super().look(now)
        if forty and self.next_abort is not None and before is not None and now >= before:
            self.next_abort = before + COPY
            self.forty = max(0, forty - FORTY // 4)


class MovesAtTheSecondGo(Axis):
    """It aborts at a go_2pc that it never prepared for, and moves at the copy of it."""

    def on_go_2pc(self, rest):
        if self.phase == "failed" and self.part is None:
            self.part, self.phase = bytes((0, 50)), "moving"
            self.start("move")
            return None
        return super().on_go_2pc(rest)


class MovesAndAborts(Axis):
    """To a go_2pc that it never prepared for it answers abort, and moves all the same. It says nothing of that."""

    def higher(self, kind):
        if kind == "go_2pc":
            print(f"axis {self.number} moves", flush=True)
        return super().higher(kind)


class SaysThatItIsReadyTooOften(Axis):
    """While it is ready it says so twenty times a second."""
    says = 0.0

    def look(self, now):
        super().look(now)
        if self.phase == "ready" and now >= self.says:
            self.says = now + 0.05
            self.say("standing_by", self.last)


class SpellsTwoDigits(Axis):
    """It spells its number with a zero in front."""

    def say(self, word, number):
        address = f"/device/{self.number:02}/{word}".encode()
        self.box.wire.sendto(two_axes.text_of(address) + two_axes.text_of(b",i") + two_axes.int_of(number), self.place)


class SaysThatItIsReadyOnItsWay(Axis):
    """It goes on saying that it is ready while it moves."""
    says = 0.0

    def look(self, now):
        super().look(now)
        if self.phase in ("ready", "moving") and now >= self.says:
            self.says = now + COPY
            self.say("standing_by", self.last)


class AbortsTooOften(Axis):
    """It repeats its abort forty times in each second."""

    def look(self, now):
        super().look(now)
        if self.phase == "failed" and self.next_abort is not None:
            self.next_abort = min(self.next_abort, now + FIRST)


class SaysItsRestartOfTheNext(Axis):
    """A higher number does not end what it says of its restart: it says it of that one."""

    def hear(self, kind, attempt, place, rest):
        due, forty, last = self.next_abort, self.forty, self.last
        super().hear(kind, attempt, place, rest)
        if self.last > last:
            self.next_abort, self.forty = due, forty


class KeepsSome(Axis):
    """It does not write the numbers of the orders of some kinds when it hears them."""
    kinds = ()

    def hear(self, kind, attempt, place, rest):
        if kind not in self.kinds:
            super().hear(kind, attempt, place, rest)
            return
        self.box.keep = lambda: None
        super().hear(kind, attempt, place, rest)
        del self.box.keep


class KeepsStandbysAlone(KeepsSome):
    """It writes the number of a standby, and of no other order."""
    kinds = ("go_2pc", "cancel")


class WritesOncePrepared(KeepsSome):
    """It writes the number of a standby once it has prepared."""
    kinds, brake = ("standby",), 0.6

    def look(self, now):
        was = self.phase
        super().look(now)
        if was == "preparing" and self.phase != was:
            self.box.keep()


class ForgetsNothing(Axis):
    """Its key has it forget no number."""

    def __init__(self, box, number, last, place):
        super().__init__(box, number, getattr(self, "last", last), getattr(self, "place", place))


# The class, the requirement, and what the tester is given: a fault, a restart, a key, or one that prepares slowly.
BROKEN = {
    "keeps-silent-at-a-late-cancel": (KeepsSilentAtALateCancel, "6d", ""),
    "keeps-silent-at-lower-numbers": (KeepsSilentAtLowerNumbers, "7b", ""),
    "aborts-lower-cancels": (AbortsLowerCancels, "7c", ""),
    "keeps-silent-unprepared": (KeepsSilentUnprepared, "4b", ""),
    "stays-ready": (StaysReady, "6b", ""),
    "lets-go-at-a-refusal": (LetsGoAtARefusal, "10a", ""),
    "aborts-for-good": (AbortsForGood, "9b", "fault"),
    "aborts-at-higher-numbers": (AbortsAtHigherNumbers, "9b", "fault"),
    "ends-at-any-abort": (EndsAtAnyAbort, "9c", "fault"),
    "keeps-no-number": (KeepsNoNumber, "13a", "restart"),
    "keeps-no-place": (KeepsNoPlace, "13d", "restart"),
    "prepares-in-a-motion": (PreparesInAMotion, "3b", ""),
    "stands-by-at-a-copy": (StandsByAtACopy, "2b", "slow"),
    "answers-late": (AnswersLate, "1b", ""),
    "stops-at-a-cancel": (StopsAtACancel, "2b", ""),
    "numbers-as-floats": (NumbersAsFloats, "12d", ""),
    "reads-no-tags": (ReadsNoTags, "10c", ""),
    "matches-patterns": (MatchesPatterns, "10d", ""),
    "reads-one-byte-of-the-device": (ReadsOneByteOfTheDevice, "10b", ""),
    "says-its-restart-rarely": (SaysItsRestartRarely, "15b", "restart"),
    "moves-at-the-second-go": (MovesAtTheSecondGo, "4a", ""),
    "moves-and-aborts": (MovesAndAborts, "4a", ""),
    "says-that-it-is-ready-too-often": (SaysThatItIsReadyTooOften, "17a", ""),
    "spells-two-digits": (SpellsTwoDigits, "12d", ""),
    "says-that-it-is-ready-on-its-way": (SaysThatItIsReadyOnItsWay, "17a", ""),
    "aborts-too-often": (AbortsTooOften, "9a", "fault"),
    "says-its-restart-of-the-next": (SaysItsRestartOfTheNext, "15b", "restart"),
    "keeps-standbys-alone": (KeepsStandbysAlone, "13a", "restart"),
    "writes-once-prepared": (WritesOncePrepared, "13b", "restart"),
    "forgets-nothing": (ForgetsNothing, "8a", "forget"),
}


def main(broken):
    """Runs the box of this one of a table."""
    kind = broken[sys.argv[1]][0]
    if broken[sys.argv[1]][2] == "slow":
        kind.brake = 0.6
    if hasattr(kind, "retagged"):
        read = two_axes.read
        two_axes.read = lambda data: read(kind.retagged(data))
    two_axes.main(sys.argv[2:], (kind, Axis))


if __name__ == "__main__":
    main(BROKEN)
