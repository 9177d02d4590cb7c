#!/usr/bin/env python3
"""tests/harness/two_winches.py with one duty of docs/DEVICES.md broken at its first winch.

    broken_winches.py WHICH [the words of two_winches.py]

WHICH is a key of BROKEN; beside it are the id of the requirement and what the tester needs for it.
"""
import sys

import two_winches
from two_winches import Winch


class CompletesAtTheGo(Winch):
    """It says complete at once, and moves then."""

    def hear_go(self):
        was = self.phase
        super().hear_go()
        if was == "ready":
            self.phase = "done"
            self.say("complete")


class AnswersForItsOwnNumber(Winch):
    """To an order with a lower number it answers with its own one."""

    def hear(self, word, number, part, place):
        if number < self.last:
            self.keep(self.last, place)
            self.say("cancelled" if word == "cancel" else "abort")
        else:
            super().hear(word, number, part, place)


class KeepsWhatIsReady(Winch):
    """It does not hear a cancel of what is ready."""

    def hear_cancel(self):
        if self.phase != "ready":
            super().hear_cancel()


class GoesBackAtACopy(Winch):
    """A copy of the go_2pc that it has carried out is answered, and has it go back to where it came from."""
    before = 0

    def begin(self, work, seconds):
        super().begin(work, seconds)
        if work == "move":
            self.before = self.height

    def hear_go(self):
        is_copy = self.phase == "done"
        super().hear_go()
        if is_copy and self.height != self.before:
            self.height, self.before = self.before, self.height
            self.notes_motion()


class ReadsSignedBytes(Winch):
    """It puts the number of an order together from bytes with a sign."""

    def hear(self, word, number, part, place):
        signed = [byte - 256 if byte > 127 else byte for byte in number.to_bytes(4, "big")]
        number = sum(byte << shift for byte, shift in zip(signed, (24, 16, 8, 0)))
        if number >= 1:
            super().hear(word, number, part, place)


class GivesUpInSilence(Winch):
    """To a standby that is no copy it gives up what it prepared, and says nothing."""

    def hear_other(self):
        if self.phase in ("preparing", "ready"):
            self.phase = "failed"
            self.give_up()
        else:
            super().hear_other()


class StopsForAHigherCancel(Winch):
    """A cancel with a higher number stops its motion half way."""

    def hear_higher(self, word, number, part, place):
        if word == "cancel" and self.work == "move":
            self.work, self.holds = None, False
        super().hear_higher(word, number, part, place)


class TakesAnotherCueForACopy(Winch):
    """It compares the bytes of a standby, and not its cue."""

    def hear_known(self, word, part):
        if word == "standby" and self.part and part[1] == self.part[1]:
            part = self.part
        super().hear_known(word, part)


# The class, the requirement, and what the tester is given: a restart, a fault, or nothing.
BROKEN = {
    "completes-at-the-go": (CompletesAtTheGo, "1a", ""),
    "answers-for-its-own-number": (AnswersForItsOwnNumber, "12d", ""),
    "keeps-what-is-ready": (KeepsWhatIsReady, "1a", ""),
    "goes-back-at-a-copy": (GoesBackAtACopy, "2a", ""),
    "reads-signed-bytes": (ReadsSignedBytes, "12d", ""),
    "gives-up-in-silence": (GivesUpInSilence, "6a", ""),
    "stops-for-a-higher-cancel": (StopsForAHigherCancel, "1a", ""),
    "takes-another-cue-for-a-copy": (TakesAnotherCueForACopy, "6a", ""),
}


if __name__ == "__main__":
    two_winches.main(BROKEN[sys.argv[1]][0], sys.argv[2:])
