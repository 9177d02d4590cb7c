#!/usr/bin/env python3
"""A device by docs/device-table.csv, and the vectors of docs/vectors.txt that it makes.

    device_model.py > docs/vectors.txt        writes the vectors

No line of a library stands here. A vector is a state, what happens, and what comes of it. There is one for each
cell of the table and each kind of datagram that is no order; its name begins with the cell or the requirement of
docs/DEVICES.md.
"""
import csv
import struct
from copy import deepcopy
from dataclasses import dataclass
from pathlib import Path

import model

TABLE = Path(__file__).resolve().parent.parent.parent / "docs" / "device-table.csv"
ADDRESSES = {"standby": "/msc/standby", "go_2pc": "/msc/go_2pc", "cancel": "/msc/cancel"}
NOWHERE = bytes(8)
ENDS = {"prepared": ("prepare", "K"), "moved": ("move", "L"), "gave_up": ("give up", "M")}


def cells():
    """The table: by cell, and N and O by cell and phase."""
    return {(row["cell"], row["phase"]) if row["cell"] == "N" else row["cell"]: row
            for row in csv.DictReader(TABLE.read_text().splitlines())}


CELLS = cells()
ROWS = {row["phase"]: row["cell"][0] for row in CELLS.values() if row["number"] == "known" and row["cell"][1:]}


@dataclass
class Device:
    number: int
    last: int = 0
    phase: str = "over"
    doing: str = ""
    doing_number: int = 0
    unheard: bool = False
    asked: tuple = None  # the cue and the bytes of its standby
    controller: bytes = NOWHERE
    only: bytes = NOWHERE

    def hear(self, sender, data):
        """What the machine is ordered, and what is sent."""
        if self.only not in (NOWHERE, sender):
            return "", b""
        if (order := self.read(data)) is None:
            self.unheard = self.unheard and not self.is_reply(data)
            return "", b""
        self.controller = sender
        return self.obey(*order)

    def read(self, data):
        """The word, the number, and the cue and bytes of the order that the datagram is: those that give it again."""
        word = next((word for word, address in ADDRESSES.items() if data.startswith(address.encode() + b"\0")), None)
        at = 24 if word == "standby" else 16
        if word is None or len(data) < at + 8:
            return None
        number, asked = struct.unpack_from(">i", data, at)[0], None
        if word == "standby":
            cue = data[32:].split(b"\0")[0]
            kept = data[32 + len(model.padded(cue + b"\0")):]
            count = struct.unpack(">i", kept[:4])[0] if len(kept) >= 4 else -1
            if not 0 <= count <= 32 or not model.is_cue_number(cue):
                return None
            asked = cue, kept[4:4 + count]
        same = order(word, number, self.number, *(asked or ())) == data
        return (word, number, asked) if same and number >= 1 else None

    def is_reply(self, data):
        counts = struct.unpack(">iiii", data[-16:]) if len(data) >= 16 else (0, 0, 0, 0)
        return data == model.message("/reply", f"/device/{self.number}/abort".encode(), *counts)

    def obey(self, word, number, asked):
        column = {"standby": 1, "go_2pc": 3, "cancel": 4}[word]
        if number < self.last or (number == self.last and self.phase == "over"):
            return "", self.says(CELLS[f"J{column}"]["answer"], number)
        if number > self.last:
            cell = CELLS[f"{'I' if self.doing else 'H'}{column}"]
            self.last, self.unheard, self.asked = number, False, asked
        else:
            column += word == "standby" and asked != self.asked
            cell = CELLS[f"{ROWS[self.phase]}{column}"]
        return self.takes(cell)

    def takes(self, cell):
        self.phase = cell["phase after"]
        if cell["begins"] != "-":
            self.doing, self.doing_number = cell["begins"], self.last
        return cell["begins"].replace("-", ""), self.says(cell["answer"], self.last)

    def says(self, word, number):
        return b"" if word == "-" else model.message(f"/device/{self.number}/{word}", number)

    def ended(self, report):
        """The machine has done what it was ordered: prepared, moved or gave_up."""
        wanted, name = ENDS[report]
        if self.doing != wanted:
            return "bad call", b""
        is_current = self.doing_number == self.last and self.phase == CELLS[name]["phase"]
        self.doing, self.doing_number = "", 0
        return self.takes(CELLS[name]) if is_current else ("", b"")

    def cannot(self):
        at_work = bool(self.doing)
        cell = CELLS.get(("N", self.phase)) if not at_work or self.doing_number == self.last else None
        self.doing, self.doing_number = "", 0
        if cell is None:
            return "" if at_work else "bad call", b""
        self.unheard = True
        return self.takes(cell)

    def tick(self):
        return "", self.says("abort", self.last) if self.unheard else b""

    def happens(self, event, *words):
        if event == "hear":
            return self.hear(*words)
        return self.ended(event) if event in ENDS else getattr(self, event)()


def order(word, number, device, *asked):
    """An order of the controller, as bytes."""
    return model.message(ADDRESSES[word], number, device, *(asked and (asked[0], model.Blob(asked[1]))))


# ---- the text of a vector

def words_of(state):
    """A state as a line has it."""
    if state is None:
        return "-"
    cue, kept = state.asked or (b"", b"")
    doing = f"{state.doing.replace(' ', '_')}:{state.doing_number}" if state.doing else "-"
    fields = (state.number, state.last, state.phase.replace(" ", "_"), doing, int(state.unheard), cue.decode() or "-",
              kept.hex() or "-", place(state.controller), place(state.only))
    return " ".join(map(str, fields))


def place(where):
    return "-" if where == NOWHERE else where.hex()


def vector(name, before, event, *words):
    """A vector before it is played: the event, and the state in which it comes."""
    return name, before, event, words


def comes_of(before, event, *words):
    """The state after an event, what the machine is ordered, and what is sent."""
    if before is None:
        return made(event, *words)
    after = deepcopy(before)
    return after, *after.happens(event, *words)


def lines_of(name, before, event, words):
    after, given, sent = comes_of(before, event, *words)
    said = " ".join([event, *(word.hex() or "-" if isinstance(word, bytes) else str(word) for word in words)])
    return (f"vector {name}\nbefore {words_of(before)}\nevent {said}\n"
            f"order {given.replace(' ', '_') or '-'}\nanswer {sent.hex() or '-'}\nafter {words_of(after)}\n")


def made(event, number, kept=0, sender=NOWHERE):
    """A device that is made, and what it says at once."""
    device = Device(number, kept, unheard=kept > 0, controller=sender)
    return device, "", device.tick()[1]


# ---- the vectors

HERE, ELSEWHERE = (struct.pack(">4sHH", bytes([127, 0, 0, 1]), port, 0) for port in (9100, 9101))
STANDBY, OTHER = (b"1", b"\x0a\x0b"), (b"1", b"\x0a\x0c")
WORKS = {"preparing": "prepare", "moving": "move", "letting go": "give up"}


def in_phase(phase, number=5, **more):
    """Device 3 in this phase of the attempt 5."""
    doing = WORKS.get(phase, "")
    state = Device(3, number, phase, doing, number if doing else 0, False, STANDBY, HERE)
    state.__dict__.update(more)
    return state


def hears(name, state, data, sender=HERE):
    return vector(name, state, "hear", sender, data)


def of_cells():
    """Each cell of the table, and the states in which it may be met."""
    for phase, row in ROWS.items():
        yield hears(f"{row}1 {phase}, the same standby", in_phase(phase), order("standby", 5, 3, *STANDBY))
        yield hears(f"{row}2 {phase}, other bytes", in_phase(phase), order("standby", 5, 3, *OTHER))
        yield hears(f"{row}2 {phase}, another cue", in_phase(phase), order("standby", 5, 3, b"2", STANDBY[1]))
        yield hears(f"{row}3 {phase}, go_2pc", in_phase(phase), order("go_2pc", 5, 3))
        yield hears(f"{row}4 {phase}, cancel", in_phase(phase), order("cancel", 5, 3))
    for phase in ("let go", "failed"):
        state = in_phase(phase, asked=None)
        yield hears(f"{ROWS[phase]}2 {phase}, and no standby was heard", state, order("standby", 5, 3, *STANDBY))
    for phase in ("over", *ROWS):
        state = in_phase(phase, asked=STANDBY if phase != "over" else None)
        row = "I" if state.doing else "H"
        yield hears(f"{row}1 {phase}, a higher standby", state, order("standby", 6, 3, *OTHER))
        yield hears(f"{row}3 {phase}, a higher go_2pc", state, order("go_2pc", 6, 3))
        yield hears(f"{row}4 {phase}, a higher cancel", state, order("cancel", 6, 3))
        for word, column in (("standby", 1), ("go_2pc", 3), ("cancel", 4)):
            asked = STANDBY if word == "standby" else ()
            yield hears(f"J{column} {phase}, a lower {word}", state, order(word, 4, 3, *asked))
            if phase == "over":
                yield hears(f"J{column} the {word} of the number that was kept", state, order(word, 5, 3, *asked))
    busy = in_phase("failed", 6, doing="move", doing_number=5, asked=OTHER)
    yield hears("I1 at work for 5, failed for 6, a standby of 7", busy, order("standby", 7, 3, *STANDBY))
    yield hears("G1 the standby that it refused, again", busy, order("standby", 6, 3, *OTHER))


def of_reports():
    """Each report in each phase."""
    for phase in ("over", *ROWS):
        state = in_phase(phase, asked=STANDBY if phase != "over" else None)
        for report, (doing, cell) in ENDS.items():
            yield vector(f"{cell} {phase}: {report}", state, report)
        yield vector(f"N {phase}: cannot", state, "cannot")
        yield vector(f"9a {phase}: a tick", state, "tick")
    for report, (doing, cell) in ENDS.items():
        gone = in_phase("failed", doing=doing, doing_number=5)
        yield vector(f"{cell} the attempt has gone on", gone, report)
        yield vector(f"N the attempt has failed meanwhile, doing {doing}", gone, "cannot")
        higher = in_phase("let go", 6, doing=doing, doing_number=5, asked=None)
        yield vector(f"{cell} a higher number came", higher, report)
        yield vector(f"N a higher number came, doing {doing}", higher, "cannot")


def of_aborts():
    """The aborts that nobody asked for, and what ends them."""
    for phase in ("failed", "over"):
        loud = in_phase(phase, unheard=True, asked=STANDBY if phase == "failed" else None)
        yield vector(f"9a {phase}: a tick says abort again", loud, "tick")
        for name, data in (("9b made", reply("abort", 1, 0, 0, 0)), ("9b refused", reply("abort", 0, 0, 1, 15)),
                           ("9c to another answer", reply("complete", 1, 0, 0, 0)),
                           ("9c to another device's abort", reply("abort", 1, 0, 0, 0, 33)),
                           ("9c one number too few", model.message("/reply", b"/device/3/abort", 1, 0, 0)),
                           ("9c one number too many", model.message("/reply", b"/device/3/abort", 1, 0, 0, 0, 0)),
                           ("9c a longer text", model.message("/reply", b"/device/3/abort1", 1, 0, 0, 0)),
                           ("9c a zero in front", model.message("/reply", b"/device/03/abort", 1, 0, 0, 0)),
                           ("9c cut off", reply("abort", 1, 0, 0, 0)[:-1]),
                           ("9c another address", reply("abort", 1, 0, 0, 0).replace(b"/reply", b"/repla"))):
            yield hears(f"{name[:2]} {phase}, a /reply: {name[3:]}", loud, data)
        yield hears(f"9b {phase}, a higher number", loud, order("standby", 6, 3, *OTHER))
        yield hears(f"9c {phase}, the go_2pc of this number", loud, order("go_2pc", 5, 3))
    yield hears("10a ready, a /reply to its abort", in_phase("ready"), reply("abort", 1, 0, 0, 0))
    yield hears("10a ready, a /reply to its standing_by", in_phase("ready"), reply("standing_by", 0, 0, 1, 15))


def reply(word, *counts):
    device = counts[4] if len(counts) > 4 else 3
    return model.message("/reply", f"/device/{device}/{word}".encode(), *counts[:4])


def no_orders():
    """What is no order for the device 3, by what is wrong. A ready device that takes it for one moves or gives up."""
    go, cancel, other = order("go_2pc", 5, 3), order("cancel", 5, 3), order("standby", 5, 3, *OTHER)
    yield "10b for the device below", order("go_2pc", 5, 2)
    yield "10b for the device above", order("standby", 5, 4, *OTHER)
    yield "10b for a device 256 above", order("cancel", 5, 259)
    yield "10b for the device -1", order("cancel", 5, -1)
    yield "10c no byte", b""
    for length, what in ((11, "within its address"), (12, "after its address"), (16, "after its tags"),
                         (20, "after its number"), (23, "before its last byte")):
        yield f"10c cut off {what}", cancel[:length]
    yield "10c one byte more", go + b"\0"
    yield "10c four bytes more", go + bytes(4)
    yield "10c one number more", model.message("/msc/go_2pc", 5, 3, 0)
    yield "10c no device", model.message("/msc/go_2pc", 5)
    yield "10c a text in place of a number", model.message("/msc/cancel", b"5", 3)
    yield "10c tags without a comma", cancel.replace(b",ii\0", b"ii\0\0")
    yield "10c another tag", cancel.replace(b",ii\0", b",if\0")
    yield "10c no tags", cancel.replace(b",ii\0", b"")
    yield "10c a standby without bytes", model.message("/msc/standby", 5, 3, b"1")
    yield "10c a standby without cue", model.message("/msc/standby", 5, 3, model.Blob(OTHER[1]))
    yield "10c a blob in place of the cue", model.message("/msc/standby", 5, 3, model.Blob(b"1"), model.Blob(OTHER[1]))
    yield "10c a standby cut off", other[:-1]
    yield "10c a standby cut off by four", other[:-4]
    yield "10c four bytes more after a standby", other + bytes(4)
    yield "10c no zeros after the address", other.replace(b"standby\0\0\0\0", b"standby\0\0\0\1")
    yield "10c no zeros after the tags", other.replace(b",iisb\0\0\0", b",iisb\0\0\1")
    yield "10c no zeros after the cue", other.replace(b"1\0\0\0", b"1\0\0\1")
    yield "10c no zeros after the bytes", other[:-1] + b"\1"
    for count, what in ((33, "33"), (-1, "-1"), (-2147483646, "-2147483646"), (0x01000002, "a high byte"),
                        (1, "one too few"), (5, "more than there are")):
        yield f"10c a count of bytes of {what}", other[:-8] + struct.pack(">i", count) + other[-4:]
    yield "10c 33 bytes", order("standby", 5, 3, b"1", bytes(33))
    for cue in ("", "a", "1a", "1.", ".1", "1..2", ".", " 1", "1 ", "-1", "12345678901234567", "1,5"):
        yield f"10c the cue \"{cue}\"", order("standby", 5, 3, cue.encode(), OTHER[1])
    yield "10d another address", model.message("/msc/cancelled", 5, 3)
    yield "10d a shorter address", model.message("/msc/go", 5, 3)
    yield "10d other letters", model.message("/MSC/GO_2PC", 5, 3)
    yield "10d a pattern", model.message("/msc/*", 5, 3)
    yield "10d a command of the desk", model.message("/cue/1/go")
    yield "10d 44 zeros", bytes(44)
    yield "10d an empty bundle", b"#bundle\0" + bytes(7) + b"\1"
    yield "10d an order in a bundle", b"#bundle\0" + bytes(7) + b"\1" + struct.pack(">i", len(go)) + go
    for number in (0, -1, -2147483648):
        yield f"10e the number {number}", order("cancel", number, 3)
        yield f"10e a standby of the number {number}", order("standby", number, 3, *OTHER)


def of_no_orders():
    for name, data in no_orders():
        if in_phase("ready").read(data):
            raise ValueError(f"{name} is an order")
        yield hears(f"{name}, ready", in_phase("ready"), data)


def of_bytes():
    """Every form that an order and an answer may have."""
    for number in (0, 9, 10, 11, 19, 20, 99, 100, 109, 110, 111):
        state = in_phase("ready", number=5)
        state.number = number
        yield hears(f"12d device {number} answers", state, order("standby", 5, number, *STANDBY))
    free = Device(3, 5, controller=HERE)
    for cue in (b"0", b"12", b"123", b"1.5", b"1234567890.12345", b"0.0.0.0.0.0.0.00"):
        yield hears(f"H1 the cue {cue.decode()}", free, order("standby", 6, 3, cue, b"\x01"))
    for length in (0, 1, 2, 3, 4, 5, 31, 32):
        kept = bytes(range(255, 255 - length, -1))
        yield hears(f"H1 {length} bytes", free, order("standby", 6, 3, b"1", kept))
        yield hears(f"B1 the same {length} bytes", in_phase("ready", asked=(b"1", kept)),
                    order("standby", 5, 3, b"1", kept))
    yield hears("B2 fewer bytes, a zero alone", in_phase("ready", asked=(b"1", b"\0\0")),
                order("standby", 5, 3, b"1", b"\0"))
    yield hears("B2 no bytes", in_phase("ready"), order("standby", 5, 3, b"1", b""))
    yield hears("B2 the cue 1.0", in_phase("ready"), order("standby", 5, 3, b"1.0", STANDBY[1]))
    top = 2147483647
    yield hears("H1 the highest number", free, order("standby", top, 3, *STANDBY))
    yield hears("B1 the highest number, ready", in_phase("ready", top), order("standby", top, 3, *STANDBY))
    yield hears("J3 the highest number is known", in_phase("done", top), order("go_2pc", top - 1, 3))
    yield hears("H4 the number 256", in_phase("done", 255), order("cancel", 256, 3))


def of_senders():
    """Where answers go, who is heard, and how a device is made."""
    yield hears("12b an order from elsewhere", in_phase("ready"), order("standby", 5, 3, *STANDBY), ELSEWHERE)
    yield hears("12c no order from elsewhere", in_phase("ready"), b"/hello\0\0", ELSEWHERE)
    yield hears("12b a lower order from elsewhere", in_phase("ready"), order("go_2pc", 4, 3), ELSEWHERE)
    alone = in_phase("ready", only=HERE)
    yield hears("14a the sender that is heard", alone, order("go_2pc", 5, 3))
    yield hears("14a another sender", alone, order("go_2pc", 5, 3), ELSEWHERE)
    yield hears("14a another sender, a /reply", in_phase("failed", unheard=True, only=HERE),
                reply("abort", 1, 0, 0, 0), ELSEWHERE)
    yield vector("8a a new store", None, "new", 3)
    yield vector("8a a new store, device 111", None, "new", 111)
    yield vector("O restarted, and had kept 5", None, "restarted", 3, 5, HERE)
    yield vector("O restarted, and had kept the highest number", None, "restarted", 3, 2147483647, HERE)
    yield vector("O restarted, and had kept none", None, "restarted", 3, 0, NOWHERE)


HEAD = """\
# Test vectors for a device of cuectl, version 1 of its protocol: docs/DEVICES.md says what they are.
#
# A vector is six lines. Its name begins with the cell of the table or the requirement that it is about.
#   before, after   the state: DEVICE LAST PHASE DOING UNHEARD CUE BYTES CONTROLLER ONLY, or - before it is made
#     LAST          the highest number that was heard; DOING the order whose end is not reported, and its number
#     UNHEARD       1 while an abort that nobody asked for is repeated
#     CUE BYTES     of the standby of LAST, the bytes in hexadecimal; CUE is - where no standby was heard
#     CONTROLLER    where the last order came from; ONLY the sender that is heard alone
#   event           hear SENDER DATAGRAM | prepared | moved | gave_up | cannot | tick | new DEVICE |
#                   restarted DEVICE KEPT SENDER
#   order           what the machine begins: prepare, move, give_up; bad_call: the report is refused
#   answer          the datagram to CONTROLLER
# - is nothing. A place is eight bytes: an IPv4 address, a port, two zeros. tests/oracles/device_model.py writes this.
"""


def vectors():
    for part in (of_cells, of_reports, of_aborts, of_no_orders, of_bytes, of_senders):
        yield from part()


def text():
    """docs/vectors.txt."""
    return HEAD + "".join("\n" + lines_of(*one) for one in vectors())


if __name__ == "__main__":
    print(text(), end="")
