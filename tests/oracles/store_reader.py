"""A strict reader of a store, written from docs/FORMAT.md alone: `opened(a, b)` is what opening two files answers.

It answers the lines that `cuectl show` prints, or the name of the fault. It shares no line with the controller.
"""
import functools
import re
from typing import NamedTuple

MAX_AREA, MAX_PAYLOAD, MAX_EVENTS, MAX_LIVE, LAST_NUMBER = 16_777_216, 32_768, 4_096, 8, 2**31 - 1
MAX_CUES, MAX_CUES_OF_VERSION_1 = 1_024, 256
WAITING, READY, DONE, LET_GO, FAILED, EXCUSED = range(6)
PREPARING, DECIDED = 1, 2
KNOWN = {PREPARING: {WAITING, READY, EXCUSED}, DECIDED: {WAITING, DONE, FAILED, EXCUSED}}
CANCELLING = {WAITING, LET_GO, FAILED}


class Part(NamedTuple):
    device: int
    optional: bool
    data: bytes


class Bad(Exception):
    pass


class Damaged(Exception):
    pass


def ensure(holds):
    if not holds:
        raise Bad


class Text:
    def __init__(self, data, fault=Bad):
        self.data, self.at, self.fault = data, 0, fault

    def take(self, count):
        if self.at + count > len(self.data):
            raise self.fault
        self.at += count
        return self.data[self.at - count:self.at]

    def number(self, count):
        return int.from_bytes(self.take(count), "big")

    def within(self, low, high, count):
        number = self.number(count)
        ensure(low <= number <= high)
        return number

    def cue(self):
        text = self.take(self.within(1, 16, 1))
        ensure(re.fullmatch(rb"[0-9]+(\.[0-9]+)*", text))
        return text.decode()

    def part(self, flagged):
        return Part(self.within(0, 111, 1), bool(flagged and self.within(0, 1, 1)), self.take(self.within(0, 32, 1)))

    def parts(self, flagged):
        """Parts with a flag byte each, or parts that are all required."""
        parts = [self.part(flagged) for _ in range(self.within(1, 16, 1))]
        ensure(len({part.device for part in parts}) == len(parts))
        ensure(not all(part.optional for part in parts))
        return parts

    def end(self):
        ensure(self.at == len(self.data))


# ---- areas

def area(data):
    """None where the file has no area; else generation, snapshot, payloads. Damaged where its gate is open on none."""
    if len(data) < 2 or data[0] != 1:
        return None
    text = Text(data[:MAX_AREA], Damaged)
    text.take(1)
    generation, snapshot, payloads = text.number(8), text.take(text.number(4)), []
    while text.take(1) == b"\x01":
        length = text.number(4)
        if length > MAX_PAYLOAD:
            raise Damaged
        payloads.append(text.take(length))
    return generation, snapshot, payloads


# ---- states

class State:
    def __init__(self, data):
        text = Text(data)
        version = text.within(1, 2, 1)
        self.devices, self.cues, self.live = {}, {}, {}
        for _ in range(text.number(1)):
            device = text.within(0, 111, 1)
            ensure(device not in self.devices)
            self.devices[device] = text.within(1, 65535, 2)
        for _ in range(text.within(0, MAX_CUES if version == 2 else MAX_CUES_OF_VERSION_1, 2)):
            self.add_cue(text.cue(), text.parts(flagged=version == 2))
        self.place = None
        if text.data[text.at:text.at + 1] == b"\0":
            text.take(1)
        else:
            self.place = text.cue()
            ensure(self.place in self.cues)
        self.last = text.within(0, LAST_NUMBER, 4)
        self.ended = (text.within(0, self.last, 4), text.within(0, 3, 1))
        ensure((self.ended[0] == 0) == (self.ended[1] == 0))
        for _ in range(text.within(0, MAX_LIVE, 1)):
            self.read_attempt(text)
        text.end()

    def add_cue(self, cue, parts):
        ensure(cue not in self.cues and len(self.cues) < MAX_CUES)
        ensure(all(part.device in self.devices for part in parts))
        self.cues[cue] = parts

    def read_attempt(self, text):
        number, cue = text.within(max(self.live, default=0) + 1, self.last, 4), text.cue()
        text.take(8)
        stage = text.within(1, 7, 1)
        ensure(cue in self.cues and number != self.ended[0])
        answers = {part.device: text.number(1) for part in self.cues[cue]}
        ensure(set(answers.values()) <= KNOWN.get(stage, CANCELLING))
        ensure(all(part.optional for part in self.cues[cue] if answers[part.device] == EXCUSED))
        ensure(stage == PREPARING or WAITING in answers.values())
        ensure(not any(d in a["answers"] for a in self.live.values() for d in answers))
        self.live[number] = {"cue": cue, "stage": stage, "answers": answers}

    def following(self, cue):
        stack = list(self.cues)
        return (stack + [None])[stack.index(cue) + 1]

    def attempt(self, number, *stages):
        ensure(number in self.live)
        found = self.live[number]
        ensure(min(found["stage"], 3) in stages)
        return found

    def enter(self, attempt, stage, excused):
        """Each device waits again, and one that was excused has this answer."""
        attempt["stage"] = stage
        attempt["answers"] = {d: excused if a == EXCUSED else WAITING for d, a in attempt["answers"].items()}

    def excuse(self, number, device):
        attempt = self.attempt(number, PREPARING)
        optional = [part.device for part in self.cues[attempt["cue"]] if part.optional]
        ensure(device in optional and attempt["answers"][device] in (WAITING, READY))
        attempt["answers"][device] = EXCUSED

    def answer(self, number, device, answer, *stages):
        attempt = self.attempt(number, *stages)
        ensure(attempt["answers"].get(device) == WAITING)
        attempt["answers"][device] = answer
        if answer != READY and WAITING not in attempt["answers"].values():
            complete = set(attempt["answers"].values()) <= {DONE, EXCUSED}
            self.ended = (number, 2 if attempt["stage"] > DECIDED else 1 if complete else 3)
            del self.live[number]

    def happen(self, event):
        kind, *x = event
        if kind == 1:
            ensure(x[0] not in self.devices)
            self.devices[x[0]] = x[1]
        elif kind == 2:
            ensure(x[0] in self.devices and not any(p.device == x[0] for parts in self.cues.values() for p in parts))
            del self.devices[x[0]]
        elif kind in (3, 13):
            self.add_cue(*x)
        elif kind == 4:
            ensure(x[0] in self.cues and not any(a["cue"] == x[0] for a in self.live.values()))
            self.place = self.following(x[0]) if self.place == x[0] else self.place
            del self.cues[x[0]]
        elif kind == 5:
            ensure(x[0] in self.cues)
            self.place = x[0]
        elif kind == 6:
            ensure(x[0] == self.last + 1 and x[1] in self.cues and len(self.live) < MAX_LIVE)
            answers = {part.device: WAITING for part in self.cues[x[1]]}
            ensure(not any(d in a["answers"] for a in self.live.values() for d in answers))
            self.last = x[0]
            self.live[x[0]] = {"cue": x[1], "stage": PREPARING, "answers": answers}
        elif kind == 7:
            self.answer(x[0], x[1], READY, PREPARING)
        elif kind == 8:
            attempt = self.attempt(x[0], PREPARING)
            ensure(set(attempt["answers"].values()) <= {READY, EXCUSED})
            self.enter(attempt, DECIDED, EXCUSED)
            self.place = self.following(attempt["cue"])
        elif kind == 9:
            self.answer(x[0], x[1], DONE, DECIDED)
        elif kind == 10:
            self.enter(self.attempt(x[0], PREPARING), x[1] + 2, LET_GO)
        elif kind == 11:
            self.answer(x[0], x[1], LET_GO, 3)
        elif kind == 12:
            self.answer(x[0], x[1], FAILED, DECIDED, 3)
        else:
            self.excuse(*x)

    def lines(self):
        yield f"last {self.last}"
        yield f"place {self.place or '-'}"
        yield f"ended {self.ended[0]} {self.ended[1]}"
        yield from (f"device {device} {port}" for device, port in self.devices.items())
        yield from (f"cue {cue} {len(parts)}" for cue, parts in self.cues.items())
        for number, attempt in sorted(self.live.items()):
            stage = {PREPARING: "preparing", DECIDED: "decided"}.get(attempt["stage"], "cancelling")
            yield f"attempt {number} {attempt['cue']} {stage}"


# ---- batches

def read_event(text):
    kind = text.within(1, 14, 1)
    if kind == 1:
        return kind, text.within(0, 111, 1), text.within(1, 65535, 2)
    if kind == 2:
        return kind, text.within(0, 111, 1)
    if kind == 3:
        return kind, text.cue(), text.parts(flagged=False)
    if kind == 13:
        cue, parts = text.cue(), text.parts(flagged=True)
        ensure(any(part.optional for part in parts))
        return kind, cue, parts
    if kind in (4, 5):
        return kind, text.cue()
    number = text.within(1, LAST_NUMBER, 4)
    if kind == 6:
        return kind, number, text.cue(), text.take(8)
    if kind == 8:
        return kind, number
    return kind, number, text.within(1, 5, 1) if kind == 10 else text.within(0, 111, 1)


@functools.lru_cache(maxsize=10_000)
def read_batch(payload):
    text = Text(payload)
    events = [read_event(text) for _ in range(text.within(1, MAX_EVENTS, 2))]
    text.end()
    return events


def state_of(a, b):
    """The state, or the name of the fault."""
    try:
        areas = [found for found in (area(a), area(b)) if found]
        if len(areas) == 2 and areas[0][0] == areas[1][0]:
            raise Damaged
    except Damaged:
        return "Damaged"
    if not areas:
        return "Unformed"
    _, snapshot, payloads = max(areas)
    if snapshot[:1] not in (b"", b"\x01", b"\x02"):
        return "Version"
    try:
        state = State(snapshot)
        for payload in payloads:
            for event in read_batch(payload):
                state.happen(event)
    except Bad:
        return "Malformed"
    return state


def opened(a, b):
    """The lines of the state, or the name of the fault."""
    state = state_of(a, b)
    return state if isinstance(state, str) else list(state.lines())
