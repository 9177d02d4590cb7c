"""The files that the controller writes, made of the events of model.py: batches, states, areas, turn-overs.

A second reading of docs/FORMAT.md for the writing side, beside store_reader.py for the reading side.
"""

RECORDS = 256  # an area with so many of them is turned over before the next one
KINDS = ["device", "no_device", "cue", "no_cue", "place", "start", "ready", "go", "done", "cancel", "let_go", "failed",
         None,
         "excuse"]
ANSWERS = ["waiting", "ready", "done", "let_go", "failed", "excused"]
EMPTY = b"\2" + bytes(14)


def number(value, count):
    return value.to_bytes(count, "big")


def cue(text):
    return number(len(text), 1) + text.encode()


def parts(some, flags=True):
    """With a flag byte for each part, or as a cue without optional parts has them in a batch and in version 1."""
    flag = (lambda part: number(part.optional, 1)) if flags else (lambda part: b"")
    each = (number(p.device, 1) + flag(p) + number(len(p.data), 1) + p.data for p in some)
    return number(len(some), 1) + b"".join(each)


# ---- batches

def event(made):
    kind, *x = made
    if kind == "cue":
        mixed = any(part.optional for part in x[1])
        return (b"\x0d" if mixed else b"\x03") + cue(x[0]) + parts(x[1], flags=mixed)
    first = number(KINDS.index(kind) + 1, 1)
    if kind == "device":
        return first + number(x[0], 1) + number(x[1], 2)
    if kind == "no_device":
        return first + number(x[0], 1)
    if kind in ("no_cue", "place"):
        return first + cue(x[0])
    if kind == "start":
        return first + number(x[0], 4) + cue(x[1]) + number(x[2], 8)
    return first + number(x[0], 4) + b"".join(number(v, 1) for v in x[1:])


def batch(events):
    return number(len(events), 2) + b"".join(map(event, events))


# ---- states

def stage(attempt):
    return {"preparing": 1, "decided": 2}.get(attempt["stage"]) or 2 + attempt["reason"]


def state(s, version=2):
    """The text of a state, as the controller writes it; version 1 as older controllers wrote it."""
    text = number(version, 1) + number(len(s.devices), 1)
    text += b"".join(number(device, 1) + number(port, 2) for device, port in s.devices.items())
    text += number(len(s.cues), 2) + b"".join(cue(c) + parts(some, flags=version == 2) for c, some in s.cues.items())
    text += cue(s.place or "") + number(s.last, 4) + number(s.ended[0], 4) + number(s.ended[1], 1)
    text += number(len(s.live), 1)
    for q, attempt in sorted(s.live.items()):
        text += number(q, 4) + cue(attempt["cue"]) + number(attempt["deadline"], 8) + number(stage(attempt), 1)
        text += b"".join(number(ANSWERS.index(answer), 1) for answer in attempt["answers"].values())
    return text


# ---- areas

def record(payload):
    return b"\x01" + number(len(payload), 4) + payload


def area(generation, snapshot, payloads):
    head = b"\x01" + number(generation, 8) + number(len(snapshot), 4)
    return head + snapshot + b"".join(map(record, payloads)) + b"\0"


class Store:
    """Both files after each batch. It begins as one that was just formed, or with this area in the first file."""

    def __init__(self, generation=1, snapshot=EMPTY, payloads=(), spare=b"", records=RECORDS):
        self.generation, self.snapshot, self.payloads, self.records = generation, snapshot, list(payloads), records
        self.files, self.live = [area(generation, snapshot, payloads), spare], 0

    def append(self, before, events):
        """Keeps a batch that the state before it took; where there is none, nothing is written."""
        if not events:
            return
        if len(self.payloads) >= self.records:
            self.generation, self.snapshot, self.payloads = self.generation + 1, state(before), []
            self.live = 1 - self.live
        self.payloads.append(batch(events))
        text, old = area(self.generation, self.snapshot, self.payloads), self.files[self.live]
        self.files[self.live] = text + old[len(text):]  # a file is never shortened
