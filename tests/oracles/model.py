#!/usr/bin/env python3
"""A second reading of docs/PROTOCOL.md: what `cuectl script` prints for a script, in plain Python.

    model.py < SCRIPT          prints what the controller would print, and ends with its status

It shares no line with the controller. tests/runs/compare runs both over random scripts.
"""
import re
import struct
import sys
from typing import NamedTuple

MAX_COMMANDS, MAX_PAYLOAD, MAX_LIVE, MAX_CUES, MAX_PARTS, MAX_PART_BYTES = 2048, 32768, 8, 1024, 16, 32
LAST_NUMBER, STANDBY_MS, U64 = 2**31 - 1, 10_000, 2**64 - 1
MAX_SCRIPT = 1_048_576


# ---- OSC

class Fault(Exception):
    pass


class Discarded(Exception):
    pass


def osc_string(data, at, end):
    null = data.find(b"\0", at, end)
    if null < 0:
        raise Fault("BadString")
    padded = at + ((null - at) // 4 + 1) * 4
    if padded > end or any(data[null:padded]):
        raise Fault("BadString")
    return data[at:null], padded


def read_message(data, at, end):
    address, at = osc_string(data, at, end)
    if at == end:
        return address, []
    if data[at:at + 1] != b",":
        return address, None
    tags, at = osc_string(data, at, end)
    if any(t not in b"isb" for t in tags[1:]):
        return address, None
    args = []
    for tag in tags[1:].decode():
        if tag == "s":
            value, at = osc_string(data, at, end)
            args.append(("s", value))
            continue
        if at + 4 > end:
            raise Fault("BadSize")
        number, = struct.unpack_from(">i", data, at)
        at += 4
        if tag == "i":
            args.append(("i", number))
            continue
        padded = at + (number + 3) // 4 * 4
        if number < 0 or padded > end or any(data[at + number:padded]):
            raise Fault("BadBlob")
        args.append(("b", data[at:at + number]))
        at = padded
    if at != end:
        raise Fault("Trailing")
    return address, args


def read_packet(data, at, end, depth, messages, tags):
    if data[at:min(at + 8, end)] == b"#bundle\0":
        if depth == 8:
            raise Fault("TooDeep")
        if at + 16 > end:
            raise Fault("BadSize")
        tags.append(struct.unpack_from(">Q", data, at + 8)[0])
        at += 16
        while at < end:
            if at + 4 > end:
                raise Fault("BadSize")
            size, = struct.unpack_from(">i", data, at)
            at += 4
            if size <= 0 or size % 4 or at + size > end:
                raise Fault("BadSize")
            read_packet(data, at, at + size, depth + 1, messages, tags)
            at += size
    elif data[at:at + 1] == b"/" and at < end:
        messages.append(read_message(data, at, end))
    else:
        raise Fault("BadStart")


def read_datagram(data):
    """Its messages and its time tags, or the code with which it is refused."""
    if len(data) > 4096:
        return 31
    messages, tags = [], []
    try:
        if len(data) % 4:
            raise Fault("NotMultiple")
        read_packet(data, 0, len(data), 0, messages, tags)
    except Fault:
        return 30
    return messages, tags


def is_later(tag, now):
    return tag != 1 and tag * 1000 > (2208988800000 + now) * 2**32


# ---- address patterns

def part_expression(part):
    """A regular expression over bytes for a part of a pattern; none where it is bad."""
    out, at = b"", 0
    while at < len(part):
        c = part[at:at + 1]
        at += 1
        if c == b"?":
            out += b"."
        elif c == b"*":
            out += b".*"
        elif c == b"[":
            close = part.find(b"]", at)
            if close < 0:
                return None
            inside, at = part[at:close], close + 1
            negated = inside[:1] == b"!"
            if negated:
                inside = inside[1:]
            if not inside:
                return None
            chosen, i = set(), 0
            while i < len(inside):
                if i + 2 < len(inside) and inside[i + 1:i + 2] == b"-":
                    chosen |= set(range(inside[i], inside[i + 2] + 1))
                    i += 3
                else:
                    chosen.add(inside[i])
                    i += 1
            if negated:
                chosen = set(range(256)) - chosen
            out += b"(?:" + b"|".join(re.escape(bytes([b])) for b in sorted(chosen)) + b")" if chosen else b"(?!)"
        elif c == b"{":
            close = part.find(b"}", at)
            if close < 0:
                return None
            inside, at = part[at:close], close + 1
            if any(b in b"[]{*?" for b in inside):
                return None
            out += b"(?:" + b"|".join(re.escape(t) for t in inside.split(b",")) + b")"
        else:
            out += re.escape(c)
    return out


def read_pattern(text):
    if text[:1] != b"/":
        return None
    parts = [part_expression(p) for p in text[1:].split(b"/")]
    if any(p is None for p in parts):
        return None
    return [re.compile(b"\\A" + re.sub(rb"(?:\.\*)+", b".*", p) + b"\\Z", re.S) for p in parts]


def matches(pattern, address):
    parts = address[1:].split(b"/")
    return len(parts) == len(pattern) and all(p.match(t) for p, t in zip(pattern, parts))


# ---- the state

class Part(NamedTuple):
    device: int
    optional: bool
    data: bytes


class State:
    def __init__(self):
        self.devices, self.cues, self.live = {}, {}, {}
        self.place, self.last, self.ended = None, 0, (0, 0)

    def attempt_of_device(self, device):
        return next((q for q, a in self.live.items() if device in a["answers"]), None)

    def attempt_of_cue(self, cue):
        return next((q for q, a in self.live.items() if a["cue"] == cue), None)

    def part(self, number, device):
        """The part that a device has in the cue of an attempt."""
        return next(p for p in self.cues[self.live[number]["cue"]] if p.device == device)

    def following(self, cue):
        stack = list(self.cues)
        at = stack.index(cue) + 1
        return stack[at] if at < len(stack) else None

    def pending(self):
        out = []
        for q, a in sorted(self.live.items()):
            for device, answer in a["answers"].items():
                if answer != "waiting":
                    continue
                port = self.devices[device]
                if a["stage"] == "preparing":
                    part = Blob(self.part(q, device).data)
                    out.append((port, message("/msc/standby", q, device, a["cue"].encode(), part)))
                else:
                    word = "/msc/go_2pc" if a["stage"] == "decided" else "/msc/cancel"
                    out.append((port, message(word, q, device)))
        return out

    def apply(self, event):
        kind, *x = event
        if kind == "device":
            self.devices[x[0]] = x[1]
        elif kind == "no_device":
            del self.devices[x[0]]
        elif kind == "cue":
            self.cues[x[0]] = x[1]
        elif kind == "no_cue":
            if self.place == x[0]:
                self.place = self.following(x[0])
            del self.cues[x[0]]
        elif kind == "place":
            self.place = x[0]
        elif kind == "start":
            self.last = x[0]
            answers = {part.device: "waiting" for part in self.cues[x[1]]}
            self.live[x[0]] = {"cue": x[1], "deadline": x[2], "stage": "preparing", "answers": answers}
        elif kind in ("go", "cancel"):
            a = self.live[x[0]]
            a["stage"] = "decided" if kind == "go" else "cancelling"
            excused = "excused" if kind == "go" else "let_go"
            a["answers"] = {d: excused if v == "excused" else "waiting" for d, v in a["answers"].items()}
            if kind == "go":
                self.place = self.following(a["cue"])
            else:
                a["reason"] = x[1]
        else:
            a = self.live[x[0]]
            a["answers"][x[1]] = "excused" if kind == "excuse" else kind
            if kind not in ("ready", "excuse") and "waiting" not in a["answers"].values():
                complete = all(v in ("done", "excused") for v in a["answers"].values())
                outcome = 2 if a["stage"] == "cancelling" else 1 if complete else 3
                self.ended = (x[0], outcome)
                del self.live[x[0]]

    def due(self, now):
        return [q for q, a in sorted(self.live.items()) if a["stage"] == "preparing" and a["deadline"] <= now]

    def undecided(self):
        return self.due(U64 + STANDBY_MS)


# ---- what is sent

class Blob:
    def __init__(self, data):
        self.data = data


def padded(data):
    return data + b"\0" * (-len(data) % 4)


def message(address, *args):
    tags, data = ",", b""
    for a in args:
        if isinstance(a, int):
            tags, data = tags + "i", data + struct.pack(">i", a)
        elif isinstance(a, Blob):
            tags, data = tags + "b", data + struct.pack(">i", len(a.data)) + padded(a.data)
        else:
            tags, data = tags + "s", data + padded(a + b"\0")
    return padded(address.encode() + b"\0") + padded(tags.encode() + b"\0") + data


def reply(address, made, known, refused, code):
    return message("/reply", address[:64], made, known, refused, code)


def status(s):
    return message("/status", s.last, (s.place or "").encode(), len(s.live), *s.ended)


def shown(s):
    """The lines that `cuectl show` prints."""
    yield from (f"last {s.last}", f"place {s.place or '-'}", f"ended {s.ended[0]} {s.ended[1]}")
    yield from (f"device {device} {port}" for device, port in s.devices.items())
    yield from (f"cue {cue} {len(parts)}" for cue, parts in s.cues.items())
    yield from (f"attempt {q} {a['cue']} {a['stage']}" for q, a in sorted(s.live.items()))


# ---- judging

def is_cue_number(text):
    return len(text) <= 16 and re.fullmatch(rb"[0-9]+(\.[0-9]+)*", text) is not None


CUE_VERBS = ["standby", "go", "cancel", "goto", "remove"]


def methods(s):
    yield from ((b"/status", ("status",)), (b"/show/device", ("add_device",)))
    yield from ((b"/show/cue", ("add_cue",)), (b"/show/mixed", ("add_mixed",)))
    for cue in s.cues:
        for verb in CUE_VERBS:
            yield f"/cue/{cue}/{verb}".encode(), ("cue", verb, cue)
    for device in s.devices:
        for verb in ("standing_by", "complete", "cancelled", "abort", "release", "remove"):
            yield f"/device/{device}/{verb}".encode(), ("device", verb, device)


def read_cue(number, devices, flags, texts):
    """A cue of these parts, or the code that it is refused with."""
    if not is_cue_number(number) or any(not 0 <= d <= 111 for d in devices) or any(f not in (0, 1) for f in flags):
        return 5
    parts = [Part(d, f == 1, b) for d, f, b in zip(devices, flags, texts)]
    if len(parts) > MAX_PARTS or len(set(devices)) != len(parts) or all(p.optional for p in parts):
        return 8
    return 8 if any(len(b) > MAX_PART_BYTES for b in texts) else ("add_cue", number.decode(), parts)


def read_command(method, args):
    """The command of a method, or the code that its arguments are refused with."""
    tags = "".join(t for t, _ in args)
    values = [v for _, v in args]
    if method[0] == "add_device":
        if tags != "ii":
            return 4
        device, port = values
        return ("add_device", device, port) if 0 <= device <= 111 and 1 <= port <= 65535 else 5
    if method[0] == "add_cue":
        if not re.fullmatch("s(ib)*", tags):
            return 4
        return read_cue(values[0], values[1::2], [0] * len(values[1::2]), values[2::2])
    if method[0] == "add_mixed":
        if not re.fullmatch("s(iib)*", tags):
            return 4
        return read_cue(values[0], values[1::3], values[2::3], values[3::3])
    if method[0] == "device" and method[1] in ("standing_by", "complete", "cancelled", "abort"):
        if tags != "i":
            return 4
        return ("reply", method[1], method[2], values[0]) if values[0] >= 1 else 5
    return method if not args else 4


CELLS = [("preparing", "waiting"), ("preparing", "ready"), ("preparing", "excused"),
         ("decided", "waiting"), ("decided", "done"), ("decided", "failed"), ("decided", "excused"),
         ("cancelling", "waiting"), ("cancelling", "let_go"), ("cancelling", "failed")]
REPLIES = {
    "standing_by": ("ready", "known", 15, "known", "known", 15, 15, 15, 15, 15),
    "complete": (16, 16, 16, "done", "known", 15, 15, 15, 15, 15),
    "cancelled": (16, 16, 16, 14, 14, 14, 14, "let_go", "known", 15),
    "abort": ("abort", "abort", "known", "failed", 15, "known", "known", "failed", 15, "known"),
}
ABORT_OF_AN_OPTIONAL = ("excuse", "excuse", "known", "failed", 15, "known", "known", "let_go", 15, "known")


def judge(s, now, sender, command):
    """A list of events, "known", or a code."""
    kind = command[0]
    if kind == "status":
        return "known"
    if kind == "add_device":
        _, device, port = command
        if device in s.devices:
            return "known" if s.devices[device] == port else 6
        return [("device", device, port)]
    if kind == "add_cue":
        _, cue, parts = command
        if any(part.device not in s.devices for part in parts):
            return 9
        if cue in s.cues:
            return "known" if s.cues[cue] == parts else 6
        return 7 if len(s.cues) >= MAX_CUES else [("cue", cue, parts)]
    if kind == "cue":
        return judge_cue(s, now, *command[1:])
    if kind == "reply":
        return judge_reply(s, sender, *command[1:])
    _, verb, device = command
    if device not in s.devices:
        return 3
    if verb == "remove":
        used = any(part.device == device for parts in s.cues.values() for part in parts)
        return 10 if used else [("no_device", device)]
    q = s.attempt_of_device(device)
    if q is None:
        return 12
    stage, answer = s.live[q]["stage"], s.live[q]["answers"][device]
    if answer == "excused":
        return "known"
    if stage == "preparing":
        optional = s.part(q, device).optional
        return [("excuse", q, device)] if optional else [("cancel", q, 5), ("let_go", q, device)]
    if answer != "waiting":
        return "known"
    return [("failed" if stage == "decided" else "let_go", q, device)]


def judge_cue(s, now, verb, cue):
    if cue not in s.cues:
        return 3
    q = s.attempt_of_cue(cue)
    a = s.live.get(q)
    if verb == "standby":
        if a and a["stage"] == "preparing":
            return "known"
        if any(s.attempt_of_device(part.device) is not None for part in s.cues[cue]):
            return 11
        if len(s.live) >= MAX_LIVE:
            return 7
        if s.last >= LAST_NUMBER:
            return 19
        return 18 if now + STANDBY_MS > U64 else [("start", s.last + 1, cue, now + STANDBY_MS)]
    if verb == "goto":
        return "known" if s.place == cue else [("place", cue)]
    if verb == "remove":
        return 11 if a else [("no_cue", cue)]
    if a is None:
        return 12
    if verb == "go":
        if a["stage"] == "decided":
            return "known"
        ready = a["stage"] == "preparing" and all(v in ("ready", "excused") for v in a["answers"].values())
        return [("go", q)] if ready else 13
    if a["stage"] == "decided":
        return 14
    return "known" if a["stage"] == "cancelling" else [("cancel", q, 1)]


def judge_reply(s, sender, word, device, q):
    if device not in s.devices:
        return 3
    if s.devices[device] != sender:
        return 17
    if q > s.last:
        return 16
    if q not in s.live:
        return 15
    a = s.live[q]
    if device not in a["answers"]:
        return 20
    row = ABORT_OF_AN_OPTIONAL if word == "abort" and s.part(q, device).optional else REPLIES[word]
    cell = row[CELLS.index((a["stage"], a["answers"][device]))]
    if cell == "abort":
        return [("cancel", q, 3), ("failed", q, device)]
    return cell if cell == "known" or isinstance(cell, int) else [(cell, q, device)]


def event_length(event):
    kind, *x = event
    if kind == "cue":
        flag = any(part.optional for part in x[1])
        return 1 + 1 + len(x[0]) + 1 + sum(2 + flag + len(part.data) for part in x[1])
    if kind in ("no_cue", "place"):
        return 1 + 1 + len(x[0])
    if kind == "start":
        return 1 + 4 + 1 + len(x[1]) + 8
    return {"device": 4, "no_device": 2, "go": 5, "cancel": 6}.get(kind, 6)


# ---- a datagram, a tick, a power loss

def copy(s):
    other = State()
    other.devices, other.cues = dict(s.devices), dict(s.cues)
    other.live = {q: dict(a, answers=dict(a["answers"])) for q, a in s.live.items()}
    other.place, other.last, other.ended = s.place, s.last, s.ended
    return other


def refused_whole(s, sender, code):
    return s, [(sender, reply(b"", 0, 0, 1, code))], []


def hear(old, now, sender, data):
    """The state after a datagram, and what is sent."""
    s, sends, _ = heard(old, now, sender, data)
    return s, sends


def heard(old, now, sender, data):
    """The same, and the batch of its events."""
    read = read_datagram(data)
    if isinstance(read, int):
        return refused_whole(old, sender, read)
    messages, tags = read
    if any(is_later(tag, now) for tag in tags):
        return refused_whole(old, sender, 32)
    s, sends, commands, batch, matched = copy(old), [], 0, [], {}
    for address, args in messages:
        made = known = refused = code = 0
        shown = []
        pattern = read_pattern(address) if args is not None else None
        if pattern is not None and address not in matched:
            matched[address] = [m for a, m in methods(s) if matches(pattern, a)]
        found = matched[address] if pattern is not None else []
        if args is None or pattern is None or not found:
            refused, code = 1, 1 if args is None else 2 if pattern is None else 3
        commands += len(found)
        if commands > MAX_COMMANDS:
            return refused_whole(old, sender, 33)
        for method in found:
            command = read_command(method, args)
            verdict = command if isinstance(command, int) else judge(s, now, sender, command)
            if isinstance(verdict, int):
                refused, code = refused + 1, code or verdict
            elif verdict == "known":
                known += 1
                if command[0] == "status":
                    shown.append((sender, status(s)))
            else:
                made += 1
                batch += verdict
                for event in verdict:
                    s.apply(event)
                if verdict[0][0] in ("device", "no_device", "cue", "no_cue"):
                    matched = {}  # there are other methods now
        sends += [(sender, reply(address, made, known, refused, code))] + shown
    if 2 + sum(map(event_length, batch)) > MAX_PAYLOAD:
        return refused_whole(old, sender, 33)
    if not messages:
        sends.append((sender, reply(b"", 0, 0, 0, 0)))
    before = old.pending()
    return s, sends + [p for p in s.pending() if p not in before], batch


def cancels(numbers, reason):
    return [("cancel", q, reason) for q in numbers]


def give_up(old, numbers, reason):
    """The state after a cancel of each of these attempts, and what is sent."""
    s = copy(old)
    for event in cancels(numbers, reason):
        s.apply(event)
    return s, s.pending()


# ---- scripts

LINE = re.compile(rb"d ([0-9]+) ([0-9]+) ((?:[0-9a-fA-F]{2})*)|t ([0-9]+)|x")


def play(text):
    """The lines that are printed, and the status."""
    if len(text) > MAX_SCRIPT:
        return ["! BadInput"], 1
    s, out = State(), []
    lines = text.split(b"\n")
    for line in lines[:-1] if lines[-1] == b"" else lines:
        m = LINE.fullmatch(line)
        now = int(m.group(1) or m.group(4) or 0) if m else 0
        if not m or now > U64 or int(m.group(2) or 0) > 65535:
            return out + ["! BadLine"], 1
        if line[:1] == b"d":
            s, sends = hear(s, now, int(m.group(2)), bytes.fromhex(m.group(3).decode()))
        elif line[:1] == b"t":
            s, sends = give_up(s, s.due(now), 2)
        else:
            s, sends = give_up(s, s.undecided(), 4)
        out += [f"> {port} {data.hex()}" for port, data in sends]
    return out, 0


def main():
    lines, ended = play(sys.stdin.buffer.read())
    sys.stdout.write("".join(line + "\n" for line in lines))
    sys.exit(ended)


if __name__ == "__main__":
    main()
