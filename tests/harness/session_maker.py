"""Random sessions for the controller: most of their lines make sense in the state that they have come to, some do not.

A session goes along with tests/oracles/model.py, so it knows what is live, and it counts what it meets.
"""
import random
from collections import Counter

import model

CUES = ["1", "2", "1.1", "1.2", "21", "01", "10.4.7", "1234567890123456"]
LONG_CUES = [f"{n}.34567890123456" for n in range(1, 9)]  # of 16 bytes: the batch text of many of them is too long
COUNTS = [254, 255, 256, 257, 606, 607, 910, 911, 1023, 1024]  # of cues in a large show
DEVICES = [0, 1, 2, 3, 4, 7, 11, 110, 111]
PATTERNS = ["/cue/*/{verb}", "/cue/{cue}/*", "/*/*/{verb}", "/cue/[0-9]/{verb}", "/cue/1*/{verb}",
            "/cue/?/{{go,cancel}}",
            "/device/*/{dverb}", "/device/{device}/*", "/device/[!0-2]/{dverb}", "/{{cue,device}}/*/{{remove,go}}",
            "/*", "/show/*",
            "/show/c?e", "/status", "//status", "/status/", "/cue/[/go", "/cue/{{a*}}/go", "/cue/[]/go",
            "/cue/0{cue}/go",
            "/device/0{device}/release", "/**/*/*", "/cue/{cue}/{{stand,go}}*", "/c*e/{cue}/s*y", "/show/{{cue,mixed}}",
            "/show/[!d]*"]
VERBS = model.CUE_VERBS
REPLIES = ["standing_by", "complete", "cancelled", "abort"]
ANSWERS = {"preparing": "standing_by", "decided": "complete", "cancelling": "cancelled"}
BAD_LINES = ["", "y", "d 1 2", "t", "t -1", "x ", "d 1 65536 ", "t 18446744073709551616", "d 1 2 abc", "T 1"]
BAD_CUES = [b"", b".", b"1..2", b"x", b"1" * 17]
BAD_FLAGS = [2, -1, 255, 256, 2**31 - 1, -2**31]


def bundle(elements, tag=1):
    return b"#bundle\0" + (tag % 2**64).to_bytes(8, "big") + b"".join(len(e).to_bytes(4, "big") + e for e in elements)


def goto(cue="*"):
    return model.padded(f"/cue/{cue}/goto\0".encode())


def show_cue(cue, parts):
    args = [a for p in parts for a in (p.device, model.Blob(p.data))]
    return model.message("/show/cue", cue, *args)


def show_mixed(cue, parts):
    """Here the flag of a part may be any number."""
    args = [a for p in parts for a in (p.device, int(p.optional), model.Blob(p.data))]
    return model.message("/show/mixed", cue, *args)


class Session:
    """Its kinds: the usual one, one in which many optional devices are excused, one in which much is asked for at once,
    and one of a large show."""

    def __init__(self, seed, ports=None, kind=None):
        self.r = random.Random(seed)
        self.now = self.choose((3, 0), (3, 1000), (3, 10**12), (1, 2**64 - 30_000))
        self.state = model.State()  # where the script has come to
        self.kind = kind or self.choose((45, "usual"), (40, "excusing"), (10, "much"), (5, "large"))
        self.cues = LONG_CUES if self.kind == "much" else CUES
        self.ports = ports or {d: 9000 + d for d in DEVICES}
        self.met = Counter()

    def choose(self, *pairs):
        return self.r.choices([p[1] for p in pairs], [p[0] for p in pairs])[0]

    # ---- what is sent

    def live_cue(self):
        live = [a["cue"] for a in self.state.live.values()]
        return self.r.choice(live) if live and self.r.random() < 0.5 else self.r.choice(self.cues)

    def fitting_standby(self):
        """Of a cue that is there, in an excusing session most often of one with optional parts; none without a cue."""
        cues = list(self.state.cues)
        if self.kind == "excusing" and self.r.random() < 0.8:
            cues = [cue for cue in cues if any(part.optional for part in self.state.cues[cue])] or cues
        return model.message(f"/cue/{self.r.choice(cues)}/standby") if cues else None

    def fitting_answer(self):
        """What a device would answer now, or the operator would say; none where nothing is live."""
        r, live = self.r, sorted(self.state.live)
        if not live or len(live) < 3 and r.random() < 0.2:
            return self.fitting_standby()
        number = r.choice(live)
        attempt = self.state.live[number]
        if attempt["stage"] == "preparing" and set(attempt["answers"].values()) <= {"ready", "excused"}:
            return model.message(f"/cue/{attempt['cue']}/{r.choice(['go', 'go', 'go', 'cancel'])}")
        waiting = [d for d, answer in attempt["answers"].items() if answer == "waiting"]
        device = r.choice(waiting if r.random() < 0.7 else list(attempt["answers"]))
        optional = self.state.part(number, device).optional
        if optional and r.random() < (0.6 if self.kind == "excusing" else 0.3):
            if r.random() < 0.5:
                return model.message(f"/device/{device}/release")
            return model.message(f"/device/{device}/abort", number)
        if r.random() < 0.05:
            return model.message(f"/cue/{attempt['cue']}/{r.choice(['go', 'cancel'])}")
        word = ANSWERS[attempt["stage"]] if r.random() < 0.85 else r.choice(REPLIES)
        return model.message(f"/device/{device}/{word}", number)

    def some_parts(self):
        r = self.r
        known = list(self.state.devices) or DEVICES
        devices = r.sample(known if r.random() < 0.9 and len(known) > 4 else DEVICES, r.choice([0, 1, 1, 2, 2, 3, 5]))
        parts = [model.Part(d, False, r.randbytes(r.choice([0, 1, 2, 32, 33]))) for d in devices]
        if r.random() < 0.05:
            parts.append(model.Part(112, False, b""))
        return parts

    def a_cue_number(self):
        return self.r.choice(self.cues).encode() if self.r.random() < 0.95 else self.r.choice(BAD_CUES)

    def mixed_message(self):
        """Some parts required and some optional; now and then all of one kind, a flag that is none, a device twice."""
        r, parts = self.r, self.some_parts()
        shape = self.choose((16, "mixed"), (2, "required"), (2, "optional"), (1, "flag"), (1, "twice"))
        parts = [p._replace(optional=r.random() < 0.5, data=p.data[:32]) for p in parts]
        if shape == "mixed" and len(parts) > 1:
            parts[0], parts[1] = parts[0]._replace(optional=False), parts[1]._replace(optional=True)
            r.shuffle(parts)
        elif shape in ("required", "optional"):
            parts = [p._replace(optional=shape == "optional") for p in parts]
        if parts and (shape == "twice" or r.random() < 0.02):
            parts.insert(r.randrange(len(parts)), r.choice(parts)._replace(optional=r.random() < 0.5))
        if parts and (shape == "flag" or r.random() < 0.02):
            at = r.randrange(len(parts))
            parts[at] = parts[at]._replace(optional=r.choice(BAD_FLAGS))
        return show_mixed(self.a_cue_number(), parts)

    def cue_again(self):
        """A cue that is there, by either method, with its own parts or with one of them changed."""
        r = self.r
        if not self.state.cues:
            return self.mixed_message()
        cue = r.choice(list(self.state.cues))
        parts = list(self.state.cues[cue])
        if r.random() < 0.3:
            at = r.randrange(len(parts))
            parts[at] = parts[at]._replace(optional=not parts[at].optional)
        return r.choice([show_cue, show_mixed])(cue.encode(), parts)

    def any_message(self):
        r, cue, device = self.r, self.live_cue(), self.r.choice(DEVICES)
        mixed, plain = (8, 2) if self.kind == "excusing" else (3, 4)
        kind = self.choose((4, "device"), (plain, "cue"), (mixed, "mixed"), (1, "again"), (6, "standby"), (14, "reply"),
                           (8, "verb"), (2, "goto"), (2, "status"), (2, "release"), (4, "pattern"), (2, "bad"))
        if kind == "device":
            port = self.ports[device] if r.random() < 0.9 else r.choice([0, 1, 65535, 65536, -1])
            return model.message("/show/device", device, port)
        if kind == "cue":
            return show_cue(self.a_cue_number(), self.some_parts())
        if kind == "mixed":
            return self.mixed_message()
        if kind == "again":
            return self.cue_again()
        if kind == "reply":
            number = (self.state.last + r.choice([0, 0, 0, -1, -2, 1]) if r.random() < 0.9
                      else r.choice([0, -1, 2**31 - 1]))
            answer = self.fitting_answer()
            if answer and r.random() < 0.5:
                return answer
            return model.message(f"/device/{device}/{r.choice(REPLIES)}", min(number, 2**31 - 1))
        if kind in ("standby", "goto"):
            return model.message(f"/cue/{cue}/{kind}")
        if kind == "verb":
            verbs = VERBS[1:] if self.kind == "usual" or r.random() < 0.2 else VERBS[1:4]
            return model.message(f"/cue/{cue}/{r.choice(verbs)}")
        if kind == "status":
            return r.choice([b"/status\0", model.message("/status"), model.message("/status", 1)])
        if kind == "release":
            return model.message(f"/device/{device}/{r.choice(['release', 'release', 'remove'])}")
        if kind == "pattern":
            return self.pattern_message(cue, device)
        return r.choice([model.padded(b"/x\0") + b",f\0\0\x3f\x80\0\0", model.message("/cue/1/go", 1),
                         model.message("/show/cue", b"1", 3),
                         model.message("/show/device", 3), model.padded(b"/status\0") + b"abcd",
                         model.message("/" + "a" * 70),
                         model.message("/show/mixed", b"1", 3, model.Blob(b"")),
                         model.message("/show/mixed", b"1", 3, 0),
                         model.message("/show/mixed", b"1"), model.message("/show/mixed")])

    def pattern_message(self, cue, device):
        r = self.r
        address = r.choice(PATTERNS).format(verb=r.choice(VERBS), cue=cue, device=device,
                                            dverb=r.choice(REPLIES + ["release"]))
        if address.startswith("/show") and r.random() < 0.5:
            arguments = r.choice([show_cue(b"1", self.some_parts()), self.mixed_message()])[12:]  # after their address
            return model.padded(address.encode() + b"\0") + arguments
        return model.message(address, *([r.choice([1, 2])] if r.random() < 0.5 else []))

    def many_gotos(self):
        """So many that they are near one of the limits of a datagram: its commands, or its batch text."""
        r, count = self.r, max(len(self.state.cues), 1)
        most = r.choice([model.MAX_COMMANDS // count, model.MAX_PAYLOAD // 18 // count, r.randrange(1, 255)])
        near = most + r.choice([-1, 0, 0, 1])
        elements = [goto()] * max(1, min(near, 255))
        elements += [goto(r.choice(list(self.state.cues) or self.cues)) for _ in range(r.choice([0, 0, 1, 2, 10]))]
        return bundle(elements[:255])

    def datagram(self):
        r = self.r
        if self.kind == "much" and r.random() < 0.2 or self.kind == "large" and r.random() < 0.4:
            return self.many_gotos()
        if r.random() < 0.75:
            data = self.any_message()
        else:
            elements = [self.any_message() for _ in range(r.choice([0, 1, 2, 3, 8]))]
            if r.random() < 0.2:
                elements.append(b"#bundle\0" + (1).to_bytes(8, "big"))
            exactly = ((2208988800 << 32) * 1000 + (self.now << 32)) // 1000
            data = bundle(elements, r.choice([1, 1, 1, 0, 2208988800 << 32, exactly + r.choice([0, 1, 2**32])]))
        if r.random() < 0.04:
            at = r.randrange(len(data) + 1)
            data = r.choice([data[:at], data[:at] + bytes([r.randrange(256)]) + data[at + 1:],
                             data + b"\0" * r.choice([1, 4, 4096])])
        return data

    # ---- the lines

    def has_excused(self):
        return any("excused" in a["answers"].values() for a in self.state.live.values())

    def hear(self, sender, data):
        """Goes along with a datagram, and counts what it met."""
        before = self.state
        self.state, sends, batch = model.heard(before, self.now, sender, data)
        for event in batch:
            self.met[event[0]] += 1
            if event[0] == "cue" and any(part.optional for part in event[2]):
                self.met["mixed cue"] += 1
        for event in batch:
            attempt = before.live.get(event[1]) if event[0] in ("go", "cancel") else None
            if attempt and "excused" in attempt["answers"].values():
                self.met[f"{event[0]} with an excused device"] += 1
        for _, sent in sends:
            if sent.startswith(b"/reply\0"):
                code = int.from_bytes(sent[-4:], "big")
                self.met[f"code {code}"] += 1
                self.met["code 33 by text"] += code == 33 and is_by_text(before, self.now, sender, data)

    def speak(self):
        """A datagram that is likely to make sense, and who sends it; the session goes along."""
        r = self.r
        sender = r.choice(list(self.ports.values()) * 3 + [8000, 8001, 0, 65535])
        answer = self.fitting_answer()
        data = answer if answer and r.random() < 0.5 else self.datagram()
        if data[:8] == b"/device/" and r.random() < 0.9:
            number = data[8:].split(b"/")[0]
            sender = self.ports.get(int(number), sender) if number.isdigit() else sender
        self.hear(sender, data)
        return sender, data

    def said(self, sender, data):
        self.hear(sender, data)
        return f"d {self.now} {sender} {data.hex()}"

    def line(self):
        r = self.r
        self.now = max(0, min(2**64 - 1, self.now + r.choice([0, 0, 1, 100, 250, 3000, 10_000, -50])))
        kind = self.choose((60, "d"), (3, "t"), (4 if self.has_excused() else 1, "x"))
        if kind == "d":
            sender, data = self.speak()
            return f"d {self.now} {sender} {data.hex()}"
        self.met[f"{kind} with an excused device"] += self.has_excused()
        numbers = self.state.undecided() if kind == "x" else self.state.due(self.now)
        self.state, _ = model.give_up(self.state, numbers, 4 if kind == "x" else 2)
        return "x" if kind == "x" else f"t {self.now}"

    def set_up(self):
        """The lines that make the show: a large one, or none yet."""
        if self.kind == "usual":
            return
        devices = [model.message("/show/device", d, self.ports[d]) for d in DEVICES]
        yield self.said(8000, bundle(devices))
        if self.kind == "excusing":
            yield self.said(8000, bundle([self.mixed_message() for _ in range(6)]))
        if self.kind == "much":
            yield self.said(8000, bundle([self.one_cue(cue) for cue in LONG_CUES]))
        if self.kind == "large":
            count, form = self.r.choice(COUNTS), self.r.choice(["{}", "{:016}"])
            self.cues = [form.format(n) for n in range(1, count + 1)]
            for at in range(0, count, 50):
                yield self.said(8000, bundle([self.one_cue(cue) for cue in self.cues[at:at + 50]]))
            self.cues = [*self.r.sample(self.cues, 12), *self.cues[-3:], *CUES]

    def one_cue(self, cue):
        parts = [model.Part(d, False, b"") for d in self.r.sample(DEVICES, self.r.choice([1, 1, 2]))]
        if len(parts) == 1:
            return show_cue(cue.encode(), parts)
        return show_mixed(cue.encode(), [parts[0], parts[1]._replace(optional=True)])

    def script(self):
        lines = list(self.set_up())
        count = self.r.choice([5, 20, 40] if self.kind in ("much", "large") else [5, 40, 120, 400])
        lines += [self.line() for _ in range(count)]
        if self.r.random() < 0.1:
            lines.append(self.r.choice(BAD_LINES))
        return "\n".join(lines) + ("\n" if self.r.random() < 0.9 else "")


def is_by_text(state, now, sender, data):
    """Whether a datagram that is refused with 33 asks for few enough commands."""
    limit, model.MAX_PAYLOAD = model.MAX_PAYLOAD, 10**9
    _, _, batch = model.heard(state, now, sender, data)
    model.MAX_PAYLOAD = limit
    return bool(batch)
