#!/usr/bin/env python3
"""Prints what a store holds, read by docs/FORMAT.md alone: read_store.py FOLDER. It writes nothing."""
import sys
from pathlib import Path

WAITING, READY, DONE, LET_GO, FAILED, EXCUSED = range(6)
PREPARING, DECIDED = 1, 2
ANSWERS = {7: READY, 9: DONE, 11: LET_GO, 12: FAILED, 14: EXCUSED}


class Reader:
    def __init__(self, data):
        self.data, self.at = data, 0

    def take(self, count):
        if self.at + count > len(self.data):
            raise ValueError("cut off")
        self.at += count
        return self.data[self.at - count:self.at]

    def number(self, count):
        return int.from_bytes(self.take(count), "big")

    def cue(self):
        return self.take(self.number(1)).decode()

    def parts(self, flagged):
        """For each part its device, whether it is optional, and its bytes."""
        count = self.number(1)
        return [(self.number(1), flagged and self.number(1) == 1, self.take(self.number(1))) for _ in range(count)]


def area(data):
    """The generation, the snapshot and the payloads of an area; none where there is no area."""
    if len(data) < 2 or data[0] != 1:
        return None
    reader = Reader(data)
    reader.take(1)
    generation, snapshot, payloads = reader.number(8), reader.take(reader.number(4)), []
    while reader.take(1) == b"\x01":
        payloads.append(reader.take(reader.number(4)))
    return generation, snapshot, payloads


def state(text):
    reader = Reader(text)
    version = reader.number(1)
    if version not in (1, 2):
        raise ValueError("another version")
    show = {"devices": {}, "cues": {}, "live": {}}
    for _ in range(reader.number(1)):
        device = reader.number(1)
        show["devices"][device] = reader.number(2)
    for _ in range(reader.number(2)):
        cue = reader.cue()
        show["cues"][cue] = reader.parts(flagged=version == 2)
    show["place"], show["last"] = reader.cue(), reader.number(4)
    show["ended"] = (reader.number(4), reader.number(1))
    for _ in range(reader.number(1)):
        number, cue, _deadline, stage = reader.number(4), reader.cue(), reader.number(8), reader.number(1)
        answers = {device: reader.number(1) for device, _, _ in show["cues"][cue]}
        show["live"][number] = {"cue": cue, "stage": stage, "answers": answers}
    return show


def following(show, cue):
    stack = list(show["cues"])
    return (stack + [""])[stack.index(cue) + 1]


def enter(attempt, stage, excused):
    """Each device waits again; one that was excused has this answer."""
    answers = {device: excused if answer == EXCUSED else WAITING for device, answer in attempt["answers"].items()}
    attempt.update(stage=stage, answers=answers)


def happen(show, reader):
    """One event of a batch."""
    kind, live = reader.number(1), show["live"]
    if kind == 1:
        device = reader.number(1)
        show["devices"][device] = reader.number(2)
    elif kind == 2:
        del show["devices"][reader.number(1)]
    elif kind in (3, 13):
        cue = reader.cue()
        show["cues"][cue] = reader.parts(flagged=kind == 13)
    elif kind == 4:
        cue = reader.cue()
        show["place"] = following(show, cue) if show["place"] == cue else show["place"]
        del show["cues"][cue]
    elif kind == 5:
        show["place"] = reader.cue()
    elif kind == 6:
        number, cue, _deadline = reader.number(4), reader.cue(), reader.number(8)
        show["last"] = number
        live[number] = {"cue": cue}
        live[number]["answers"] = {device: WAITING for device, _, _ in show["cues"][cue]}
        live[number]["stage"] = PREPARING
    elif kind == 8:
        attempt = live[reader.number(4)]
        enter(attempt, DECIDED, EXCUSED)
        show["place"] = following(show, attempt["cue"])
    elif kind == 10:
        attempt = live[reader.number(4)]
        enter(attempt, reader.number(1) + 2, LET_GO)
    else:
        number, device = reader.number(4), reader.number(1)
        live[number]["answers"][device] = ANSWERS[kind]
        answers = set(live[number]["answers"].values())
        if live[number]["stage"] != PREPARING and WAITING not in answers:
            cancelled = live[number]["stage"] != DECIDED
            show["ended"] = (number, 2 if cancelled else 1 if answers <= {DONE, EXCUSED} else 3)
            del live[number]


def lines_of(first, second):
    """What `cuectl show` prints for these two files."""
    _, snapshot, payloads = max(a for a in (area(first), area(second)) if a is not None)
    show = state(snapshot)
    for payload in payloads:
        reader = Reader(payload)
        for _ in range(reader.number(2)):
            happen(show, reader)
    lines = [f"last {show['last']}", f"place {show['place'] or '-'}", f"ended {show['ended'][0]} {show['ended'][1]}"]
    lines += [f"device {device} {port}" for device, port in show["devices"].items()]
    lines += [f"cue {cue} {len(parts)}" for cue, parts in show["cues"].items()]
    for number, attempt in sorted(show["live"].items()):
        stage = {PREPARING: "preparing", DECIDED: "decided"}.get(attempt["stage"], "cancelling")
        lines.append(f"attempt {number} {attempt['cue']} {stage}")
    return "\n".join(lines)


def main():
    print(lines_of(*((Path(sys.argv[1]) / name).read_bytes() for name in ("a.area", "b.area"))))


if __name__ == "__main__":
    main()
