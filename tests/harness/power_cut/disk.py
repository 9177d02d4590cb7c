"""A disk that an NBD server is: it notes each write and each flush, and can show what a power cut would have left.

The disk is a file that is not changed, and the blocks that differ from it. While it records, each write and each flush
is an entry of its log. What was answered is marked by `ends`: requests that came together are answered together, and
each of `ends` is the length of the log when such answers had left. So a flush makes safe what had been answered before
the requests came among which it was, and nothing else.
"""
import functools
import mmap
import socket
import struct
import threading
from bisect import bisect_right
from pathlib import Path

BLOCK = 4096
READ, WRITE, LEAVE, FLUSH, TRIM = range(5)
FUA = 1
HAS_FLAGS, CAN_FLUSH, CAN_FUA, CAN_TRIM = 1, 4, 8, 32
FIXED_NEWSTYLE, NO_ZEROES = 1, 2
OPTION_EXPORT, OPTION_ABORT, OPTION_INFO, OPTION_GO = 1, 2, 6, 7
ACK, INFO, UNSUPPORTED = 1, 3, 2**31 + 1
IS_OPTION, OPTION_REPLY, REQUEST, REPLY = 0x49484156454F5054, 0x3E889045565A9, 0x25609513, 0x67446698


class Write:
    """An entry: bytes at an offset, safe at once if it was asked for so. Its number is its place in the log."""

    def __init__(self, number, at, data, is_safe):
        self.number, self.at, self.data, self.is_safe = number, at, data, is_safe

    def end(self):
        return self.at + len(self.data)

    def part(self, first, last):
        return Write(self.number, first, self.data[first - self.at:last - self.at], self.is_safe)


def patch(blocks, base, at, data):
    """Writes these bytes into the blocks that differ from the base."""
    while data:
        number, inside = divmod(at, BLOCK)
        count = min(BLOCK - inside, len(data))
        old = blocks.get(number)
        if old is None:
            old = base[number * BLOCK:(number + 1) * BLOCK]
        blocks[number] = data[:count] if count == BLOCK else old[:inside] + data[:count] + old[inside + count:]
        at, data = at + count, data[count:]


class Disk:
    """The disk, and its server at a socket in the folder `work`."""

    def __init__(self, base, work):
        with open(base, "rb") as file:
            self.base = mmap.mmap(file.fileno(), 0, access=mmap.ACCESS_READ)
        self.blocks, self.log, self.ends, self.records = {}, [], [0], True
        self.socket = Path(work) / "disk.socket"
        self.socket.unlink(missing_ok=True)
        self.listener = socket.socket(socket.AF_UNIX)
        self.listener.bind(str(self.socket))
        self.listener.listen()
        threading.Thread(target=self.accept, daemon=True).start()

    @functools.cached_property
    def filled(self):
        """The blocks of the base that are not all zeros."""
        all_of_them = {at // BLOCK: self.base[at:at + BLOCK] for at in range(0, len(self.base), BLOCK)}
        return {number: data for number, data in all_of_them.items() if data.strip(b"\0")}

    def write_image(self, path, blocks):
        """Makes the file the disk on which these blocks differ from the base."""
        write_image(path, len(self.base), {**self.filled, **blocks})

    def recording(self):
        """All of it, to be kept in a file."""
        return len(self.base), self.filled, self.log, self.ends, self.blocks

    @classmethod
    def again(cls, recording, work):
        """A disk as it was at the end of a recording."""
        size, filled, log, ends, blocks = recording
        write_image(Path(work) / "base", size, filled)
        disk = cls(Path(work) / "base", work)
        disk.log, disk.ends, disk.blocks = log, ends, blocks
        return disk

    def close(self):
        self.listener.close()

    def show(self, blocks):
        """From now on the disk is this one, and nothing is noted."""
        self.blocks, self.records = blocks, False

    def now(self):
        """How many entries there are."""
        return len(self.log)

    # ---- requests

    def read(self, at, count):
        out, end = [], at + count
        while at < end:
            number, inside = divmod(at, BLOCK)
            some = min(BLOCK - inside, end - at)
            block = self.blocks.get(number)
            out.append(self.base[at:at + some] if block is None else block[inside:inside + some])
            at += some
        return b"".join(out)

    def write(self, at, data, is_safe):
        if self.records:
            self.log.append(Write(len(self.log), at, data, is_safe))
        patch(self.blocks, self.base, at, data)

    def flush(self):
        if self.records:
            self.log.append(None)

    def carry_out(self, flags, kind, handle, at, count, data):
        """The answer to one request."""
        read = b""
        if kind == READ:
            read = self.read(at, count)
        elif kind == WRITE:
            self.write(at, data, bool(flags & FUA))
        elif kind == TRIM:
            self.write(at, bytes(count), bool(flags & FUA))
        elif kind == FLUSH:
            self.flush()
        return struct.pack(">IIQ", REPLY, 0, handle) + read

    # ---- the protocol

    def accept(self):
        while True:
            try:
                wire, _ = self.listener.accept()
            except OSError:
                return
            threading.Thread(target=self.speak, args=(wire,), daemon=True).start()

    def speak(self, wire):
        try:
            if self.greet(wire):
                self.transmit(wire)
        except OSError:
            pass
        wire.close()

    def about(self):
        return struct.pack(">QH", len(self.base), HAS_FLAGS | CAN_FLUSH | CAN_FUA | CAN_TRIM)

    def greet(self, wire):
        """Agrees on the export; whether there is one."""
        wire.sendall(b"NBDMAGIC" + struct.pack(">QH", IS_OPTION, FIXED_NEWSTYLE | NO_ZEROES))
        exactly(wire, 4)
        while True:
            _, option, count = struct.unpack(">QII", exactly(wire, 16))
            exactly(wire, count)
            if option == OPTION_EXPORT:
                wire.sendall(self.about())
                return True
            answers = {OPTION_GO: [(INFO, struct.pack(">H", 0) + self.about()), (ACK, b"")],
                       OPTION_INFO: [(INFO, struct.pack(">H", 0) + self.about()), (ACK, b"")],
                       OPTION_ABORT: [(ACK, b"")]}.get(option, [(UNSUPPORTED, b"")])
            for kind, data in answers:
                wire.sendall(struct.pack(">QIII", OPTION_REPLY, option, kind, len(data)) + data)
            if option in (OPTION_GO, OPTION_ABORT):
                return option == OPTION_GO

    def transmit(self, wire):
        """Carries out what came together, and answers it together."""
        held = b""
        while got := wire.recv(1 << 22):
            held, answers, at = held + got, [], 0
            while len(held) - at >= 28:
                _, flags, kind, handle, offset, count = struct.unpack_from(">IHHQQI", held, at)
                data_at = at + 28
                at = data_at + (count if kind == WRITE else 0)
                if at > len(held):
                    at = data_at - 28
                    break
                if kind == LEAVE:
                    return
                answers.append(self.carry_out(flags, kind, handle, offset, count, held[data_at:at]))
            held = held[at:]
            wire.sendall(b"".join(answers))
            if self.records and self.ends[-1] != len(self.log):
                self.ends.append(len(self.log))


def write_image(path, size, blocks):
    """Makes the file a disk with these blocks, and with zeros elsewhere. It stays the same file if it is there."""
    with open(path, "r+b" if Path(path).exists() else "wb") as file:
        file.truncate(0)
        file.truncate(size)
        for number, data in blocks.items():
            file.seek(number * BLOCK)
            file.write(data)


def exactly(wire, count):
    data = b""
    while len(data) < count:
        got = wire.recv(count - len(data))
        if not got:
            raise OSError("the other side has ended")
        data += got
    return data


# ---- what a power cut leaves

class Past:
    """The disk at a moment of its log: what is safe, and what was written since, in order. A moment is a number of
    entries; it goes forward alone. If the disk lies, no flush makes anything safe from `begin` on."""

    def __init__(self, disk, begin=None, lies=False):
        self.disk, self.safe, self.open, self.at, self.settled, self.version = disk, {}, [], 0, 0, 0
        self.lies = False
        if lies:
            self.to(begin).keep(begin)
            self.lies = True

    def to(self, moment):
        self.open += [entry for entry in self.disk.log[self.at:moment] if entry is not None]
        self.at, answered = moment, self.answered(moment)
        for number in range(self.settled, answered):
            if not self.lies:
                self.settle(number, self.disk.log[number])
        self.settled = max(self.settled, answered)
        return self

    def answered(self, moment):
        """How many entries had been answered when there were so many."""
        return self.disk.ends[bisect_right(self.disk.ends, moment) - 1]

    def settle(self, number, entry):
        """What an entry that was answered has made safe."""
        if entry is None:
            self.keep(self.answered(number))
        elif entry.is_safe:
            self.open = [part for write in self.open for part in beside(write, entry)]
            patch(self.safe, self.disk.base, entry.at, entry.data)
            self.version += 1

    def keep(self, before):
        """All entries before this one are safe."""
        for write in self.open:
            if write.number < before:
                patch(self.safe, self.disk.base, write.at, write.data)
                self.version += 1
        self.open = [write for write in self.open if write.number >= before]

    def left(self, parts):
        """The blocks of the disk on which these parts of open writes came, too."""
        blocks = dict(self.safe)
        for part in sorted(parts, key=lambda part: (part.number, part.at)):
            patch(blocks, self.disk.base, part.at, part.data)
        return blocks


def beside(write, safe):
    """What of an open write may still be lost or come once this one is safe: all of a later one, what is not under it
    of an earlier one."""
    first, last = max(write.at, safe.at), min(write.end(), safe.end())
    if write.number > safe.number or first >= last:
        return [write]
    return [part for part in (write.part(write.at, first), write.part(last, write.end())) if part.data]


def parts(write, sector):
    """A write cut at the borders of sectors."""
    borders = [write.at, *range((write.at // sector + 1) * sector, write.end(), sector), write.end()]
    return [write.part(first, last) for first, last in zip(borders, borders[1:])]
