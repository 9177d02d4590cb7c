#!/usr/bin/env python3
"""Adds a cue: send_cue.py PORT CUE PART.. where a part is DEVICE=HEX, or DEVICE=HEX,optional. HEX may be empty."""
import socket
import struct
import sys


def osc(value):
    if isinstance(value, int):
        return struct.pack(">i", value)
    head, data = (b"", value.encode() + b"\0") if isinstance(value, str) else (struct.pack(">i", len(value)), value)
    return head + data + bytes(-len(data) % 4)


def send(port, address, *values):
    """Sends a message to the controller, and prints what it replies."""
    tags = "," + "".join({int: "i", str: "s", bytes: "b"}[type(value)] for value in values)
    with socket.socket(socket.AF_INET, socket.SOCK_DGRAM) as wire:
        wire.settimeout(2)
        wire.sendto(b"".join(map(osc, (address, tags, *values))), ("127.0.0.1", port))
        print("made %d known %d refused %d code %d" % struct.unpack(">iiii", wire.recv(4096)[-16:]))


def values_of(parts):
    """For each part its device, 0 required or 1 optional, and its bytes."""
    for part in parts:
        device, _, rest = part.partition("=")
        data, optional, _ = rest.partition(",optional")
        yield from (int(device), int(optional != ""), bytes.fromhex(data))


if __name__ == "__main__":
    send(int(sys.argv[1]), "/show/mixed", sys.argv[2], *values_of(sys.argv[3:]))
