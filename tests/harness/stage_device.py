"""The device of examples/device.py at an address of its own, over a network that loses datagrams.

    stage_device.py NUMBER HOST PORT LOSS SEED [MOTION [relay]]

It loses LOSS of those that come and of those that it sends, drawn by the seed, and prints a line for each step. It
moves for MOTION seconds, 0.3 by default. With `relay` it tells its sender what it may of itself.
"""
import importlib.util
import random
import socket
import sys
from pathlib import Path

SOURCE = Path(__file__).resolve().parent.parent.parent / "examples" / "device.py"


def example():
    """The module of the example, which has no name that can be imported."""
    spec = importlib.util.spec_from_file_location("device", SOURCE)
    module = importlib.util.module_from_spec(spec)
    spec.loader.exec_module(module)
    return module


class Lossy:
    """A socket that loses datagrams each way."""

    def __init__(self, wire, loss, seed):
        self.wire, self.loss, self.chance = wire, loss, random.Random(seed)

    def settimeout(self, seconds):
        self.wire.settimeout(0.1 if seconds is None else seconds)

    def recvfrom(self, size):
        data, sender = self.wire.recvfrom(size)
        if self.chance.random() < self.loss:
            raise socket.timeout
        return data, sender

    def sendto(self, data, address):
        if self.chance.random() >= self.loss:
            self.wire.sendto(data, address)


def main(number, host, port, loss, seed, motion=0.3, relay=""):
    module = example()
    with socket.socket(socket.AF_INET, socket.SOCK_DGRAM) as wire:
        wire.bind((host, int(port)))
        device = module.Device(int(number), prepare=0.1, motion=float(motion))
        module.run(Lossy(wire, float(loss), int(seed)), device, relay == "relay")


main(*sys.argv[1:])
