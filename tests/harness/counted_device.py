"""The device of examples/device.py at an address of its own, which prints a line for each order that it hears, each
motion that it begins, and each answer.

    counted_device.py NUMBER HOST PORT KEPT PREPARE MOTION

It prepares and moves for so many seconds. While there is a file KEPT.deaf no GO comes to it. A line is
`heard go_2pc 5`, `moves 5`, or what the example prints.
"""
import importlib.util
import socket
import sys
from pathlib import Path

HERE = Path(__file__).resolve().parent
PLACES = (HERE / "device.py", HERE.parent.parent / "examples" / "device.py")


def example():
    """The module of the example: beside this file, as a virtual machine has it, or in this tree."""
    spec = importlib.util.spec_from_file_location("device", next(place for place in PLACES if place.exists()))
    module = importlib.util.module_from_spec(spec)
    spec.loader.exec_module(module)
    return module


device = example()


class Counted(device.Device):
    """It says more than the example."""

    deaf = None  # the file

    def answer_to(self, address, attempt, asked, now):
        if address == "/msc/go_2pc" and self.deaf.exists():
            return None
        print(f"heard {address.rpartition('/')[2]} {attempt}", flush=True)
        return super().answer_to(address, attempt, asked, now)

    def enter(self, step, now):
        if step == "moving":
            print(f"moves {self.attempt}", flush=True)
        super().enter(step, now)


def main(number, host, port, kept, prepare, motion):
    with socket.socket(socket.AF_INET, socket.SOCK_DGRAM) as wire:
        wire.bind((host, int(port)))
        Counted.deaf = Path(f"{kept}.deaf")
        device.run(wire, Counted(int(number), True, float(prepare), float(motion), None, device.Kept(kept)))


main(*sys.argv[1:])
