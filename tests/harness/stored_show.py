"""What a virtual machine with the package has of a show: its folder, its units, its store by `cuectl show`."""
import argparse
import sys

import serving
import virtual_machine

STORE, FILE = "/var/lib/cuectl/first", "/var/lib/cuectl/first/evening.toml"
UNITS = ("cuectl@first", "cuectl-relay@first", "cuectl-page@first")
READY = r"cuectl: ready, \S+ at"


def show_file(cues, addresses):
    """Two devices or more, by number, beyond the relay; so many cues, each with all of them."""
    devices = "".join(f'[[device]]\nnumber = {n}\nport = {9000 + n}\naddress = "{address}"\nname = "Winch {n}"\n\n'
                      for n, address in addresses.items())
    parts = ", ".join('{ device = %d, hex = "%s" }' % (n, "0a" * 32) for n in addresses)
    return f'port = 9100\nlisten = "10.0.7.1"\n\n{devices}' + "".join(
        f'[[cue]]\nnumber = "{n}"\nparts = [{parts}]\n\n' for n in range(1, cues + 1))


class Stored:
    """The state that it prints."""

    def __init__(self, text):
        self.text, lines = text, [line.split() for line in text.splitlines()]
        self.last, self.place = int(lines[0][1]), lines[1][1]
        self.ended = tuple(map(int, lines[2][1:]))
        self.devices = [line[1] for line in lines if line[0] == "device"]
        self.cues = [line[1] for line in lines if line[0] == "cue"]
        self.live = [tuple(line[1:]) for line in lines if line[0] == "attempt"]


def store_of(machine):
    """The store of the machine now."""
    return Stored(machine.does(f"cuectl show {STORE}"))


def comes_to(machine, holds, seconds=15.0):
    """The store, once it is so; or as it is when the time is over."""
    return machine.waits(lambda: store_of(machine), holds, seconds)


def again(words, end, port=9100):
    """A command of the desk for a shell; again, if a slow machine did not reply in the time that it waits. If it was
    refused, the shell does `end`."""
    silent = f"*replied* | *acknowledged*) ;; *) echo $said; {end}"
    return f"until said=$(cuedesk {words} --port {port} 2>&1); do case $said in {silent} ;; esac; done"


def desk(machine, words, seconds=60.0, port=9100):
    """The same in a machine; it has to be good."""
    machine.does(again(words, "exit 1", port), seconds)


def newest_package():
    """The newest that `tools/package` left in out/; none if there is none."""
    return max(serving.ROOT.glob("out/cuectl_*_amd64.deb"), key=lambda path: path.stat().st_mtime, default=None)


def prepared(usage):
    """The image, how machines run, and the package, by the words of the command line. Ends a run, aloud, that cannot
    have them."""
    words = argparse.ArgumentParser(usage=usage)
    words.add_argument("--accel", choices=("kvm", "tcg"))
    words.add_argument("--cache")
    words.add_argument("package", nargs="?", default=newest_package())
    words = words.parse_args()
    lacks = virtual_machine.missing() + ([] if words.package else ["a package (tools/package)"])
    if lacks:
        print(f"--   missing: {', '.join(lacks)}")
        print("left out: no machine was booted")
        sys.exit()
    image = virtual_machine.Image(virtual_machine.cache_folder(words.cache))
    acceleration = virtual_machine.accelerator(image, words.accel)
    print(f"     the machines run by {acceleration}", flush=True)
    return image, acceleration, words.package
