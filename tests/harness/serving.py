"""What the tests beside the gate share: the program, stores, `cuectl serve` as a child, sockets that speak to it."""
import atexit
import os
import re
import shutil
import signal
import socket
import struct
import subprocess
import sys
import tempfile
import time
from pathlib import Path

HERE = Path(__file__).resolve().parent
ROOT = HERE.parent.parent


def program(given=None, name="cuectl"):
    """The path of a program: the given one, or the proved one, which its launcher builds where it is missing."""
    if given:
        return str(Path(given).resolve())
    subprocess.run([ROOT / name, "--version"], stdout=subprocess.DEVNULL, check=True)
    return str(ROOT / "crates" / name / "out" / name)


def needs(*tools):
    """Ends with a word where a tool is missing."""
    for tool in tools:
        if not shutil.which(tool):
            sys.exit(f"{tool} is not installed")


def room(in_memory=True):
    """A temporary folder; in memory where there is such a place, so that a sync costs nothing."""
    place = "/dev/shm" if in_memory and os.access("/dev/shm", os.W_OK) else None
    return tempfile.TemporaryDirectory(dir=place)


def files(folder):
    """The bytes of both files of a store."""
    return tuple(p.read_bytes() if (p := Path(folder) / name).exists() else b"" for name in ("a.area", "b.area"))


def put(folder, first, second):
    """Makes a store of these bytes."""
    Path(folder).mkdir(exist_ok=True)
    for name, data in (("a.area", first), ("b.area", second)):
        (Path(folder) / name).write_bytes(data)


def run(*words, **more):
    """What a command prints, and its status."""
    done = subprocess.run([str(word) for word in words], capture_output=True, check=False, **more)
    return done.stdout.decode(), done.returncode, done.stderr.decode(errors="replace")


def library(folder, name):
    """A library for LD_PRELOAD, made of a file of this folder."""
    made = Path(folder) / f"{name}.so"
    source = HERE / f"{name}.c"
    subprocess.run(["cc", "-shared", "-fPIC", "-O2", "-o", str(made), str(source)], check=True)
    return str(made)


def free_port():
    with socket.socket(socket.AF_INET, socket.SOCK_DGRAM) as wire:
        wire.bind(("127.0.0.1", 0))
        return wire.getsockname()[1]


def device_port(k):
    """The k-th port for a device, k below 20; another one in each process, so that two tests may run at once."""
    return 20000 + os.getpid() % 600 * 20 + k


class Serve:
    """`cuectl serve` of a folder, as a child."""

    def __init__(self, cuectl, folder, *around, turns=10**9, env=None):
        self.port, self.folder = free_port(), Path(folder)
        self.said = tempfile.NamedTemporaryFile()
        words = [cuectl, "serve", str(folder), "--port", str(self.port), "--turns", str(turns)]
        self.child = subprocess.Popen([*around, *words], stdout=subprocess.PIPE, stderr=self.said,
                                      env={**os.environ, **(env or {})})
        atexit.register(self.kill)

    def errors(self):
        return Path(self.said.name).read_text(errors="replace")

    def ready(self, seconds=60.0):
        """Waits until it listens; whether it does."""
        end = time.monotonic() + seconds
        while self.child.poll() is None and time.monotonic() < end:
            if "ready" in self.errors():
                return True
            time.sleep(0.002)
        return False

    def end(self, seconds=20.0):
        """What it printed and its status, once it has ended by itself."""
        out, _ = self.child.communicate(timeout=seconds)
        return out.decode(), self.child.returncode

    def pid(self):
        """The program's own, also where a tracer is around it."""
        return [self.child.pid, *children(self.child.pid)][-1]

    def hold(self):
        """Stops it until `go_on`: what comes meanwhile waits together."""
        os.kill(self.pid(), signal.SIGSTOP)
        while not re.search(r"^State:\t[Tt]", Path(f"/proc/{self.pid()}/status").read_text(), re.M):
            time.sleep(0.001)

    def go_on(self):
        os.kill(self.pid(), signal.SIGCONT)

    def kill(self):
        """Ends it, and where a tracer is around it that too."""
        atexit.unregister(self.kill)
        if self.child.poll() is None:
            for pid in [*children(self.child.pid), self.child.pid]:
                os.kill(pid, 9)
            self.child.communicate()


def served(cuectl, folder, *around, **more):
    """`cuectl serve` of a new store in this folder, once it is ready."""
    Path(folder).mkdir(parents=True, exist_ok=True)
    subprocess.run([cuectl, "form", str(folder)], stdout=subprocess.DEVNULL, check=True)
    serve = Serve(cuectl, folder, *around, **more)
    if not serve.ready():
        sys.exit(f"serve does not start: {serve.errors()}")
    return serve


def children(pid):
    try:
        return [int(p) for p in Path(f"/proc/{pid}/task/{pid}/children").read_text().split()]
    except FileNotFoundError:
        return []


class Ears:
    """A socket on 127.0.0.1 that a desk or a device speaks and listens with."""

    def __init__(self, serve, port=0):
        self.serve = serve
        self.wire = socket.socket(socket.AF_INET, socket.SOCK_DGRAM)
        self.wire.bind(("127.0.0.1", port))
        self.port = self.wire.getsockname()[1]

    def say(self, data):
        try:
            self.wire.sendto(data, ("127.0.0.1", self.serve.port))
        except ConnectionRefusedError:
            pass

    def hear(self, address, seconds=5.0):
        """The next datagram with this address; none where it does not come in time, or nobody serves any more."""
        end = time.monotonic() + seconds
        while (left := end - time.monotonic()) > 0:
            self.wire.settimeout(min(left, 0.05))
            try:
                data, _ = self.wire.recvfrom(4096)
            except ConnectionRefusedError:
                continue
            except socket.timeout:
                if self.serve.child.poll() is not None:
                    return None
                continue
            if data[:data.index(b"\0")].decode() == address:
                return data
        return None

    def ask(self, data, seconds=5.0):
        """Made, known, refused and the first code; none where no reply comes."""
        self.say(data)
        answer = self.hear("/reply", seconds)
        return struct.unpack(">iiii", answer[-16:]) if answer else None

    def close(self):
        self.wire.close()
