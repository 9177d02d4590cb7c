"""Lines of a page, typed as they are printed into windows of a shell. Only the ports are others, so that two tests may
run at once."""
import os
import re
import shlex
import shutil
import signal
import socket
import subprocess
import time
from pathlib import Path

import serving
from checking import check

ROOT = serving.ROOT


def free_tcp_port():
    with socket.socket() as wire:
        wire.bind(("127.0.0.1", 0))
        return wire.getsockname()[1]


def until(says, word, seconds=10):
    """What is said once this word is in it, or after so many seconds."""
    end = time.monotonic() + seconds
    while word not in (said := says()) and time.monotonic() < end:
        time.sleep(0.1)
    return said


class Pasted:
    """Lines that are pasted whole into a window of their own, and what it shows."""

    def __init__(self, lines, folder, name, **more):
        self.said = folder / name
        self.child = subprocess.Popen(["bash", "-c", "\n".join(lines)], cwd=folder, stdout=self.said.open("w"),
                                      stderr=subprocess.STDOUT, start_new_session=True, **more)

    def says(self, word, seconds=20):
        """Waits until it shows this word; what it shows then."""
        return until(self.said.read_text, word, seconds)

    def close(self):
        """Ends whatever runs in it."""
        os.killpg(self.child.pid, signal.SIGKILL)
        self.child.wait()


class Checkout:
    """A folder with both programs, the tools, and the show file of the examples at ports of this run."""

    def __init__(self, cuectl, cuedesk, folder):
        self.folder, self.port = folder, serving.free_port()
        (folder / "examples").mkdir(parents=True)
        for name, program in (("cuectl", cuectl), ("cuedesk", cuedesk), ("tools", ROOT / "tools")):
            (folder / name).symlink_to(program)
        text = (ROOT / "examples" / "evening.toml").read_text()
        text = re.sub(r"(number = \d+\nport = )\d+", lambda found: found[1] + str(serving.free_port()), text)
        (folder / "examples" / "evening.toml").write_text(re.sub(r"(?m)^port = 9100$", f"port = {self.port}", text))
        self.web = free_tcp_port()
        self.more = {"env": {**os.environ, "CUEDESK_PORT": str(self.port)}}

    def with_ports(self, text):
        return text.replace("9100", str(self.port)).replace("9300", str(self.port)).replace("8080", str(self.web))

    def as_here(self, line):
        """A line with the ports of this run, and the programs of this folder."""
        return re.sub(r"(^|; )(?=cue(?:ctl|desk) )", r"\1./", self.with_ports(line))

    def types(self, *lines):
        """What these lines print, on standard error, too; and the status of the last one."""
        lines = "\n".join(map(self.as_here, lines))
        printed, status, errors = serving.run("bash", "-ec", lines, cwd=self.folder, **self.more)
        return printed + errors, status

    def window(self, name, *lines):
        return Pasted([*map(self.as_here, lines)], self.folder, name, **self.more)


def in_python(line):
    """What a line with oscsend is in Python."""
    _, _, port, address, *rest = line.split()
    values = "".join(f", {value}" for value in rest[1:])
    return f"python3 -c 'from examples.send_cue import send; send({port}, \"{address}\"{values})'"


class Window:
    """Runs the lines of a page one after the other in a folder of its own, where ./cuectl and examples/ are."""

    def __init__(self, cuectl, folder, page, shown):
        self.folder, self.page, self.shown = Path(folder), page, shown
        self.running, self.printed = {}, ""
        self.folder.mkdir()
        (self.folder / "cuectl").symlink_to(cuectl)
        (self.folder / "examples").symlink_to(ROOT / "examples")
        self.instead = {"9100": serving.free_port(), "9001": serving.device_port(8), "9002": serving.device_port(9)}
        self.instead["/tmp/show"] = self.folder / "show"

    def as_here(self, text):
        """With the ports and the folder of this run."""
        for word, other in self.instead.items():
            text = text.replace(word, str(other))
        return text

    def run(self, line):
        """Runs a line of the page. If oscsend is not installed, its lines are sent in Python."""
        self.shown.ran(self.page, line)
        line = in_python(line) if line.startswith("oscsend") and not shutil.which("oscsend") else line
        words = self.as_here(line).removesuffix("&").strip()
        if line.endswith("&") or " serve " in line:
            self.start(words)
            return
        done = subprocess.run(words, shell=True, cwd=self.folder, stdout=subprocess.PIPE, check=True, text=True)
        self.printed = done.stdout
        time.sleep(0.4)  # as long as a person needs for the next line, and more than the device does

    def start(self, words):
        """Leaves a program running, and waits until it is there."""
        out = self.folder / f"out.{len(list(self.folder.glob('out.*')))}"
        out.touch()
        child = subprocess.Popen(f"exec {words} >{out} 2>&1", shell=True, cwd=self.folder)
        self.running[child] = words, out
        if " serve " in words:
            until(out.read_text, "ready", 20)
        time.sleep(0.3)

    def kills_serve(self):
        """`kill -9` of serve, and its start again."""
        child, words = next((child, words) for child, (words, _) in self.running.items() if " serve " in words)
        child.kill()
        child.wait()
        del self.running[child]
        self.start(words)

    def said(self):
        """What the devices that run have printed."""
        return "".join(out.read_text() for words, out in self.running.values() if " serve " not in words)

    def prints(self, wanted, again):
        """Whether this is printed now, or soon."""
        return until(again, wanted, 5) == wanted

    def run_page(self, shown, read_store):
        """Runs blocks of commands, and compares what is printed with the blocks of text among them."""
        last = None
        for block in shown:
            if block[0].split()[0] in ("mkdir", "./cuectl", "python3", "oscsend"):
                for line in block:
                    self.run(line)
                last = block[-1]
                continue
            wanted = self.as_here("\n".join(block) + "\n")
            if block[0].startswith("device") and "attempt" in block[0]:
                check(f"{self.page}: the device prints what the page says", self.prints(wanted, self.said))
            else:
                show = shlex.split(self.as_here(last))
                check(f"{self.page}: `show` prints what the page says",
                      self.prints(wanted, lambda: serving.run(*show, cwd=self.folder)[0]))
                check("examples/read_store.py reads the same", read_store(self.folder / "show") == wanted)

    def close(self):
        for child in self.running:
            child.kill()
            child.wait()
