"""A relay as a child, and a show file for it."""
import subprocess
import sys
import time
from pathlib import Path

import serving


def show_file(listen, port, devices):
    """A show file of these devices: number, local port and address."""
    text = f'port = {port}\n' + (f'listen = "{listen}"\n' if listen else "")
    for number, local, address in devices:
        text += f"\n[[device]]\nnumber = {number}\nport = {local}\n" + (f'address = "{address}"\n' if address else "")
    return text


class Relay:
    """A relay as a child: `cuedesk relay`, or the one in C."""

    def __init__(self, words, said):
        self.said = Path(said)
        self.child = subprocess.Popen(words, stdout=self.said.open("w"), stderr=subprocess.STDOUT)
        serving.atexit.register(self.child.kill)
        for _ in range(1000):
            if "relaying" in self.text():
                return
            if self.child.poll() is not None:
                break
            time.sleep(0.01)
        sys.exit(f"the relay does not start: {self.text()}")

    def text(self):
        return self.said.read_text()

    def memory(self):
        return int(Path(f"/proc/{self.child.pid}/status").read_text().split("VmRSS:")[1].split()[0])

    def end(self):
        self.child.terminate()
        self.child.wait()
