"""A short evening whose report is looked at: cues that are complete, given up, failed and recovered."""
import subprocess
import sys
import time

import serving
from checking import check
from page_evening import Evening

# Names that a page could take for more than texts; in the picture of docs/pictures plain ones.
IS_PLAIN = "--pictures" in sys.argv
NASTY = "House to half" if IS_PLAIN else "<script>alert(1)</script> & \"'<b>"
TOML_NASTY = NASTY.replace('"', '\\"')

FILE = """port = {port}

[[device]]
number = 1
port = {one}
name = "Winch 1, blue drop"

[[device]]
number = 2
port = {two}
name = "Trap, centre"

[[device]]
number = 3
port = {three}
name = "Wagon, stage right"

[[device]]
number = 4
port = {four}
name = "Lamp"

[[cue]]
number = "1"
name = "{nasty}"
parts = [{{ device = 1, hex = "0a" }}, {{ device = 2, hex = "0a" }}]

[[cue]]
number = "2"
name = "Lamp up, drop in"
parts = [{{ device = 1, hex = "0b" }}, {{ device = 4, hex = "0b", optional = true }}]

[[cue]]
number = "3"
name = "Wagons meet"
parts = [{{ device = 1, hex = "0c" }}, {{ device = 3, hex = "0c" }}]

[[cue]]
number = "4"
name = "Trap opens"
parts = [{{ device = 2, hex = "0d" }}]

[[cue]]
number = "5"
name = "Storm"
parts = [{{ device = 2, hex = "0e" }}]

[[cue]]
number = "6"
name = "Drop flies out"
parts = [{{ device = 1, hex = "0f" }}]

[[cue]]
number = "7"
name = "Trap shuts"
parts = [{{ device = 2, hex = "10" }}]
"""


def show_text():
    ports = dict(zip(("one", "two", "three", "four"), map(serving.device_port, range(4))))
    return FILE.format(port=9100, nasty=TOML_NASTY, **ports)


class Played(Evening):
    """The evening; the log of each `serve` of it goes to one file, as a stage manager keeps it."""

    def __init__(self, desk, cuectl, work):
        self.log = work / "evening.log"
        super().__init__(desk, cuectl, work, show_text())
        self.read_token()
        self.play_parts()

    def start_page(self):
        """The page presses under a name."""
        words = [self.desk, "web", self.folder, self.file, "--http", self.http, "--port", self.port, "--as", "page-1"]
        self.page = subprocess.Popen([*map(str, words)], stdout=subprocess.PIPE)
        self.children["page"] = self.page
        check("the page says where it is", f"http://127.0.0.1:{self.http}/".encode() in self.page.stdout.readline())

    def play_parts(self):
        """Device 1 and 2 play well, 3 fails, and nobody plays 4."""
        blocks = self.file.read_text().split("\n\n")
        for name, numbers, words in (("well", (1, 2), ("--move", "1200")),
                                     ("fails", (3,), ("--fails", "3", "--move", "200"))):
            file = self.file.with_name(f"{name}.toml")
            file.write_text("\n\n".join(block for block in blocks if "[[device]]" in block
                                        and any(f"number = {n}\n" in block for n in numbers)))
            words = [self.desk, "rehearse", file, "--prepare", "1100", "--spread", "0", *words]
            self.children[name] = subprocess.Popen([*map(str, words)], stdout=subprocess.DEVNULL)

    def asks(self, *words, **environment):
        """What a command of the desk prints and its status."""
        return serving.run(self.desk, *words, "--port", self.port, env={**serving.os.environ, **environment})

    def errors(self):
        """The log so far."""
        return self.serve.errors()

    def waits_for_line(self, what, seconds=10.0):
        """Whether the log says this in time."""
        end = time.monotonic() + seconds
        while time.monotonic() < end:
            if what in self.errors():
                return True
            time.sleep(0.02)
        return False

    def presses(self, kind, cue, seconds=20.0):
        """Presses the button of the page until its message is made: a page on a busy machine may find a press too old,
        and sends nothing then."""
        end = time.monotonic() + seconds
        made = f"asked /cue/{cue}/{kind}: made 1"
        while made not in self.errors() and time.monotonic() < end:
            self.press(kind, cue, 3.0)
        return made in self.errors()

    def keeps_log(self):
        """Puts what this `serve` said into the file of the evening."""
        said = self.errors()
        if IS_PLAIN:
            said = said.replace(f"{self.folder} at 127.0.0.1:{self.port}", "show at 127.0.0.1:9100")
        with self.log.open("a") as file:
            file.write(said)

    def is_lost(self):
        """`kill -9`, and a start again some seconds later."""
        self.serve.kill()
        self.keeps_log()
        time.sleep(2.1)
        self.serves(self.folder)
