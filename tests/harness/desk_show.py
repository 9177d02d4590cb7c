"""A show that is served, with the desk beside it: what the runs of `cuedesk` share."""
import re
import time
from pathlib import Path

import serving

EVENING = serving.ROOT / "examples" / "evening.toml"


def at_own_ports(text):
    """A show file with each device at a port of this run, in order."""
    free = iter(range(serving.device_port(0), serving.device_port(0) + 100))
    return re.sub(r"(number = \d+\nport = )\d+", lambda found: f"{found[1]}{next(free)}", text)


class DeskShow:
    """A new store that is served, and a show file for it. `around` are the words in front of both programs."""

    def __init__(self, desk, cuectl, folder, file, *around):
        self.desk, self.cuectl, self.around = desk, cuectl, around
        self.folder, self.file = Path(folder), Path(file)
        self.serve = serving.served(cuectl, self.folder, *around)

    def ask(self, *words):
        """What a command of the desk prints and its status, asked of this controller."""
        return serving.run(*self.around, self.desk, *words, "--port", self.serve.port)

    def board(self):
        """The board, printed once."""
        return self.ask("board", self.folder, self.file, "--once")

    def waits(self, holds, seconds=10.0):
        """Whether the board comes to be so in time."""
        end = time.monotonic() + seconds
        while time.monotonic() < end:
            if holds(self.board()[0]):
                return True
            time.sleep(0.05)
        return False

    def waits_for(self, what, seconds=10.0):
        """Whether the board says this in time."""
        return self.waits(lambda board: what in board, seconds)

    def waits_for_end(self, cue, how, seconds=10.0):
        """Whether the board says in time that the last cue ended so."""
        line = re.compile(f"^LAST   cue {re.escape(cue)}( [^:]*)?: {how}", re.M)
        return self.waits(line.search, seconds)
