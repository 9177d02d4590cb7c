"""What the page is tried with: a served store with the show of a file, its devices rehearsed, and its page."""
import json
import re
import socket
import subprocess
import sys
import tempfile
import threading
import time
from pathlib import Path

import serving
from checking import check
from desk_show import EVENING, at_own_ports

# Names that a page could take for more than texts; in the pictures of docs/pictures plain ones.
IS_PLAIN = "--pictures" in sys.argv
NASTY = "House to half" if IS_PLAIN else "<script>alert(1)</script> & \\\"'<b>"
SHOWN = NASTY.replace("\\", "")


def free_tcp():
    with socket.socket() as wire:
        wire.bind(("127.0.0.1", 0))
        return wire.getsockname()[1]


def presses(view):
    """The text of each lit button of a view; a move to a cue is lit for each cue of the stack, or for none."""
    return [*(lit["press"] for lit in view["lit"]), *(f"goto {cue}" for cue in view["stack"] if view["moves"])]


class Evening:
    """A served store with the show of a file, its devices rehearsed, and its page. `relay` is the file of a relay, and
    `more` are words that `cuedesk web` gets beside the usual ones."""

    more = ()

    def __init__(self, desk, cuectl, folder, text, relay=None):
        self.desk, self.cuectl, self.folder, self.file = desk, cuectl, folder / "show", folder / "evening.toml"
        self.serve = serving.served(cuectl, self.folder)
        self.file.write_text(text)
        check("the show is loaded", serving.run(desk, "load", self.file, "--port", self.serve.port)[1] == 0)
        self.children, self.http, self.relay, self.port = {}, free_tcp(), relay, self.serve.port
        self.start_page()

    def start_page(self):
        words = ["web", self.folder, self.file, "--http", self.http, "--port", self.port]
        words += [*(["--relay", self.relay] if self.relay else []), *self.more]
        self.page = subprocess.Popen([self.desk, *map(str, words)], stdout=subprocess.PIPE)
        self.children["page"] = self.page
        check("the page says where it is", f"http://127.0.0.1:{self.http}/".encode() in self.page.stdout.readline())

    def play(self, *words, move=300):
        """Rehearses the devices."""
        self.stop("devices")
        times = ("--prepare", "150", "--move", str(move), "--spread", "50")
        words = [self.desk, "rehearse", str(self.file), *times, *words]
        self.children["devices"] = subprocess.Popen(words, stdout=subprocess.DEVNULL)

    def play_apart(self, number):
        """Rehearses the devices, this one apart from the others: it fails while they still move."""
        self.stop("devices")
        devices = re.findall(r"\[\[device\]\]\n(?:.+\n)+", self.file.read_text())
        apart = [text for text in devices if f"number = {number}\n" in text]
        for name, texts, words in (("apart", apart, ("--fails", str(number), "--move", "200")),
                                   ("devices", [text for text in devices if text not in apart], ("--move", "2500"))):
            file = self.file.with_name(f"{name}.toml")
            file.write_text("\n".join(texts))
            words = [self.desk, "rehearse", str(file), "--prepare", "150", "--spread", "50", *words]
            self.children[name] = subprocess.Popen(words, stdout=subprocess.DEVNULL)

    def stop(self, name):
        if name in self.children:
            child = self.children.pop(name)
            child.kill()
            child.wait()

    def power_is_lost(self):
        """`kill -9` of the controller, and its start again at the same port."""
        self.serve.kill()
        self.serves(self.folder)

    def serves(self, folder):
        """Starts the controller of this folder at the port of the evening."""
        said = tempfile.NamedTemporaryFile()
        words = [self.cuectl, "serve", str(folder), "--port", str(self.port), "--turns", "1000000000"]
        self.serve.child = subprocess.Popen(words, stdout=subprocess.PIPE, stderr=said)
        self.serve.said = said
        check("the controller is there again", self.serve.ready())

    def end(self):
        for name in list(self.children):
            self.stop(name)
        self.serve.kill()

    # ---- requests by hand

    def send(self, data, seconds=3.0):
        """What is answered to these bytes."""
        with socket.create_connection(("127.0.0.1", self.http), timeout=seconds) as wire:
            wire.sendall(data)
            got = b""
            while piece := wire.recv(65536):
                got += piece
            return got

    def body(self, press="goto 2"):
        """The body of a press of the newest view."""
        return f"{self.view()['number']} {press}".encode()

    def ask(self, body=None, method="POST", target="/command", length=None, **fields):
        """A request as the page itself makes it, but for what is said otherwise; none leaves a field out."""
        home, body = f"127.0.0.1:{self.http}", self.body() if body is None else body
        head = {"Host": home, "Origin": f"http://{home}", "Cuedesk_Token": self.token,
                "Content_Length": len(body) if length is None else length, **fields}
        lines = [f"{name.replace('_', '-')}: {value}" for name, value in head.items() if value is not None]
        return self.send("\r\n".join([f"{method} {target} HTTP/1.1", *lines, "", ""]).encode() + body)

    def board(self):
        answer = self.send(f"GET /board.json HTTP/1.1\r\nHost: 127.0.0.1:{self.http}\r\n\r\n".encode())
        return json.loads(answer.split(b"\r\n\r\n", 1)[1])

    def view(self):
        """What the desk shows now."""
        return self.board()["view"]

    def place(self):
        return self.view()["next"]["cue"]

    def waits_for(self, holds, seconds=5.0):
        """Whether it comes to hold of the view in time."""
        end = time.monotonic() + seconds
        while time.monotonic() < end:
            if holds(self.view()):
                return True
            time.sleep(0.05)
        return False

    def press(self, kind, of, seconds=5.0):
        """Presses the button for this cue or device once it is lit; what became of it, in one word."""
        end = time.monotonic() + seconds
        while time.monotonic() < end:
            view = self.view()
            for press in presses(view):
                if press.split(" ")[0] == kind and str(of) in press.split(" ")[1:]:
                    return self.press_text(view["number"], press, end)
            time.sleep(0.05)
        return None

    def press_text(self, number, press, end):
        answer = self.ask(f"{number} {press}".encode())
        view = json.loads(answer.split(b"\r\n\r\n", 1)[1])["view"]
        while view["said"] and view["said"]["kind"] in ("open", "said") and time.monotonic() < end:
            time.sleep(0.02)
            view = self.view()
        return view["said"] and view["said"]["kind"]

    def tells(self, *words):
        """A command from a terminal."""
        return serving.run(self.desk, *words, "--port", self.serve.port)[1] == 0

    def memory(self):
        """What the page has of the machine's memory, in kB."""
        return int(re.search(r"VmRSS:\s+(\d+)", Path(f"/proc/{self.page.pid}/status").read_text())[1])

    def read_token(self):
        page = self.send(f"GET / HTTP/1.1\r\nHost: localhost:{self.http}\r\n\r\n".encode()).decode()
        self.token = re.search(r'cuedesk-token" content="([0-9a-f]{32})"', page)[1]
        return page


def status(answer):
    return int(answer.split(b" ", 2)[1]) if answer else None


def is_checked(program):
    """Whether this is a build with checks in place of proofs: it is slow, and keeps what it frees."""
    return b"__asan_" in Path(program).read_bytes()


def is_answered(evening, within=1.2):
    """Whether the next request is answered in time."""
    begun = time.monotonic()
    evening.board()
    return time.monotonic() - begun < within


# How some cues of the evening are marked.
MARKS = {"1": ("yellow", None), "5": ("blue", "fly"), "6": ("red", "danger"), "7": (None, "trap")}


# Which cues stand by together with cue 10.
TOGETHER = "8.5", "12.5"


def marked(text):
    """A show file whose cues have these colours and flags, and of which some stand by together."""
    text = re.sub(r'^(?:color|flag) = ".*"\n', "", text, flags=re.M)
    for cue, (color, flag) in MARKS.items():
        lines = [f'{key} = "{word}"\n' for key, word in (("color", color), ("flag", flag)) if word]
        text = text.replace(f'[[cue]]\nnumber = "{cue}"\n', f'[[cue]]\nnumber = "{cue}"\n{"".join(lines)}')
    return text.replace('[[cue]]\nnumber = "10"\n', f'[[cue]]\nnumber = "10"\nwith = {list(TOGETHER)}\n')


def evening_text():
    """The evening of the examples at ports of this run, with names that a page could take for more than texts."""
    text = marked(at_own_ports(EVENING.read_text()))
    return text.replace("House to half", NASTY).replace("Winch 4, forest drop", f"Winch {NASTY}")


def full_text():
    """As many devices and cues as a show can have, each cue with 16 parts; seven cues in a row have all devices."""
    devices = [f'[[device]]\nnumber = {n}\nport = {20000 + n}\nname = "Winch {n}"\n' for n in range(112)]
    cues = []
    for n in range(1, 1025):
        first = n % 7 * 16
        parts = ", ".join(f'{{ device = {k}, text = "{"x" * 32}" }}' for k in range(first, first + 16))
        cues.append(f'[[cue]]\nnumber = "{n}"\nname = "Cue {n}"\nnote = "Note {n}"\nparts = [{parts}]\n')
    return "\n".join(devices + cues)


def order_words(number, silent, told):
    """What a device was ordered and has not answered, and what is known of its motions."""
    for words, devices in told.items():
        if number in devices:
            return f" {words} {devices[number]}"
    return " standby silent" if silent else ""


def claim_lines(now, claims):
    """What a device tells of itself: `why` with attempt and words, `at` with place, goal and unit, `who` with words."""
    lines = [f"why {attempt} {words}" for attempt, words in claims.get("why", [])]
    lines += [f"at {now} {at} {goal} {unit}" for at, goal, unit in claims.get("at", [])]
    return lines + [f"who {words}" for words in claims.get("who", [])]


def write_status(path, devices, now=None, claims=None, **told):
    """What a relay says of these devices: for each the seconds since it was heard, or none, and whether it is silent.
    `going`, `moving` and `over` have devices, each with an attempt: in which it was sent GO, and that order or another
    one is the last; and up to which its motions are over. `claims` has what each device tells of itself."""
    now = time.time_ns() // 10**6 if now is None else now
    lines = [f"relay 4 {now}", "passed 7 lost 0 dropped 2"]
    for number, (ago, silent) in devices.items():
        heard = "never" if ago is None else f"heard {now - 1000 * ago}"
        words = {"go moving": told.get("going", {}), "moving": told.get("moving", {}), "over": told.get("over", {})}
        lines.append(f"device {number} 10.0.7.31:{9000 + number} {heard}{order_words(number, silent, words)}")
        lines += claim_lines(now, (claims or {}).get(number, {}))
    path.with_suffix(".new").write_text("\n".join([*lines, "end", ""]))
    path.with_suffix(".new").rename(path)


class Telling(threading.Thread):
    """A relay that goes on writing what it says of these devices."""

    def __init__(self, path, devices):
        super().__init__(daemon=True)
        self.path, self.devices, self.ends = path, devices, threading.Event()
        self.told = {}
        self.has_stopped = False

    def run(self):
        while not self.ends.wait(0.1):
            if not self.has_stopped:
                write_status(self.path, self.devices, **self.told)

    def __enter__(self):
        self.start()
        return self

    def __exit__(self, *fault):
        self.ends.set()
        self.join()
