"""The commands that the pages show, in blocks and between backquotes, and which run carries each of them out."""
import fnmatch
import os
import re
from pathlib import Path

ROOT = Path(__file__).resolve().parent.parent.parent
PAGES = ("README.md", "CONTRIBUTING.md", "CHANGELOG.md", "tests/README.md",
         *(f"docs/{name}.md" for name in ("OPERATING", "LOG", "NETWORK", "DEVICES", "PROTOCOL", "FORMAT", "PROOF", "PROMISES")))
PROGRAMS = """apt apt-get c++ cat cc chmod chown cp curl export g++ gcc git install journalctl kill ln mkdir mv
    oscdump oscsend pip python3 rm rt runuser scp sha256sum sleep ss ssh sudo sync systemctl tail tar
    useradd wg wg-quick""".split()
DESK = "new|check|sheet|load|export|board|web|rehearse|relay|report|buttons|standby|go|cancel|goto|release|remove|status"
LINE = re.compile(rf"\(cd |(?:{'|'.join(map(re.escape, PROGRAMS))}) |(?:\./)?(?:cuectl|cuedesk) "
                  r"|(?:\./|tools/|tests/|examples/|\.ci/|/tmp/)\S")
BLOCK = re.compile(r"(?<=\n\n)(?:    .*\n+)+")  # what is shown after an empty line

# What is not carried out by tests/runs/examples: a command as a pattern, and what carries it out, or why nothing does.
ELSEWHERE = (
    ("tests/quick", "it calls this run"),
    ("tests/all*", "it calls this run"),
    ("tests/runs/*", "tests/all calls each"),
    ("tests/tools/gate-minutes", "two hours: it runs the gate"),
    ("tests/tools/*", "tests/all"),
    ("tools/promises --write", "tests/all, with --check"),
    ("./cuectl --unproved *", "tests/quick builds so; tests/runs/launcher"),
    ("(cd crates/cue_device_c && rt lib)", "tests/runs/winch"),
    ("rt *", "an hour or more: they are the gate, or a part of it"),
    (".ci/run", "an hour or more: it is the gate"),
    ("cc * crates/cue_device_c/*", "tests/runs/winch"),
    ("* /tmp/winch*", "tests/runs/try-device, which plays the same winch"),
    ("/tmp/winch *", "tests/runs/try-device"),
    ("python3 tools/try-device *", "tests/runs/try-device"),
    ("tools/try-device", "tests/runs/try-device"),
    ("cuedesk relay*", "tests/runs/relay: it wants an address of a network"),
    ("tools/package", "tests/runs/package"),
    ("tools/package --arch arm64", "tests/runs/arm64"),
    ("sudo apt-get install gcc-aarch64-linux-gnu qemu-user", "needs root"),
    ("tools/page*", "tests/runs/page-sources"),
    ("tools/handbook*", "tests/runs/handbook"),
    ("tools/package --sign KEY", "tests/runs/package"),
    ("sudo dpkg -i *", "tests/runs/package, in a Debian of its own"),
    ("sudo systemctl start cuectl-form@first *", "tests/runs/package, in that Debian"),
    ("systemctl * cuectl*@first*", "tests/runs/package, in that Debian"),
    ("install -o cuectl *", "tests/runs/package, in that Debian"),
    ("sync /var/lib/*", "needs that folder"),
    ("chmod 640 /var/lib/*", "needs that folder"),
    ("chown -R cuectl: show.new", "needs the account"),
    ("systemctl edit", "it asks a person"),
    ("journalctl -u cuectl@first", "tests/runs/package, in that Debian"),
    ("cp /usr/share/doc/cuectl/two-machines/*", "tests/runs/two-machines"),
    ("systemctl * show-*@first*", "tests/runs/two-machines"),
    ("journalctl -u show-here@first", "tests/runs/two-machines"),
    ("cuedesk buttons *", "tests/runs/buttons: it wants a device"),
    ("cuedesk web * --read-only *", "tests/runs/fly-floor"),
    ("cuedesk new *", "tests/runs/sheet"),
    ("cuedesk sheet *", "tests/runs/sheet"),
    ("cuedesk edit *", "tests/runs/edit"),
    ("cuedesk report *", "tests/runs/report: it wants the log of an evening"),
    ("cuedesk mark *", "tests/runs/report"),
    ("cuedesk go --wait*", "tests/runs/buttons"),
    ("cuedesk standby 12 13", "tests/runs/buttons"),
    ("export CUEDESK_*", "tests/runs/buttons and report"),
    ("wg*", "needs root and WireGuard"),
)


def blocks(text):
    """The lines of each block of a text, without the words beside them."""
    found, block = [], []
    for line in [*text.splitlines(), ""]:
        if line.startswith("    "):
            block.append(re.split(r" {3,}", line.strip())[0])
        elif block:
            found, block = [*found, block], []
    return found


def section(page, title):
    """The text of a section of a page."""
    text = (ROOT / page).read_text()
    return text.split(f"\n## {title}\n")[1].split("\n## ")[0]


def plain(command):
    """A command as it is compared: `./cuedesk` and `cuedesk` are one, and a `&` at its end says nothing."""
    return re.sub(r"^\./(?=cuectl (?!--unproved)|cuedesk )", "", " ".join(command.split())).removesuffix("&").strip()


def is_inline(span):
    """Whether words between backquotes are a command, and no file, no address, no word of the board."""
    first, *more = span.split() or [""]
    name = first.rstrip("/").rpartition("/")[2]
    if more:
        return LINE.match(span) or (re.fullmatch(DESK, first) and re.match(r"--\w|\d|cue |device ", more[0]))
    is_program = (ROOT / first).is_file() and os.access(ROOT / first, os.X_OK)
    return is_program and "/" in first and "." not in name and name not in ("cuectl", "cuedesk")


def commands(page):
    """Each command that a page shows."""
    text = (ROOT / page).read_text()
    found = [line for piece in BLOCK.findall(text) for block in blocks(piece) for line in block if LINE.match(line)]
    spans = [" ".join(span.split()) for span in re.findall(r"`([^`]+)`", BLOCK.sub("", text))]
    found += [span if LINE.match(span) or "/" in span.split()[0] else f"cuedesk {span}" for span in spans
              if is_inline(span)]
    return {plain(command) for command in found}


class Shown:
    """What the pages show, and what of it was carried out."""

    def __init__(self):
        self.left = {page: commands(page) for page in PAGES}
        self.count, self.done = sum(map(len, self.left.values())), set()

    def ran(self, page, *lines):
        """These lines of a page were carried out."""
        lines = {plain(line) for line in lines}
        self.done |= lines
        self.left[page] -= lines

    def named(self, command):
        """Whether it is the mere name of a command, and one that begins so was carried out."""
        return any(done.startswith(f"{command} ") for done in self.done)

    def sort_out(self):
        """How many commands were carried out, how many elsewhere, and what is wrong: commands that nobody carries out,
        and lines of the table that no page needs."""
        left = [(page, command) for page, some in self.left.items() for command in sorted(some)
                if not self.named(command)]
        needed = {pattern for _, command in left for pattern, _ in ELSEWHERE if fnmatch.fnmatchcase(command, pattern)}
        wrong = [f"{page}: nobody carries out `{command}`" for page, command in left
                 if not any(fnmatch.fnmatchcase(command, pattern) for pattern, _ in ELSEWHERE)]
        wrong += [f"no page shows `{pattern}`" for pattern, _ in ELSEWHERE if pattern not in needed]
        return self.count - len(left), len(left), wrong
