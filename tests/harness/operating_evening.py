"""The commands of docs/OPERATING.md: its first evening block by block, then every other one; its log; and a copy that
is put back."""
import re
import time
import urllib.request

import model
import serving
from checking import check
from shown import ROOT, blocks, section
from typed import until

PAGE, LOG = "docs/OPERATING.md", "docs/LOG.md"
say = model.message

# What is typed after the first evening, in order, and what it prints. "idle" waits until nothing is stood by, "ready"
# until GO can be given; a line after "+" is none of the page.
MADE = "made"
TYPED = (
    ("cuectl --version", "cuectl 1.1"), ("cuedesk --version", "cuedesk 1.0"), ("ss -ulnp", "127.0.0.1:9100"),
    ("tools/disk-room show", ""), ("cuedesk status", "place 2\nended 1, complete"),
    ("cuedesk goto 1", MADE), ("cuedesk goto 13", MADE), ("cuedesk goto 7", MADE), ("cuedesk goto 12.5", MADE),
    ("cuedesk standby 12", MADE), ("cuedesk cancel 12", MADE), "idle",
    ("cuedesk standby 12", MADE), "ready", ("cuedesk go 12", MADE), "idle",
    ("cuedesk standby 12.5", MADE), ("cuedesk cancel 12.5", MADE), "idle",
    ("cuedesk standby 12.5", MADE), "ready", ("cuedesk go 12.5", MADE), ("cuedesk release 3", "made|it was so"), "idle",
    ("+ cuedesk standby 6", MADE), ("cuedesk release 9", MADE), "idle",
    ("+ cuedesk standby 5", MADE), ("cuedesk release 22", MADE), ("+ cuedesk cancel 5", MADE), "idle",
    ("+ cuedesk standby 3", MADE), ("cuedesk release 4", MADE), "idle",
    ("cuedesk remove cue 12.5", MADE), ("cuedesk remove device 4", "refused, code 10: a cue uses the device"),
    ("cuedesk load evening.toml show", "cues: 1 new, 19 known"), ("cuedesk load --replace", "cues: 0 new, 20 known"),
    ("+ cuedesk load evening.toml show --exact", "cues: 0 new, 20 known"),
    ("cuedesk export show", 'number = "12.5"'), ("cuedesk board show evening.toml", "NEXT   cue"),
    ("+ cuedesk board show evening.toml --once --log evening.log --rows 50", "LOG    "),
    ("+ export CUEDESK_PORT=9300; cuedesk status", "last attempt"))

# While cue 5 waits for a silent device; before the last one serve is ended.
REFUSED = (("cuedesk go 5", "refused, code 13: not every device is ready"),
           ("cuedesk standby 1", "refused, code 11: the cue or a device of it is busy"),
           ("cuedesk go 2", "refused, code 12: nothing is stood by"),
           ("cuedesk go 5", "nobody listens at 127.0.0.1:9100: nothing was carried out"))


class Evening:
    """A store that is served in a folder, its devices rehearsed, and a page whose commands are typed there."""

    def __init__(self, checkout, shown):
        self.at, self.shown, self.windows = checkout, shown, {}

    def types(self, lines):
        self.shown.ran(PAGE, *lines)
        return self.at.types(*lines)

    def opens(self, name, lines):
        self.shown.ran(PAGE, *lines)
        self.windows[name] = self.at.window(name, *lines)
        return self.windows[name]

    def board(self):
        return self.at.types("./cuedesk board show evening.toml --once")[0]

    def waits(self, words):
        check(f"the board says `{words}`", words in until(self.board, words, 15))

    def close(self):
        for window in self.windows.values():
            window.close()


def first_evening(evening):
    """The first section, block by block: what it shows is all that is typed."""
    begin, look, serve, play, load, board, standby, go = blocks(section(PAGE, "The first evening"))
    types, port = evening.types, evening.at.port

    def log():
        """What serve has written; nothing yet if its window has not begun."""
        file = evening.at.folder / "evening.log"
        return file.read_text() if file.exists() else ""

    check(f"{PAGE}: a store is formed", types(begin) == ("formed\n", 0))
    check("the show file has no mistake", types(look) == ("no mistake: 12 devices, 20 cues\n", 0))
    evening.opens("serve", serve)
    evening.opens("play", play).says("play")
    check("serve says that it is ready", until(log, "ready").endswith(f"ready, show at 127.0.0.1:{port}\n"))
    check("and so does the last line of its log", types(["tail -n 1 evening.log"])[0] == log())
    check("the show is loaded whole", types(load) == ("devices: 12 new, 0 known, 0 refused\n"
                                                      "cues: 20 new, 0 known, 0 refused\n", 0))
    check("the cue is stood by", types(standby) == ("made\n", 0))
    check("the board says that GO can be given", "ready, GO can be given" in until(lambda: types(board)[0], "GO can"))
    check("the cue is given", types(go) == ("made\n", 0))
    check("it ends well", " cue 1: complete, " in until(log, " END "))
    check("and the place is the next cue", "NEXT   cue 2" in until(evening.board, "NEXT   cue 2"))


def further_words(evening):
    """Every other command of the page that the desk carries out."""
    for step in TYPED:
        if isinstance(step, str):
            evening.waits("ready, GO can be given" if step == "ready" else "LIVE   nothing is stood by")
            continue
        line, wanted = step
        typed = line.replace("load --replace", "load evening.toml show --replace").removeprefix("+ ")
        printed, _ = evening.at.types(typed)
        evening.shown.ran(PAGE, *([] if line.startswith("+ ") else [line]))
        found = re.search(evening.at.with_ports(wanted), printed)
        check(f"{PAGE}: `{typed}`{'' if found else f' prints {printed!r}'}", found)
    evening.shown.ran(PAGE, "export CUEDESK_PORT=9300")


def page_and_rehearsal(evening):
    """The page in a browser's stead, and a rehearsal that plays badly."""
    evening.opens("web", ["cuedesk web show evening.toml --http 8080"]).says("http")
    with urllib.request.urlopen(f"http://127.0.0.1:{evening.at.web}/", timeout=5) as page:
        check("the page can be opened", page.status == 200 and b"STANDBY" in page.read())
    evening.windows.pop("play").close()
    again = evening.opens("again", ["cuedesk rehearse evening.toml --silent 22,5 --loss 10 --seed 7"])
    check("a rehearsal plays", "play" in again.says("play"))
    check("a cue is stood by", evening.at.types("./cuedesk standby 5") == ("made\n", 0))
    time.sleep(1.5)
    check("and the silent devices do not answer", re.search(r"device 22: waiting", evening.board()))
    refusals(evening)


def refusals(evening):
    """What the table of the first evening says that a command prints, it prints."""
    page = (ROOT / PAGE).read_text()
    for typed, words in REFUSED:
        if words.startswith("nobody"):
            evening.windows.pop("serve").close()
        printed, status = evening.at.types(typed)
        check(f"{PAGE}: `{words}`", evening.at.with_ports(words) in printed and f"`{words}`" in page and status)


def log_of_the_evening(cuectl, work):
    """The log that the page shows is what serve writes, but for times and ports."""
    lines = blocks(section(LOG, "The log of the evening"))[0]
    serve = serving.served(cuectl, work / "log")
    desk, lamp = serving.Ears(serve), serving.free_port()
    winch = serving.Ears(serve, serving.device_port(11))
    asks = [say("/show/device", 3, winch.port), say("/show/device", 4, lamp),
            say("/show/mixed", b"12", 3, 0, model.Blob(b"\x0a"), 4, 1, model.Blob(b""))]
    check("a show for the log is made", all(desk.ask(one) == (1, 0, 0, 0) for one in asks))
    start = len(until(serve.errors, "optional 4\n"))
    desk.ask(say("/cue/12/standby"))
    winch.ask(say("/device/3/standing_by", 1))
    for what in ("/cue/12/go", "/device/4/release", "/cue/12/go"):
        desk.ask(say(what))
    winch.ask(say("/device/3/complete", 1))
    written = until(serve.errors, "s after standby\n")[start:]
    serve.kill()

    def bare(text):
        """Without the times, and with the ports of the page."""
        text = re.sub(r"\S+Z ", "", text).replace(str(winch.port), "9003").replace(str(lamp), "9004")
        return re.sub(r"[\d.]+ s after", "S after", text.replace(str(desk.port), "8000")).splitlines()
    check(f"{PAGE}: the log is as it shows", bare(written) == bare("\n".join(lines[1:])))


def restored(cuectl, work, shown):
    """"Backup, restore, and a new show": the sums, and a copy that is put back."""
    text = section(PAGE, "Backup, restore, and a new show")
    folder = work / "restored"
    for place in ("show", "backup"):
        (folder / place).mkdir(parents=True)
        serving.run(cuectl, "form", folder / place)
    serve = serving.Serve(cuectl, folder / "backup")
    ready, desk = serve.ready(), serving.Ears(serve)
    check("a copy has a device", ready and desk.ask(say("/show/device", 3, 9001)) == (1, 0, 0, 0))
    desk.close()
    serve.kill()
    (folder / "backup" / "evening.toml").write_text("")
    kept = serving.files(folder / "backup")
    make, look = re.findall(r"`(sha256sum [^`]*)`", text)
    for words in (make, look):
        check(f"{PAGE}: {words}", serving.run("bash", "-ec", words, cwd=folder / "backup")[1] == 0)
    (folder / "backup" / "b.area").write_bytes(b"\1")
    check("a copy that changed is noticed", serving.run("bash", "-ec", look, cwd=folder / "backup")[1] != 0)
    serving.put(folder / "backup", *kept)
    lines = blocks(text)[0]
    done = serving.run("bash", "-ec", "\n".join(lines), cwd=folder)
    shown.ran(PAGE, make, look, *lines)
    check("the copy is put back as the page says", (done[1], serving.files(folder / "show")) == (0, kept))
    check("and is the show", "device 3 9001\n" in serving.run(cuectl, "show", folder / "show")[0])


def show_files(evening):
    """The show files that the page and docs/NETWORK.md show have no mistake."""
    for page, title, first in ((PAGE, "The show file", "port = 9100"), ("docs/NETWORK.md", "The relay", "port = 9100")):
        text = section(page, {"The show file": "The desk"}.get(title, title))
        body = text[text.index(f"    {first}"):]
        file = evening.at.folder / "shown.toml"
        file.write_text(re.sub(r"(?m)^    ", "", re.match(r"(?:(?:    .*)?\n)+", body)[0]))
        printed, status = evening.at.types("./cuedesk check shown.toml")
        check(f"{page}: its show file has no mistake", (status, printed.splitlines()[-1][:10]) == (0, "no mistake"))
