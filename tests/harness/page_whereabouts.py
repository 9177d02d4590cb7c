"""Which devices stand elsewhere than the stack supposes, on page and board, and the question that STANDBY asks then."""
import os
import subprocess
import time

import model
import serving
from browser import ENTER, ESCAPE, Browser
from checking import check
from desk_show import at_own_ports
from page_evening import Evening, free_tcp
from page_scenes import AGAIN, chooses, ends, goes_to, is_lit, stands_by, twice

SHOW = """[[device]]
number = 3
port = 1
name = "Trap, stage left"

[[device]]
number = 4
port = 2
name = "Winch 4"

[[cue]]
number = "1"
name = "Trap opens"
parts = [ { device = 3, text = "open" } ]

[[cue]]
number = "2"
name = "Forest in"
parts = [ { device = 4, text = "in" } ]

[[cue]]
number = "3"
name = "Trap shuts"
parts = [ { device = 3, text = "shut" } ]

[[cue]]
number = "4"
name = "Storm"
parts = [ { device = 3, hex = "0a02" }, { device = 4, text = "out" } ]
"""
LINE = "STANDS elsewhere: device 3, last cue 3, supposed cue 1  Trap, stage left  \"shut\"\n"
ROW = 'last cue 3 Trap shuts, "shut"; supposed cue 1 Trap opens'
ASKS = "Device 3 Trap, stage left stands elsewhere: stand by anyway"
SMALL = (640, 400), (360, 740)  # as a zoom of 200 % and a phone make them
INSIDE = "return document.documentElement.scrollWidth <= innerWidth"
IN_SIGHT = """return arguments[0].map((id) => document.getElementById(id)).every((one) => {
  const box = one.getBoundingClientRect();
  return box.width > 0 && box.left >= 0 && box.right <= innerWidth && box.top >= 0 && box.bottom <= innerHeight
    && one.scrollHeight <= one.clientHeight + 1 && one.scrollWidth <= one.clientWidth + 1; });"""
ROW_IN_SIGHT = """const row = document.querySelector('#elsewhere li');
  row.scrollIntoView({ block: 'nearest' });
  const box = row.getBoundingClientRect();
  return box.height > 0 && box.left >= 0 && box.right <= innerWidth && row.scrollWidth <= row.clientWidth + 1;"""
COUNTS = """window.spokenNow = 0;
  const counts = new MutationObserver((found) => { window.spokenNow += found.length; });
  for (const id of ['elsewhere-said', 'spoken', 'elsewhere'])
    counts.observe(document.getElementById(id), { childList: true, characterData: true, subtree: true });"""
MOVES = 800  # three areas of 256 records
FOCUS = "return document.activeElement.id"


class Kept(Evening):
    """An evening whose page keeps its alarms, and beside them where devices stand."""

    def __init__(self, desk, cuectl, folder, text):
        folder.mkdir()
        self.alarms = folder / "evening.alarms"
        self.places = folder / "evening.alarms.devices"
        self.more = ("--alarms", self.alarms)
        super().__init__(desk, cuectl, folder, text)

    def printed(self, *more):
        """What a board prints."""
        words = ("board", self.folder, self.file, "--port", self.port, "--once", *more)
        return serving.run(self.desk, *words)[0]

    def last(self):
        """The number of the newest attempt."""
        view = self.view()
        return max([0, *(one["attempt"] for one in [*view["live"], *view["past"], view["last"]] if one)])


def gives(page, cue):
    goes_to(page, cue)
    stands_by(page)
    check(f"GO of cue {cue} lights", is_lit(page, cue))
    page.key(" ")
    check("it ends complete", ends(page, cue, "complete"))


def is_silent(page):
    """Nothing is said of devices that stand elsewhere."""
    return page.waits_for(lambda: not page.find("whereabouts").is_displayed() and page.find("standby").is_displayed(), 3)


def of_a_move(page, evening):
    """After a move back page and board say which device stands elsewhere; where its cue is not next STANDBY asks nothing."""
    evening.play(move=200)
    for cue in ("1", "2", "3"):
        gives(page, cue)
    check("while the place goes on nothing stands elsewhere", is_silent(page) and "STANDS" not in evening.printed())
    goes_to(page, "2")
    check("after a move the page says which device stands elsewhere", page.shows("elsewhere", ROW, 3))
    check("by its number and name", page.text("elsewhere").replace("\n", " ").startswith("3 Trap, stage left last cue 3"))
    check("once, and no other", page.run("return document.querySelectorAll('#elsewhere li').length") == 1)
    check("a screen reader hears of it", page.run("return document.getElementById('elsewhere-said').textContent")
          == "Device 3 Trap, stage left stands elsewhere")
    check("and so does the board", evening.printed().count("STANDS") == 1 and LINE in evening.printed())
    stands_by(page)
    check("STANDBY of a cue without it asks nothing", is_lit(page, "2"))
    page.key(ESCAPE)
    check("it is given up", ends(page, "2", "cancelled"))


def of_quiet(page):
    """While nothing changes no region speaks, and nothing is made anew."""
    time.sleep(1)
    page.run(COUNTS)
    time.sleep(2)
    check("left alone it says nothing again", page.run("return window.spokenNow") == 0)


def is_asked(page):
    return page.waits_for(lambda: page.find("anyway").is_displayed() and page.text("anyway-why") == ASKS, 2)


def is_lit_again(page):
    """STANDBY is dark until the store shows what became of the last press."""
    check("STANDBY is lit", page.waits_for(lambda: page.find("standby").is_enabled()))


def of_the_question(page, evening):
    """STANDBY of a cue with the device asks once more, in its place; a second tap is the same press."""
    goes_to(page, "3")
    check("the row says that STANDBY asks", page.shows("elsewhere", "STANDBY asks once more", 2))
    before = evening.last()
    page.click("standby")
    check("STANDBY asks, in its place", is_asked(page) and not page.find("standby").is_displayed())
    page.click("anyway")
    time.sleep(0.4)
    check("a second tap is the same press", page.find("anyway").is_displayed() and evening.last() == before)
    check("and the line says why", page.text("words").startswith("STANDBY of cue 3 Trap shuts asks: Device 3 Trap"))
    time.sleep(AGAIN)
    page.click("anyway")
    check("the second press stands by", is_lit(page, "3"))
    check("by one message", evening.last() == before + 1)
    check("and nothing is asked any more", page.find("standby").is_displayed())
    page.key(ESCAPE)
    check("it is given up", ends(page, "3", "cancelled"))


def by_keyboard(page, evening):
    """The same by the keyboard alone: by S, and by the buttons that have the focus."""
    is_lit_again(page)
    page.key("s")
    check("S asks", is_asked(page))
    page.key("s")
    time.sleep(0.4)
    check("a second tap of S does nothing", page.find("anyway").is_displayed() and not evening.view()["live"])
    time.sleep(AGAIN)
    page.key("s")
    check("S once more stands by", is_lit(page, "3"))
    page.key(ESCAPE)
    check("it is given up", ends(page, "3", "cancelled"))
    is_lit_again(page)
    page.run("document.getElementById('standby').focus()")
    page.key(ENTER)
    check("the second button has the focus of the first", is_asked(page) and page.run(FOCUS) == "anyway")
    time.sleep(AGAIN)
    page.key(ENTER)
    check("and stands by", is_lit(page, "3"))
    check("the first has the focus again, or none has", page.run(FOCUS) != "anyway")
    page.run("document.activeElement.blur()")
    page.key(ESCAPE)
    check("it is given up", ends(page, "3", "cancelled"))


def holds_nothing_up(page, evening):
    """GO and CANCEL ask nothing, also while STANDBY asks; the question goes once another cue is next."""
    is_lit_again(page)
    page.key("s")
    check("STANDBY asks", is_asked(page))
    check("another cue is stood by elsewhere", evening.tells("standby", "2"))
    chooses(page, "2")
    check("GO is lit beside the question", is_lit(page, "2") and page.find("anyway").is_displayed())
    page.key(" ")
    check("GO gives it", page.shows("words", "GO given for cue 2", 3))
    check("and it ends complete", ends(page, "2", "complete"))
    check("the same cue is next", page.waits_for(lambda: page.run("return view.next.cue") == "3"))
    check("so the question stands", is_asked(page))
    check("somebody else moves the place", evening.tells("goto", "2"))
    check("the question goes with its cue", page.waits_for(lambda: page.text("standby-cue") == "cue 2", 3))


def of_the_way_back(page, evening):
    """The way back to where the device stands: nothing is said any more."""
    goes_to(page, "3")
    is_lit_again(page)
    page.key("s")
    check("STANDBY asks", is_asked(page))
    goes_to(page, "4")
    check("at the place where the device stands nothing is said", is_silent(page))
    check("nor by the board", "STANDS" not in evening.printed())
    check("and a screen reader hears that", page.run("return document.getElementById('elsewhere-said').textContent")
          == "No device stands elsewhere")
    check("Back leads to where it stood otherwise", page.shows("back", "Back to cue 3", 3)
          and twice(page, "back", "back", lambda: page.text("standby-cue") == "cue 3"))
    check("and it is said again", page.shows("elsewhere", ROW, 3))
    goes_to(page, "4")
    stands_by(page)
    check("STANDBY asks nothing", is_lit(page, "4"))
    page.key(ESCAPE)
    check("it is given up", ends(page, "4", "cancelled"))
    goes_to(page, "3")
    check("and it is said again", page.shows("elsewhere", ROW, 3))


def in_small_windows(page):
    """In a small window, and by a zoom of 200 %, nothing is cut off."""
    is_lit_again(page)
    page.key("s")
    check("STANDBY asks", is_asked(page))
    for width, height in SMALL:
        page.sized(width, height)
        check(f"in {width} by {height} nothing is beside the window", page.run(INSIDE))
        check("question, CANCEL and GO are whole and in sight", page.run(IN_SIGHT, ["anyway", "cancel", "go"]))
        check("the row can be seen whole", page.run(ROW_IN_SIGHT))
    page.sized()
    goes_to(page, "2")


def of_a_device_that_failed(page, evening):
    """One that failed after GO stands nobody knows where."""
    evening.play("--fails", "3", move=200)
    goes_to(page, "3")
    stands_by(page)
    check("GO lights", is_lit(page, "3"))
    page.key(" ")
    check("it fails", ends(page, "3", "failed"))
    check("which cue it failed in is said", page.shows("elsewhere", "failed in cue 3 Trap shuts", 3))
    check("by the board, too", "STANDS elsewhere: device 3, failed in cue 3, supposed cue 3" in evening.printed())
    evening.play(move=200)
    goes_to(page, "3")
    stands_by(page)
    check("GO lights", is_lit(page, "3"))
    page.key(" ")
    check("given again it ends complete", ends(page, "3", "complete"))


def swallows_all(evening):
    """The place is moved so often that no record of the store tells of an attempt any more."""
    ears = serving.Ears(evening.serve)
    for turn in range(MOVES):
        ears.say(model.message(f"/cue/{turn % 2 + 2}/goto"))
        if turn % 20 == 19:
            ears.say(model.message("/status"))
            ears.hear("/status")
    ears.close()


def of_restart(page, evening):
    """The page is started again, long after: it knows by its file, and so does a board that is told where it is."""
    goes_to(page, "3")
    check("it is said", page.shows("elsewhere", ROW, 3))
    check("the file has a line for each device", [line.split(" attempt ")[0] for line in
          evening.places.read_text().splitlines()] == ["device 3", "device 4"])
    swallows_all(evening)
    goes_to(page, "3")
    page.run("window.isOld = true")
    evening.stop("page")
    evening.start_page()
    check("the page loads itself again", page.waits_for(lambda: page.run("return !window.isOld"), 6))
    check("and still says it", page.shows("elsewhere", ROW, 6))
    check("a board without the file knows nothing of the devices", "STANDS unknown: devices of which nothing was heard: 2\n"
          in evening.printed())
    check("one with it does", LINE in evening.printed("--alarms", evening.alarms))
    port = free_tcp()
    words = ["web", evening.folder, evening.file, "--http", port, "--port", evening.port, "--read-only", *evening.more]
    kept = evening.places.read_text()
    shows = subprocess.Popen([evening.desk, *map(str, words)], stdout=subprocess.PIPE)
    shows.stdout.readline()
    page.open(f"http://127.0.0.1:{port}/")
    check("a page that only shows says it, too", page.shows("elsewhere", ROW, 6))
    shows.kill()
    shows.wait()
    check("and writes nothing", evening.places.read_text() == kept)


def of_lost_file(evening):
    """Where the file can be neither read nor written that is said, and nothing else stops."""
    evening.stop("page")
    os.unlink(evening.places)
    evening.places.mkdir()
    words = ["web", evening.folder, evening.file, "--http", evening.http, "--port", evening.port, *evening.more]
    page = subprocess.Popen([evening.desk, *map(str, words)], stdout=subprocess.PIPE, stderr=subprocess.PIPE, text=True)
    page.stdout.readline()
    check("the page is there all the same", evening.waits_for(lambda view: view["next"]["cue"] == "3"))
    check("and goes on", evening.tells("goto", "2") and evening.waits_for(lambda view: view["next"]["cue"] == "2"))
    check("and once more", evening.tells("goto", "3") and evening.waits_for(lambda view: view["next"]["cue"] == "3"))
    page.kill()
    said = page.communicate()[1]
    check("that it cannot be read is said once", said.count("where devices stand cannot be read") == 1)
    check("and that it cannot be kept", said.count("where devices stand cannot be kept") == 1)


def whereabouts(desk, cuectl, work):
    """An evening in which the place is moved."""
    evening, page = Kept(desk, cuectl, work / "whereabouts", at_own_ports(SHOW)), Browser()
    try:
        page.open(f"http://127.0.0.1:{evening.http}/")
        check("the page is there", page.shows("stack", "Storm"))
        of_a_move(page, evening)
        of_quiet(page)
        of_the_question(page, evening)
        by_keyboard(page, evening)
        holds_nothing_up(page, evening)
        of_the_way_back(page, evening)
        in_small_windows(page)
        of_a_device_that_failed(page, evening)
        of_restart(page, evening)
        check("the browser has nothing against the page", page.complaints() == [])
        of_lost_file(evening)
    finally:
        page.close()
        evening.end()
