"""The sign of a rehearsal, the clocks, and a cue that is stood by again, each in a window of a browser."""
import re
import shutil
import time

import serving
from browser import ENTER, Browser
from checking import check
from page_evening import Evening
from page_scenes import ends, goes_to, is_lit, stands_by

LINE = re.compile(r"\d{4}-\d\d-\d\dT\d\d:\d\d:\d\dZ curtain (up|down)\n")
ROLES = "return ['wall', 'last-go', 'act'].map((id) => document.getElementById(id).getAttribute('role'))"
INSIDE = "return document.documentElement.scrollWidth <= innerWidth"
SMALL = (640, 400), (360, 740), (740, 360)  # as a zoom of 200 % and a phone make them


class Marked(Evening):
    """An evening whose page keeps marks."""

    def __init__(self, desk, cuectl, folder, text):
        folder.mkdir()
        self.marks = folder / "kept" / "evening.marks"
        self.marks.parent.mkdir()
        self.more = ("--marks", self.marks)
        super().__init__(desk, cuectl, folder, text)


def of_rehearsal(page, evening, board):
    """While a rehearsal plays, page and board say so; once it has ended they do not."""
    check("no rehearsal plays: nothing says so", not page.text("rehearsal") and "REHEARSAL" not in board())
    evening.play()
    check("a rehearsal plays: the page says so", page.shows("rehearsal", "REHEARSAL", 3))
    check("and its title", page.run("return document.title").startswith("REHEARSAL"))
    check("and GO", page.run("return getComputedStyle(document.querySelector('#go b'), '::after').content")
          == '" rehearsal"')
    check("the board says so in its first line", board().startswith("REHEARSAL: cuedesk rehearse plays the devices\n"))
    evening.file.write_text(evening.file.read_text())
    replaced = evening.file.with_name("new.toml")
    shutil.copy(evening.file, replaced)
    replaced.rename(evening.file)
    time.sleep(1.2)
    check("also once an editor has put another file in its place", "REHEARSAL" in page.text("rehearsal"))
    evening.stop("devices")
    check("it was killed: nothing says so", page.waits_for(lambda: not page.text("rehearsal"), 3)
          and "REHEARSAL" not in board())
    check("the file of the sign is empty", evening.file.with_name("evening.toml.rehearsal").read_bytes() == b"")
    evening.play()
    check("and once more", page.shows("rehearsal", "REHEARSAL", 3))


def of_last_go(page, evening):
    """How long ago the last GO was, also after a new start of the page."""
    check("no GO was seen yet", not page.text("last-go"))
    goes_to(page, "1")
    stands_by(page)
    check("GO lights", is_lit(page, "1"))
    page.key(" ")
    check("the last GO is told", page.shows("last-go", "last GO 0:00:0", 3))
    check("it ends complete", ends(page, "1", "complete"))
    page.driver.refresh()
    check("also after the page was loaded again", page.shows("last-go", "last GO 0:00:", 5))


def of_acts(page, evening):
    """Acts and intervals, by marks that are pressed twice, and stand in the file."""
    check("the time is told", re.fullmatch(r"\d\d:\d\d:\d\d", page.text("wall")))
    check("no act is told before the curtain", page.shows("curtain", "Curtain up", 3) and not page.text("act"))
    page.click("curtain")
    check("it asks once more", page.shows("curtain", "Press again: Curtain up", 1))
    time.sleep(3.2)
    check("a single press marks nothing", page.text("curtain") == "Curtain up" and not evening.marks.exists())
    page.click("curtain")
    page.click("curtain")
    check("the act is told", page.shows("act", "Act 1 0:00:0", 2))
    time.sleep(1.1)
    check("and the mark is in the file", LINE.fullmatch(evening.marks.read_text()))
    page.run("document.getElementById('curtain').focus()")
    page.key(ENTER)
    page.key(ENTER)
    check("by the keyboard: the interval is told", page.shows("act", "Curtain down 0:00:0", 2))
    check("with the time since the curtain went up", "since curtain up" in page.text("act"))
    check("a terminal marks, too", serving.run(evening.desk, "mark", evening.marks, "up")[1] == 0)
    check("which the page tells", page.shows("act", "Act 2 0:00:0", 4))
    check("clocks are timers, which no reader speaks by itself", page.run(ROLES) == ["timer"] * 3)
    check("nor does a screen reader hear of them", "Act" not in page.text("spoken"))
    for width, height in SMALL:
        page.sized(width, height)
        check(f"in {width} by {height} nothing is beside the window", page.run(INSIDE))
        check("and GO is in sight", page.run("return document.getElementById('go').getBoundingClientRect().bottom")
              <= height)
    page.sized()


def of_restart(page, evening):
    """The page is started again: the act goes on."""
    evening.stop("page")
    evening.start_page()
    check("the act goes on after a new start", page.shows("act", "Act 2 0:00:", 6))


def of_lost_file(page, evening):
    """A mark that cannot be written is said to be so."""
    evening.marks.parent.rename(evening.marks.parent.with_name("away"))
    check("without the file the curtain is to rise", page.shows("curtain", "Curtain up", 5))
    page.click("curtain")
    page.click("curtain")
    check("a mark that was not written is said", page.shows("words", "is not seen in the file", 5))


def of_ten_seconds(page, evening):
    """The ten seconds pass: one press in the alarm stands the same cue by again."""
    goes_to(page, "1")
    stands_by(page)
    check("GO lights", is_lit(page, "1"))
    check("its ten seconds pass", page.shows("alarms", "lost its standby: ten seconds passed", 14))
    check("the alarm has a button that stands it by again", page.shows("alarms", "Stand by again", 3))
    page.run("document.querySelector('[id^=again-]').click()")
    check("one press, and GO lights again", is_lit(page, "1"))
    page.key(" ")
    check("it is given", ends(page, "1", "complete"))


def clocks(desk, cuectl, work, text):
    """An evening by its clocks."""
    evening, page = Marked(desk, cuectl, work / "clocks", text), Browser()

    def board():
        return serving.run(desk, "board", evening.folder, evening.file, "--port", evening.port, "--once")[0]

    try:
        page.open(f"http://127.0.0.1:{evening.http}/")
        check("the page is there", page.shows("stack", "Finale, all in"))
        of_rehearsal(page, evening, board)
        of_last_go(page, evening)
        of_acts(page, evening)
        of_restart(page, evening)
        of_ten_seconds(page, evening)
        of_lost_file(page, evening)
        check("the browser has nothing against the page", page.complaints() == [])
    finally:
        page.close()
        evening.end()
