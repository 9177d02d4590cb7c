"""What keeps a hand from a wrong press: the key R, the lock of the show, and a page that only shows."""
import time

from browser import ENTER, ESCAPE
from checking import check
from page_list import types
from page_scenes import ends, goes_to, is_lit, presses_s, releases, stands_by, twice

WORD = "open-sesame"
HEADER = "return [document.getElementById('locked').hidden, document.getElementById('lock-again').hidden]"


def waits_for_one(page, evening):
    """R releases the one device that GO waits for, if it is pressed twice."""
    evening.play("--silent", "22")
    goes_to(page, "5")
    page.key("r")
    check("R where nothing is stood by says so", page.shows("words", "R releases no device: no cue is stood by"))
    stands_by(page)
    check("GO waits for device 22", page.shows("go-cue", "waits for 22"))
    page.key(" ")
    check("a GO too early says for whom it waits", page.shows("words", "waits for device 22 Fog machine"))
    page.key("r")
    check("R says whom it would release, and what comes of it", page.shows(
        "words", "Press R again to release device 22 Fog machine (optional): cue 5 goes without it"))
    time.sleep(3.4)
    check("nobody is released by one press", page.run("return waitedFor(chosenAttempt())") == [22])
    page.key("r")
    check("three seconds later it asks again", page.shows("words", "Press R again"))
    page.key("R")
    check("a second press releases it", page.shows("live", "excused") and is_lit(page, "5"))
    page.key("r")
    check("then R has nobody to release", page.shows("words", "R releases no device: cue 5 waits for no device"))
    page.key(" ")
    check("GO is given without it", ends(page, "5", "complete"))


def waits_for_two(page, evening):
    """R releases nobody while two are waited for, and says that a required device takes its cue with it."""
    evening.stop("devices")
    goes_to(page, "6")
    stands_by(page)
    check("GO waits for both", page.shows("go-cue", "waits for 8 Wagon, stage left; 9 Wagon, stage right"))
    page.key("r")
    check("R says that there are two", page.shows("words", "R releases no device: cue 6 waits for 2 devices"))
    page.key("r")
    time.sleep(0.5)
    check("and releases nobody", page.run("return waitedFor(chosenAttempt()).length") == 2)
    page.key(ESCAPE)
    check("it is given up", page.shows("live", "given up"))
    releases(page, 8)
    releases(page, 9)
    check("it ends", ends(page, "6", "cancelled"))


def asks_for_word(page, cue):
    """Presses Move here of this cue twice, until the page asks for the word."""
    check("a move asks for the word of the show", twice(
        page, f"goto-{cue}", "stack", lambda: page.find("lock").is_displayed()))


def is_locked(page, evening):
    """A move and a release want the word; GO, STANDBY and CANCEL do not."""
    check("the page says that the show is locked", page.waits_for(lambda: page.run(HEADER) == [False, True]))
    place = evening.place()
    asks_for_word(page, "2")
    check("the field has the focus", page.run("return document.activeElement.id") == "lock-word")
    types(page, "lock-word", "s", " ", "r")
    page.find("lock-word").clear()
    types(page, "lock-word", "wrong", ENTER)
    check("a wrong word is refused, and asked for again", page.shows("lock-why", "this is not its word"))
    check("and the place stays", evening.place() == place)
    types(page, "lock-word", ESCAPE)
    check("Esc leaves the form, and gives nothing up", page.waits_for(lambda: not page.find("lock").is_displayed()))
    time.sleep(0.7)
    asks_for_word(page, "2")
    types(page, "lock-word", WORD, ENTER)
    check("with the word the place moves", page.waits_for(lambda: page.text("standby-cue") == "cue 2"))
    check("the page says that it is unlocked", page.waits_for(lambda: page.run(HEADER) == [True, False]))
    kept = page.run("return JSON.stringify(localStorage) + JSON.stringify(sessionStorage) + document.cookie + location")
    check("the word is in no storage", WORD not in kept)
    goes_to(page, "1")
    check("a second move wants no word", page.text("standby-cue") == "cue 1")
    page.click("lock-again")
    check("it can be locked again", page.waits_for(lambda: page.run(HEADER) == [False, True]))
    presses_s(page)
    check("STANDBY wants no word", is_lit(page, "1"))
    page.key(" ")
    check("nor does GO", ends(page, "1", "complete"))
    page.run("word = { text: 'x', until: now() + 200 }; showManner()")
    check("a word that is not used is forgotten", page.waits_for(lambda: page.run("return word.text") == "", 3))


def only_shows(page, evening):
    """No button, no key; the list can be looked through."""
    check("it says so", page.shows("mode", "READ ONLY"))
    shown = page.run("return [...document.querySelectorAll('button')].filter(b => b.getClientRects().length && "
                     "getComputedStyle(b).visibility === 'visible').map(b => b.id)")
    check(f"it has no button but those of the page itself: {shown}",
          set(shown) == {"sound", "theme", "size", "to-place"})
    before = evening.view()
    for key in ("s", " ", ESCAPE, "r", "r"):
        page.key(key)
    time.sleep(0.5)
    after = evening.view()
    check("and no key", (before["said"], before["live"]) == (after["said"], after["live"]))
    check("the place of others is followed", evening.tells("goto", "7") and page.waits_for(
        lambda: page.run("return view.next.cue") == "7"))


def starts_with(evening, *more):
    """The page again, with these words."""
    evening.stop("page")
    evening.more = more
    evening.start_page()


def guards(page, evening):
    """All of them. The page loads itself again where its desk was started again."""
    waits_for_one(page, evening)
    waits_for_two(page, evening)
    evening.play()
    starts_with(evening, "--lock", WORD)
    is_locked(page, evening)
    starts_with(evening, "--read-only")
    only_shows(page, evening)
    starts_with(evening)
    check("a usual page again", page.waits_for(lambda: page.find("go").is_displayed()))
    evening.read_token()
