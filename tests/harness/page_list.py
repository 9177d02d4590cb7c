"""The list of the page: all cues, how they are marked, the field that finds one, and where the list stands."""
import time

from browser import ENTER, ESCAPE
from checking import check
from page_evening import MARKS, is_checked
from page_scenes import goes_to

REDRAWN = 5  # milliseconds that drawing a view of a full show takes at most, if nothing of the list has changed
SIGNS = {"danger": "DANGER", "fly": "FLY", "trap": "TRAP"}
BARS = "return [...document.querySelectorAll('#stack .bar')].map(e => getComputedStyle(e).backgroundColor)"
DRAWN = "const t = performance.now(); for (let k = 0; k < 20; k++) draw(); return (performance.now() - t) / 20"
IN_SIGHT = """const r = rows.get(arguments[0]).line.getBoundingClientRect();
const l = document.getElementById('list').getBoundingClientRect();
return r.top >= l.top - 1 && r.bottom <= l.bottom + 1;"""


def is_in_sight(page, cue):
    """Whether the list comes to show the row of this cue."""
    return page.waits_for(lambda: page.run(IN_SIGHT, cue), 3)


def types(page, name, *keys):
    """Keys that are typed into a field."""
    for key in keys:
        page.find(name).send_keys(key)


def is_marked(page):
    """Each mark has its word, on the row, at NEXT and on the card; a colour is a bar, too."""
    for cue, (color, flag) in MARKS.items():
        row = page.run("return rows.get(arguments[0]).line.textContent", cue)
        check(f"cue {cue} has its marks in words", (color or "") in row and SIGNS.get(flag, "") in row)
    bars = page.run(BARS)
    check("colours are bars", len(set(bars)) == len({color for color, _ in MARKS.values() if color}) + 1)
    goes_to(page, "6")
    check("DANGER stands at NEXT", page.waits_for(lambda: "DANGER" in page.text("next") and "red" in page.text("next")))
    size = page.run("return parseFloat(getComputedStyle(document.querySelector('#next .flag')).fontSize)")
    check("and large", size >= 28)


def finds(page, evening):
    """A cue by its number, or by a piece of its name; nothing moves and nothing is pressed."""
    said, place = evening.view()["said"], evening.place()
    page.find("find").click()
    types(page, "find", "8")
    check("the number comes first", page.text("found").startswith("cue 8, 1 of "))
    types(page, "find", ENTER)
    check("Enter finds the next one", page.text("found").startswith("cue 8.5, 2 of "))
    check("it is in sight", is_in_sight(page, "8.5"))
    page.find("find").clear()
    types(page, "find", "finale")
    check("a piece of a name finds it", "1 of 1" in page.text("found") and is_in_sight(page, "22"))
    page.find("find").clear()
    types(page, "find", "s", "S", "r", "r", " ", " ")
    check("what is in none finds none", page.text("found") == "none")
    time.sleep(0.7)
    check("no key of the field is a press", evening.view()["said"] == said)
    types(page, "find", ESCAPE)
    check("Esc leaves the field", page.run("return document.activeElement.id") != "find")
    time.sleep(0.4)
    check("and gives nothing up", evening.view()["said"] == said and evening.place() == place)
    page.click("to-place")
    check("a button shows the place again", is_in_sight(page, place))


def scrolls(page, evening):
    """The list follows the place, and nothing else scrolls it."""
    check("the place moves from elsewhere", evening.tells("goto", "22"))
    check("the list follows it", page.shows("standby-cue", "cue 22") and is_in_sight(page, "22"))
    time.sleep(0.5)
    page.run("document.getElementById('list').scrollTop = 0")
    time.sleep(0.8)
    check("left alone, it stays where it is", page.run("return document.getElementById('list').scrollTop") == 0)


def lists(page, evening):
    """All of that, on the show of the evening."""
    is_marked(page)
    finds(page, evening)
    scrolls(page, evening)


def is_whole(page, evening):
    """The list of a full show: it has each cue, and its rows are made once."""
    count = page.run("return document.querySelectorAll('#stack li').length")
    check("the list has each cue of a full show", count == 1024)
    check("the place is in sight", is_in_sight(page, evening.place()))
    page.run("rows.get('512').line.isOld = true")
    page.find("find").click()
    types(page, "find", "Cue 512")
    check("a cue far away is found", page.text("found") == "cue 512, 1 of 1" and is_in_sight(page, "512"))
    types(page, "find", ESCAPE)
    check("the place moves", evening.tells("goto", "700"))
    check("the list follows it", page.shows("standby-cue", "cue 700") and is_in_sight(page, "700"))
    check("no row is made anew", page.run("return rows.get('512').line.isOld === true"))
    took = page.run(DRAWN)
    print(f"     drawing a view of a full show takes {took:.1f} ms", flush=True)
    check(f"drawing one takes at most {REDRAWN} ms", is_checked(evening.desk) or took <= REDRAWN)
