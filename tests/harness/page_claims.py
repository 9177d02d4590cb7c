"""What devices tell of themselves, on the page: always said to be told by them, as text alone, and deciding nothing."""
from checking import check
from page_evening import SHOWN, Telling
from page_scenes import SPOKEN, ends, goes_to, is_lit, sees, stands_by

WAY = """const bar = document.getElementById('way-' + arguments[0]);
  return bar.hidden ? null : ['aria-valuenow', 'aria-valuetext', 'aria-label'].map((name) => bar.getAttribute(name));"""
FITS = "return document.documentElement.scrollWidth <= document.documentElement.clientWidth"
SPEAKING = """return document.querySelectorAll(
  "#network [aria-live], #network [role=status], #network [role=alert]").length"""
STOP = "emergency stop pulled"
WORDS = SHOWN[:48]
QUOTED = '"' + WORDS.replace('"', "'") + '"'  # words never end their own quotation


def by_one_that_rests(page, told):
    """Who made it, and where it is: no way, since it does not move."""
    told.told = {"claims": {4: {"at": [(-2000, 4000, "mm")], "who": [WORDS]}, 8: {"at": [(7, 7, "")]}}}
    check("where a device says that it is stands in the list",
          page.shows("says-4", "told by the device: at -2000 of 4000 mm"))
    check("and who made it, as text alone", page.text("says-4").endswith(f"it is {QUOTED}"))
    check("one without a unit has none", page.text("says-8") == "told by the device: at 7 of 7")
    check("one that does not move has no bar", page.run(WAY, 4) is None)
    told.told = {}
    check("what is not told is not there", page.waits_for(lambda: not page.find("says-4").is_displayed()))


def by_one_that_moves(page, told, attempt):
    """How much of its way it has gone since it was seen to move."""
    label = "Way of device 4 Winch " + SHOWN + ", told by the device"
    for place, way in ((2000, "0"), (3000, "50"), (9000, "100"), (1000, "0")):
        told.told = {"going": {4: attempt}, "claims": {4: {"at": [(place, 4000, "mm")]}}}
        wanted = [way, f"at {place} of 4000 mm", label]
        check(f"at {place} it has gone {way} percent", page.waits_for(lambda: page.run(WAY, 4) == wanted))
    check("no region of the list speaks of it", page.run(SPEAKING) == 0)
    check("nor does a screen reader hear of it", "of 4000" not in page.run(SPOKEN))


def by_one_that_aborts(page, told, attempt, pictures):
    """Why it aborted stands beside the failure, if it says so of that attempt."""
    told.told = {"claims": {8: {"why": [(attempt + 1, "another attempt")]}}}
    check("what it says of another attempt stands in the list", page.shows("says-8", '"another attempt"'))
    check("and not beside the failure", "another attempt" not in page.text("alarms") + page.text("live"))
    lit = page.run("return view.lit.map((lit) => lit.press)")
    kinds = page.run("return view.alarms.map((alarm) => alarm.kind)")
    told.told = {"claims": {4: {"at": [(2310, 4000, "mm")]}, 8: {"why": [(attempt, STOP)], "who": ["Acme winch 2.1"]}}}
    check("why it aborted stands beside the failure", page.shows("alarms", f'it says: "{STOP}"'))
    check("and in the list, with the cue",
          page.shows("says-8", f'told by the device: "{STOP}" (cue '))
    check("and a screen reader hears of it", page.waits_for(lambda: f'says: "{STOP}"' in page.run(SPOKEN)))
    if page.run("return view.live.length"):
        check("and on its card", page.shows("live", f'says: "{STOP}"'))
    check("nothing else is lit by it", page.waits_for(
        lambda: set(page.run("return view.lit.map((lit) => lit.press)")) <= set(lit)))
    check("and no other alarm is there", page.run("return view.alarms.map((alarm) => alarm.kind)") == kinds)
    if pictures:
        page.picture(pictures / "page-claims.png")


def tells(page, evening, relay, pictures):
    """Device 4 tells where it is, and device 8 why it aborted cue 6."""
    page.open(f"http://127.0.0.1:{evening.http}/")
    evening.play_apart(8)
    with Telling(relay, {4: (1, False), 8: (1, False)}) as told:
        by_one_that_rests(page, told)
        goes_to(page, "6")
        stands_by(page)
        check("GO lights", is_lit(page))
        attempt = evening.view()["live"][0]["attempt"]
        page.click("go")
        check("device 8 fails", page.shows("alarms", "device 8"))
        by_one_that_aborts(page, told, attempt, pictures)
        check("it ends failed", ends(page, "6", "failed"))
        check("and the reason stays beside it", page.shows("alarms", f'it says: "{STOP}"'))
        page.driver.set_window_size(360, 780)
        check("at 360 px nothing is cut off", page.run(FITS) and STOP in page.text("alarms"))
        page.driver.set_window_size(1280, 940)
        check("it was seen", sees(page))
        check("and then it stands at the end of the cue", page.shows("last", f'it says: "{STOP}"'))
        by_one_that_moves(page, told, attempt + 1)
    evening.stop("apart")
    evening.stop("devices")
