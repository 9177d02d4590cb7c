"""The scenes of an evening that the page goes through in a browser, and what stands on it then."""
import re
import statistics
import time

import serving
from browser import ESCAPE
from checking import check
from page_evening import SHOWN, TOGETHER, Telling, is_checked, write_status
from page_look import CONTRAST, calls, has_contrast, in_windows, sounded


def begins(page, evening):
    page.open(f"http://127.0.0.1:{evening.http}/")
    check("the stack is shown", page.shows("stack", "Finale, all in"))
    check("names are texts", page.run("return document.querySelectorAll('#stack b, #stack script').length") == 0)
    check("the place is moved", evening.press("goto", "1") == "made")
    check("where the place is, too", page.waits_for(lambda: SHOWN in page.text("next")))
    check("nothing is stood by", "Nothing is stood by" in page.text("live") and not page.find("go").is_enabled())


def twice(page, name, asks, done):
    """Presses a button that asks once more, until it is done: on a slow machine the three seconds may be over."""
    for _ in range(4):
        page.click(name)
        if page.waits_for(lambda: "Press again" in page.text(asks), 2):
            page.click(name)
            if page.waits_for(done, 3):
                return True
    return False


def goes_to(page, cue):
    """Moves the place to the cue, where it does not stand there already."""
    time.sleep(0.6)
    if page.text("standby-cue") != f"cue {cue}":
        moved = twice(page, f"goto-{cue}", "stack", lambda: page.text("standby-cue") == f"cue {cue}")
        check("Move here asks once more", moved)
    check(f"cue {cue} is next", page.shows("standby-cue", f"cue {cue}"))


AGAIN = 1.1  # seconds after which a second press of STANDBY is no second tap


def stands_by(page):
    """Presses STANDBY, and once more where it asks because a device stands elsewhere."""
    page.click("standby")
    if page.find("anyway").is_displayed():
        time.sleep(AGAIN)
        page.click("anyway")


def presses_s(page):
    """The same by the key S."""
    page.key("s")
    if page.find("anyway").is_displayed():
        time.sleep(AGAIN)
        page.key("s")


def stands_by_key(page, cue):
    """The key S, as soon as STANDBY is lit: it is dark until the store shows the last press. Where the line says that
    the press did nothing, it is pressed again, and the line is printed."""
    for _ in range(3):
        check("STANDBY is lit", page.waits_for(lambda: page.find("standby").is_enabled()))
        presses_s(page)
        if page.waits_for(lambda: page.find("go").is_enabled() and page.text("go-cue") == f"cue {cue}", 4):
            break
        print(f"     the line says: {page.text('words')}; GO says: {page.text('go')}", flush=True)
    check("S stands by", is_lit(page, cue))


def is_lit(page, cue=None):
    """Whether GO lights in time, for this cue."""
    return page.waits_for(lambda: page.find("go").is_enabled() and (cue is None or page.text("go-cue") == f"cue {cue}"))


def ends(page, cue, outcome):
    """Whether LAST comes to tell of the cue, and how it ended."""
    return page.waits_for(lambda: page.text("last").startswith(f"cue {cue}") and f": {outcome}" in page.text("last"))


def gives(page, evening, cue):
    """One cue by the buttons."""
    goes_to(page, cue)
    stands_by(page)
    check("GO lights", is_lit(page, cue))
    check("the card says that it is chosen", "CHOSEN" in page.text("live"))
    page.click("go")
    check("GO is dark after a GO", page.waits_for(lambda: not page.find("go").is_enabled(), 0.5))
    check("it is said what became of it", page.shows("words", f"GO given for cue {cue}"))
    check("it ends complete", ends(page, cue, "complete"))


def releases(page, device):
    """Releases the device that has not answered: pressed twice."""
    button = f"return (document.querySelector('#live button[id$=\"-{device}\"]:enabled') || {{id: ''}}).id"
    check("who has not answered can be released", page.waits_for(lambda: page.run(button)))
    name = page.run(button)
    check("Release asks once more", twice(page, name, "live", lambda: name != page.run(button)))


def prepares(page, evening, pictures):
    """A cue with an optional device that does not answer, which is released; and GO before that."""
    evening.play("--silent", "22")
    goes_to(page, "5")
    stands_by(page)
    check("who has not answered is shown", page.shows("live", "waiting for 22") and page.shows("live", "ready"))
    check("GO does not light", not page.find("go").is_enabled())
    page.key(" ")
    check("the space bar says for whom it waits", page.shows("words", "waits for device 22"))
    check("seconds are shown", re.search(r"\d\.\d s left", page.text("live")))
    if pictures:
        page.picture(pictures / "page-preparing.png")
        evening.printed, _, _ = serving.run(evening.desk, "board", evening.folder, evening.file, "--once",
                                             "--port", evening.serve.port)
    attempt = evening.view()["live"][0]["attempt"]
    said = page.run("return fetch('/command', {method: 'POST', headers: {'Cuedesk-Token': arguments[0]}, body: "
                    "arguments[1]}).then(r => r.json())", evening.token, evening.body(f"go 5 {attempt}").decode())
    check("a GO all the same is not sent", said["view"]["unsent"]["words"] == "not sent: the button was not lit")
    releases(page, 22)
    check("it is released and excused", page.shows("live", "excused"))
    check("then GO lights", is_lit(page, "5"))
    if pictures:
        page.picture(pictures / "page-ready.png")
    page.click("go")
    check("the cue completes without it", ends(page, "5", "complete") and page.shows("last", "without device 22"))


def line_of_now(page, evening):
    """Why a button was dark goes from the line as soon as it is lit, and each button has a reason of its own."""
    evening.play("--silent", "22")
    goes_to(page, "5")
    stands_by(page)
    check("the cue waits for a device", page.shows("live", "waiting for 22"))
    time.sleep(1.2)  # within a second it is the same press, of a key that bounces
    page.key("s")
    check("STANDBY says why it is dark", page.shows("words", "STANDBY is not lit: cue ", 1))
    check("and nothing that is of GO", "no cue is stood by" not in page.text("words"))
    page.key(" ")
    check("GO says why it is dark", page.shows("words", "GO is not lit: cue 5 waits for device 22", 1))
    begun = time.monotonic()
    check("the device is released elsewhere", evening.tells("release", "22"))
    check("GO lights", is_lit(page, "5"))
    was_brief = time.monotonic() - begun < 0.7
    check("and the line no longer says that it is not", page.waits_for(lambda: "not lit" not in page.text("words"), 0.7))
    check("but that the press did nothing", not was_brief or "GO was dark when it was pressed" in page.text("words"))
    page.key(ESCAPE)
    check("the cue is given up", ends(page, "5", "cancelled"))


def chooses(page, cue):
    """Chooses the cue for GO and CANCEL, where it is not chosen."""
    button = "return (document.querySelector('#live button[aria-label^=\"Choose cue ' + arguments[0] + ' \"]') " \
             "|| {id: ''}).id"
    if page.waits_for(lambda: page.run(button, cue), 1.5):
        page.click(page.run(button, cue))
    check(f"cue {cue} is chosen", page.waits_for(lambda: page.text("cancel-cue") == f"cue {cue}"))


def is_refused(page, evening):
    """A refusal stands where the eye is: STANDBY of a cue while another one has a device of it."""
    evening.play()
    goes_to(page, "3")
    stands_by(page)
    check("GO lights", is_lit(page))
    goes_to(page, "2")
    stands_by(page)
    check("the name of a device is a text", SHOWN in page.text("live"))
    check("the reason stands in words", page.waits_for(lambda: "busy" in page.text("words")))
    check("it is marked", page.find("words").get_attribute("class") == "refused")
    chooses(page, "3")
    page.key(ESCAPE)
    check("Esc gives it up", ends(page, "3", "cancelled"))


def keys(page, evening):
    goes_to(page, "1")
    stands_by_key(page, "1")
    page.key(" ")
    page.key(" ")
    check("a second tap is never said to be not sent",
          not page.waits_for(lambda: "not sent" in page.text("words") or "not lit" in page.text("words"), 0.3))
    page.key(" ")
    check("it says that GO was given", page.shows("words", "GO was given for cue 1", 1)
          and "the second tap did nothing" in page.text("words"))
    check("as a press that was made", page.find("words").get_attribute("class") == "made")
    check("the space bar is GO", ends(page, "1", "complete"))
    fields(page)
    said = evening.view()["said"]
    time.sleep(1)
    page.key(" ")
    time.sleep(0.7)
    check("GO where nothing is ready sends nothing", evening.view()["said"] == said)
    check("and says so", "GO is not lit: no cue is stood by" in page.text("words"))


def fields(page):
    """A space that goes into a field while a cue waits for GO."""
    goes_to(page, "1")
    stands_by_key(page, "1")
    page.click("find")
    page.key(" ")
    check("a space in a field gives no GO, and says so", page.shows("words", "gave no GO: press Esc", 1))
    check("it goes into the field", page.find("find").get_attribute("value") == " ")
    page.key(ESCAPE)
    check("the line goes with its reason", page.waits_for(lambda: "gave no GO" not in page.text("words"), 1))
    page.key(ESCAPE)
    check("then Esc is CANCEL", ends(page, "1", "cancelled"))


def goes_back(page, evening, pictures):
    """The way back after a move."""
    goes_to(page, "3")
    goes_to(page, "4")
    check("the way back is offered", page.shows("back", "Back to cue 3"))
    if pictures:
        page.picture(pictures / "page-back.png")
    check("it asks once more, and goes back", twice(page, "back", "back", lambda: page.text("standby-cue") == "cue 3"))
    check("and from there is a way back, too", page.shows("back", "Back to cue 4"))
    check("somebody else moves the place", evening.tells("goto", "5"))
    check("then there is none", page.waits_for(lambda: not page.find("back").is_displayed()))


def stand_by_together(page, evening, pictures):
    """Cues that stand by together, by one key; and each has its own GO."""
    named = f"cue 10 with {', '.join(TOGETHER)}"
    moved = twice(page, "goto-10", "stack", lambda: page.text("standby-cue") == named)
    check("STANDBY names the cues that stand by together", moved)
    check("and so does NEXT", page.text("next").count("with 8.5") == 1)
    for _ in range(3):
        presses_s(page)
        if evening.waits_for(lambda view: sum(one["ready"] for one in view["live"]) == 3, 4):
            break
        print(f"     the line says: {page.text('words')}", flush=True)
    check("one key stands them all by", evening.waits_for(lambda view: sum(one["ready"] for one in view["live"]) == 3))
    check("and that is said", page.waits_for(lambda: page.text("words").startswith("STANDBY given for cue 10")
                                            and page.text("words").endswith(f" with {', '.join(TOGETHER)}")))
    check("GO is for the first one", is_lit(page, "10"))
    if pictures:
        page.picture(pictures / "page-together.png")
    page.click("go")
    check("then for none", page.waits_for(lambda: not page.find("go").is_enabled(), 0.5))
    chooses(page, "8.5")
    check("and for the one that is chosen", is_lit(page, "8.5"))
    page.click("go")
    check("the others have been given or given up", evening.tells("cancel", "12.5")
          and page.waits_for(lambda: "Nothing is stood by" in page.text("live")))


def sees(page):
    """Presses Seen until no alarm is left: on a slow machine a press may be of a view that is too old."""
    for _ in range(4):
        seen = page.run("return (document.querySelector('#alarms button:enabled') || {id: ''}).id")
        if seen:
            page.click(seen)
        if page.waits_for(lambda: not page.find("alarms").is_displayed(), 2):
            return True
    return False


def fails(page, evening, pictures):
    evening.play_apart(8)
    goes_to(page, "6")
    stands_by(page)
    check("GO lights", is_lit(page))
    before = sounded(page)
    page.click("go")
    check("who failed is shown", page.waits_for(lambda: "failed" in page.text("live")))
    check("and is an alarm while the others move", page.shows("alarms", "fails: device 8")
          and "waiting" in page.text("live"))
    check("seconds since GO are shown, large", page.waits_for(lambda: page.run(SINCE) >= 28))
    calls(page, before)
    if pictures:
        page.picture(pictures / "page-failed.png")
    check("it ends failed, and by whom", ends(page, "6", "failed") and page.shows("alarms", "device 8"))
    evening.stop("apart")
    check("the failure stays until it was seen", page.shows("alarms", "aborted"))
    check("once it was seen it is an alarm no more", sees(page))
    check("and LAST tells of it", "device 8" in page.text("last"))


def loses_power(page, evening):
    evening.play(move=2500)
    goes_to(page, "7")
    stands_by(page)
    check("GO lights", is_lit(page))
    evening.power_is_lost()
    check("power lost before GO: the cue is cancelled, and why", ends(page, "7", "cancelled: the controller was started again"))
    check("GO is dark", not page.find("go").is_enabled())
    stands_by(page)
    check("it is stood by again", is_lit(page, "7"))
    page.click("go")
    check("it is given", page.shows("live", "since GO"))
    evening.power_is_lost()
    check("power lost after GO: the cue completes", ends(page, "7", "complete"))


def second_tab(page, evening):
    first = page.driver.current_window_handle
    page.driver.switch_to.new_window("tab")
    page.open(f"http://localhost:{evening.http}/")
    evening.play()
    check("a second tab shows the same", page.shows("stack", "Finale, all in"))
    goes_to(page, "8")
    stands_by(page)
    check("GO lights there", is_lit(page, "8"))
    page.driver.switch_to.window(first)
    check("in the first one it was chosen in another window", page.shows("go-cue", "chosen in another window"))
    page.key(" ")
    check("and the space bar gives nothing there", page.shows("words", "cue 8 was chosen in another window"))
    chooses(page, "8")
    check("chosen here, GO lights", is_lit(page, "8"))
    page.click("go")
    check("and is given", ends(page, "8", "complete"))
    page.driver.switch_to.window(page.driver.window_handles[-1])
    page.driver.close()
    page.driver.switch_to.window(first)


def follows(page, evening, cues=("1", "2", "3", "4", "1")):
    """How long the browser takes to show a change that another desk made."""
    found = []
    for cue in cues:
        serving.run(evening.desk, "goto", cue, "--port", evening.serve.port)
        made = time.monotonic()
        page.waits_for(lambda: page.text("standby-cue") == f"cue {cue}", 3)
        found.append(1000 * (time.monotonic() - made))
    print(f"     a change is shown after {statistics.median(found):.0f} ms, at most {max(found):.0f} ms", flush=True)
    check("a change is shown within 0.35 s, and never later than half a second",
          is_checked(evening.desk) or (statistics.median(found) <= 350 and max(found) < 500))


MOVING = "was released, and may still move"


def stays_in_sight(page, evening, relay):
    """A device is released while it moves: until it has answered, the page says that it may still move."""
    evening.play(move=25000)
    check("nothing is live", page.shows("live", "Nothing is stood by", 20))
    with Telling(relay, {4: (1, False)}) as told:
        goes_to(page, "3")
        stands_by(page)
        check("GO lights", is_lit(page, "3"))
        page.click("go")
        check("it is given", page.shows("live", "given"))
        moves = {4: evening.view()["live"][0]["attempt"]}
        told.told, told.has_stopped = {"going": moves}, True
        check("a relay that stops is said to be silent at once", page.shows("age", "relay silent for", 1.0))
        check("then it is an alarm, with what moves once it is back",
              page.shows("alarm-0", "each of these that it reaches may move at once: device 4"))
        told.has_stopped = False
        check("the relay says that it was sent GO", page.shows("heard-4", "GO sent"))
        releases(page, 4)
        check("a device that was released may still move", page.shows("alarms", "was released: it may still move", 1.5))
        check("and is never said to have aborted", "aborted" not in page.text("alarms"))
        releases(page, 20)
        check("it ends", ends(page, "3", "failed"))
        check("what has not answered stays in sight", page.shows("alarms", "was released: it may still move"))
        told.devices, told.told = {4: (None, False)}, {}
        time.sleep(0.5)
        check("a relay that has not heard it knows no better", "it may still move" in page.text("alarms"))
        page.open(f"http://127.0.0.1:{evening.http}/")
        check("nor does a page that was loaded again", page.shows("alarms", "may still move", 3))
        told.devices = {4: (1, False)}
        time.sleep(0.5)
        check("nor one that has heard something of it", "it may still move" in page.text("alarms"))
        told.told = {"moving": moves}
        check("one that aborted another cue since may still move",
              page.shows("heard-4", "may still move, heard", 2) and "may still move" in page.text("alarms"))
        told.told = {"over": moves}
        check("once it has answered nobody knows which it was", page.shows("alarms", "aborted or released"))
        past = "return document.getElementById('past').textContent"
        check("nor do the attempts that have ended say more",
              page.waits_for(lambda: "may still move" not in page.run(past), 1))
        told.told = {"going": moves}
        check("one more order that it has not answered", page.shows("alarms", MOVING, 3))
        page.click("still-4")
        check("somebody says that it stands still", page.waits_for(lambda: MOVING not in page.text("alarms"), 1))
        page.open(f"http://127.0.0.1:{evening.http}/")
        check("it was seen", sees(page))
        check("which stays said", page.waits_for(lambda: MOVING not in page.text("alarms"), 1))
    evening.stop("devices")


def hears(page, evening, relay, pictures):
    """When each device of a relay was heard, on the page and for a screen reader."""
    page.open(f"http://127.0.0.1:{evening.http}/")
    evening.read_token()
    check("the place is moved", evening.press("goto", "5") == "made")
    write_status(relay, {4: (3, False), 20: (3, False), 22: (None, False)})
    check("when a device was heard stands there", page.shows("heard-4", "heard "))
    check("with its name", SHOWN in page.text("heard"))
    check("and that one was not heard", page.shows("heard-22", "not heard since the relay started"))
    goes_to(page, "5")
    stands_by(page)
    write_status(relay, {4: (4, False), 20: (4, False), 22: (None, False)})
    check("beside what it has answered, too", page.waits_for(lambda: page.run(ROWS) > 0))
    before = sounded(page)
    write_status(relay, {1: (2, False), 3: (12, False), 20: (3, False), 22: (7, True)})
    check("who is silent is reported in words", page.shows("heard-22", "silent, heard 7 s ago"))
    check("and is an alarm", page.shows("alarms", "device 22 Fog machine is silent"))
    check("and to a screen reader", page.waits_for(lambda: "device 22 Fog machine is silent" in page.run(SPOKEN)))
    calls(page, before)
    check("with contrast", page.run(CONTRAST)[0] >= 7)
    if pictures:
        page.picture(pictures / "page-relay.png")
    page.run("document.getElementById('release-1-' + arguments[0]).focus()", 22)
    write_status(relay, {1: (3, False), 3: (13, False), 20: (4, False), 22: (8, True)})
    check("the words change", page.shows("heard-22", "heard 8 s ago"))
    check("and what has the focus keeps it", page.run("return document.activeElement.id") == "release-1-22")
    check("a relay that writes nothing new has stopped, and that is loud",
          page.shows("alarm-0", "the relay has stopped"))
    check("no device is shown as heard", page.waits_for(lambda: page.text("heard") == ""))
    write_status(relay, {4: (4, False)}, time.time_ns() // 10**6 + 3_600_000)
    check("a stamp of the future is that of a relay that writes", page.waits_for(
        lambda: "the relay has stopped" not in page.text("alarms")))
    check("and a stop of it is seen all the same", page.shows("alarm-0", "the relay has stopped"))
    check("the board stays", page.shows("stack", "Finale, all in") and page.text("age").startswith("read"))


SINCE = "const e = document.querySelector('#live .since b'); " \
        "return e && / s$/.test(e.textContent) ? parseFloat(getComputedStyle(e).fontSize) : 0"
ROWS = "return [...document.querySelectorAll('#live td[id^=heard-]')].filter(cell => cell.textContent !== '').length"
SPOKEN = "return document.getElementById('spoken').textContent"
LABELS = """return [...document.querySelectorAll('button')].map(b =>
  [b.id, b.getAttribute('aria-label') || b.textContent.trim()]);"""


def gives_up(page):
    """Cue 5, which waits for device 22, is given up, if that has not come by itself."""
    page.key(ESCAPE)
    check("it is given up", page.shows("live", "given up"))
    page.key("s")
    check("STANDBY is dark for what still has to let go", page.shows("words", "STANDBY is not lit: cue 5 is given up"))
    releases(page, 22)
    check("it ends once nobody waits for who is silent", ends(page, "5", "cancelled"))


def waits_for_22(page):
    """Cue 5 is stood by, and waits for device 22."""
    if "22" in page.text("live"):
        gives_up(page)
    goes_to(page, "5")
    stands_by(page)
    check("the cue waits for device 22", page.shows("live", "waiting for 22"))


def is_readable(page, evening, pictures):
    """Names and roles for a screen reader, and contrast, while something is stood by."""
    evening.play("--silent", "22")
    waits_for_22(page)
    names = page.run(LABELS)
    check("each button has a name", all(name for _, name in names))
    check("and no two the same", len({name for _, name in names}) == len(names))
    found = page.run("return ['main','header','footer','h1','h2'].every(t => document.querySelector(t))"
                     " && document.documentElement.lang === 'en' && document.title !== ''")
    check("there are landmarks, headings, a language and a title", found)
    roles = page.run("return [document.querySelector('#words').getAttribute('role'), document.querySelector('#spoken')"
                     ".getAttribute('aria-live'), "
                     "document.querySelector('[role=progressbar]').getAttribute('aria-label')]")
    check("refusals, stages and seconds reach a screen reader",
          roles == ["alert", "polite", "Seconds left for cue 5"])
    has_contrast(page, pictures)
    in_windows(page, pictures, lambda: waits_for_22(page))
    gives_up(page)
