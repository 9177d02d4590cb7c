"""What must not mislead who looks at the page: a controller that is dead, silent or another one, replies that come late,
a desk that was stopped or started again, a cue whose ten seconds are over, two cues that are ready."""
import os
import shutil
import signal
import socket
import time

import model
import serving
from browser import ESCAPE, Browser
from checking import check
from page_evening import Evening
from page_scenes import chooses, ends, goes_to, is_lit, sees, stands_by

SHOW = """[[device]]
number = 3
port = {0}
name = "Winch 3"

[[device]]
number = 4
port = {1}
name = "Winch 4"

[[cue]]
number = "1"
name = "Storm"
parts = [ {{ device = 3 }} ]

[[cue]]
number = "2"
name = "Calm"
parts = [ {{ device = 4 }} ]
"""


class Controller:
    """A controller that is none: it answers what it is told to answer, at the port of the evening."""

    def __init__(self, evening, status):
        self.wire = socket.socket(socket.AF_INET, socket.SOCK_DGRAM)
        self.wire.bind(("127.0.0.1", evening.port))
        self.wire.settimeout(0.02)
        self.status, self.asked = status, []

    def plays(self, seconds, until=lambda: False):
        """Answers each question for the status; what else is asked is kept with the port that it came from."""
        end = time.monotonic() + seconds
        while time.monotonic() < end and not until():
            try:
                data, sender = self.wire.recvfrom(4096)
            except socket.timeout:
                continue
            if data.startswith(b"/status\0"):
                self.wire.sendto(self.status, sender)
            else:
                self.asked.append((data[:data.index(b"\0")].decode(), sender))
        return until()

    def replies(self, asked, made):
        address, sender = asked
        self.wire.sendto(model.reply(address.encode(), made, 0, 1 - made, 0 if made else 13), sender)

    def close(self):
        self.wire.close()


# Whether the seconds that are left stand out, and are large.
IS_SOON = ("const e = document.querySelector('.left .soon'); "
           "return e !== null && parseFloat(getComputedStyle(e).fontSize) >= 20")


def stood_by(page, evening, cue):
    evening.play()
    goes_to(page, cue)
    stands_by(page)
    check("GO lights", is_lit(page, cue))


def dark(page):
    return not page.find("go").is_enabled() and not page.find("standby").is_enabled()


def was_seen(page, fault):
    """The fault is an alarm until somebody says that it was seen."""
    check(f"an alarm says so: {fault}", page.shows("alarms", fault))
    check("seen, it is none", sees(page))


def dies(page, evening):
    """serve is killed between STANDBY and GO."""
    stood_by(page, evening, "1")
    evening.serve.kill()
    check("serve killed: GO and STANDBY are dark within two seconds", page.waits_for(lambda: dark(page), 2.0))
    check("and it is said large", page.waits_for(lambda: f"127.0.0.1:{evening.port}" in page.text("alarm-0"), 2.0))
    page.key(" ")
    check("the space bar says why", page.shows("words", "GO is not lit: "))
    evening.serves(evening.folder)
    check("serve there again: the cue is cancelled, and why", ends(page, "1", "cancelled: the controller was started again"))
    check("STANDBY is lit again", page.waits_for(lambda: page.find("standby").is_enabled()))
    check("and no alarm", page.waits_for(lambda: not page.find("alarms").is_displayed()))


def over(page, evening):
    """serve is stopped while a cue is ready, until its ten seconds are over."""
    stood_by(page, evening, "1")
    evening.serve.hold()
    check("serve silent: dark within three seconds", page.waits_for(lambda: dark(page), 3.0))
    page.key(" ")
    words = "GO is not lit: serve does not answer"
    check("the space bar says why it is dark", page.shows("words", words))
    time.sleep(1)
    check("and the line stays, in the words of now", words in page.text("words"))
    check("its ten seconds run out", page.shows("live", "its ten seconds are over", 12))
    check("and it is not called ready", "GO can be given" not in page.text("live"))
    evening.serve.go_on()
    check("then it is cancelled", ends(page, "1", "cancelled"))
    was_seen(page, "ten seconds passed")


def another(page, evening, work):
    """Another store is served at the port."""
    other = work / "other"
    shutil.copytree(evening.folder, other)
    evening.serve.kill()
    evening.serves(other)
    check("the other store goes on", evening.tells("goto", "2"))
    check("another store is served: dark", page.waits_for(lambda: dark(page), 3.0))
    check("and it is said", page.shows("alarm-0", f"these files are not those of the serve at port {evening.port}", 4))
    evening.serve.kill()
    evening.serves(evening.folder)
    check("its own again: STANDBY is lit", page.waits_for(lambda: page.find("standby").is_enabled()))


def two_ready(page, evening):
    """GO is for the cue that is chosen, and after it for none."""
    stood_by(page, evening, "1")
    check("another one from a terminal", evening.tells("standby", "2"))
    check("both are ready", page.waits_for(lambda: page.text("live").count("ready, GO can be given") == 2))
    check("GO stays that of the first", page.text("go-cue") == "cue 1")
    chooses(page, "2")
    check("chosen, GO is that of the second", is_lit(page, "2"))
    page.key(" ")
    page.key(" ")
    page.key(" ")
    check("it is given", page.shows("words", "GO given for cue 2"))
    time.sleep(1.0)
    check("a nervous hand gives no other", [a["stage"] for a in evening.view()["live"] if a["cue"] == "1"] == ["ready"])
    check("GO is dark until a cue is chosen", not page.find("go").is_enabled())
    chooses(page, "1")
    page.key(" ")
    check("then it is given", ends(page, "1", "complete"))


def two_at_once(page, evening):
    """GO less than a second after another one gives nothing, although a cue was chosen meanwhile, and says so."""
    stood_by(page, evening, "1")
    check("another one from a terminal", evening.tells("standby", "2"))
    check("both are ready", page.waits_for(lambda: page.text("live").count("ready, GO can be given") == 2))
    begun = time.monotonic()
    page.key(" ")
    chooses(page, "2")
    page.key(" ")
    check("the second GO came within a second", time.monotonic() - begun < 1.0)
    check("it is said that it gave nothing", page.shows("words", "Cue 2 was not given: press GO again", 1))
    check("and so it is", [a["stage"] for a in evening.view()["live"] if a["cue"] == "2"] == ["ready"])
    time.sleep(1.0)
    page.key(" ")
    check("the next GO gives it", ends(page, "1", "complete") and ends(page, "2", "complete"))


def open_go(page, evening):
    """GO is pressed while serve is held: it is open, and can be called off."""
    stood_by(page, evening, "1")
    evening.serve.hold()
    page.key(" ")
    check("the GO is open", page.shows("words", "nobody has replied", 1))
    check("its card says so", page.shows("live", "GO is pressed, and open", 1))
    check("and asks for no choice", "Choose for GO" not in page.text("live"))
    check("CANCEL is lit for it", page.waits_for(lambda: page.find("cancel").is_enabled(), 0.8))
    page.key(ESCAPE)
    check("and is sent", page.shows("words", "CANCEL of cue 1", 1))
    evening.serve.go_on()
    check("what became of the GO is told beside it", page.shows("words", "; before it, GO", 3)
          and page.shows("words", "; before it, GO given for cue 1", 3))
    check("the GO came first", "refused: " in page.text("words") and ends(page, "1", "complete"))


def open_go_again(page, evening):
    """GO is pressed again while one is open: the line says that one is, and asks for no choice."""
    stood_by(page, evening, "1")
    check("the end of the STANDBY was told before", "before it" not in page.text("words"))
    evening.serve.hold()
    page.key(" ")
    check("the GO is open", page.shows("words", "nobody has replied", 1))
    time.sleep(1.1)
    page.key(" ")
    check("one more is not lit, and why", page.shows("words", "GO of cue 1 is open still", 1))
    evening.serve.go_on()
    check("it is given", ends(page, "1", "complete"))


def killed_open(page, evening):
    """serve is killed while a GO is open: what was sent to it is carried out no more."""
    stood_by(page, evening, "1")
    evening.serve.hold()
    page.key(" ")
    check("the GO is open", page.shows("words", "nobody has replied", 1))
    check("the silent serve may still give it", page.shows("live", "held, GO may still be given", 4))
    evening.serve.kill()
    check("a dead one gives it no more", page.waits_for(lambda: "may still be given" not in page.text("live"), 1))
    check("and GO is dark", "GO is dark" in page.text("live") and dark(page))
    evening.serves(evening.folder)
    check("serve there again: the cue is cancelled", ends(page, "1", "cancelled: the controller was started again"))
    check("and the GO was not carried out", page.shows("words", "the store shows that it was not carried out", 3))


def gone(page, evening):
    """The folder is moved away while a cue is ready: nothing is lit, and nothing is said of what cannot be seen."""
    stood_by(page, evening, "1")
    away = evening.folder.with_name("away")
    evening.folder.rename(away)
    check("an alarm, and GO is dark", page.waits_for(lambda: dark(page) and "not there" in page.text("alarms"), 0.6))
    check("it is not said to be made", page.shows("words", "whether the cue still stands by cannot be seen", 0.2))
    away.rename(evening.folder)
    check("there again: GO is lit", is_lit(page, "1"))
    check("and the STANDBY is made", page.shows("words", "STANDBY given for cue 1"))
    page.key(" ")
    check("it is given", ends(page, "1", "complete"))


def end_of_stack(page, evening):
    """A standby that is cancelled after the last cue makes no cue 1 next."""
    evening.play()
    goes_to(page, "2")
    stands_by(page)
    check("GO lights", is_lit(page, "2"))
    page.click("go")
    check("the last cue is given", ends(page, "2", "complete"))
    check("none is next", page.shows("next", "the stack is at its end") and not page.find("standby").is_enabled())
    check("a cue is stood by from a terminal", evening.tells("standby", "1"))
    check("and given up", evening.tells("cancel", "1") and ends(page, "1", "cancelled"))
    time.sleep(0.6)
    check("none is next still", "the stack is at its end" in page.text("next"))
    page.key("s")
    time.sleep(0.4)
    check("and S stands none by", evening.view()["live"] == [])


def stopped_desk(page, evening):
    """The desk is stopped, and GO is pressed meanwhile."""
    stood_by(page, evening, "1")
    os.kill(evening.page.pid, signal.SIGSTOP)
    page.key(" ")
    check("a page without views is dark in a second", page.waits_for(lambda: dark(page), 1.6))
    check("and its card says of when it is", page.shows("live", "was preparing when this was read", 0.3))
    time.sleep(1.0)
    os.kill(evening.page.pid, signal.SIGCONT)
    check("the press was not sent", page.shows("words", "not sent: ", 3))
    time.sleep(0.5)
    given = [attempt for attempt in evening.view()["live"] if attempt["stage"] == "given"]
    check("and the cue is not given", given == [] and "complete" not in page.text("last"))
    check("its last three seconds are told apart", page.waits_for(lambda: page.run(IS_SOON)))
    check("and once by a tone", page.run("return endsSoon.size") == 1)
    check("it runs out", ends(page, "1", "cancelled"))
    was_seen(page, "ten seconds passed")


def started_again(page, evening):
    """The desk is started again: the page loads itself."""
    page.run("window.isOld = true")
    evening.stop("page")
    check("dark", page.waits_for(lambda: dark(page), 1.6))
    evening.start_page()
    check("the page loads itself again", page.waits_for(lambda: page.run("return !window.isOld"), 5))
    check("it is lit", page.waits_for(lambda: page.find("standby").is_enabled(), 5))
    evening.read_token()
    stood_by(page, evening, "1")
    page.key(" ")
    check("and its presses are carried out", ends(page, "1", "complete"))
    stood_by(page, evening, "1")
    evening.serve.hold()
    page.key(" ")
    check("a GO is open", page.shows("words", "nobody has replied", 1))
    page.run("window.isOld = true")
    evening.stop("page")
    evening.start_page()
    check("the page loads itself again", page.waits_for(lambda: page.run("return !window.isOld"), 5))
    check("and still says that it was open", page.shows("words", "was open when the desk was started again", 3))
    evening.serve.go_on()
    check("which the store shows", ends(page, "1", "complete"))
    evening.read_token()


def late_reply(page, evening):
    """A reply to one press that comes after the next one was made."""
    goes_to(page, "1")
    ears = serving.Ears(evening.serve)
    ears.say(model.message("/status"))
    status = ears.hear("/status")
    ears.close()
    evening.serve.kill()
    fake = Controller(evening, status)
    check("the status agrees", fake.plays(5, lambda: page.find("standby").is_enabled()))
    page.key("s")
    check("the first press comes", fake.plays(2, lambda: len(fake.asked) == 1))
    check("it is open", fake.plays(1, lambda: "open: nobody has replied" in page.text("words")))
    check("and nothing else can be pressed", not page.find("standby").is_enabled())
    check("until the store says what became of it", fake.plays(6, lambda: page.find("standby").is_enabled()))
    check("which is said", page.shows("words", "no reply came, and the store does not show it"))
    page.key("s")
    check("the second press comes, from another port",
          fake.plays(2, lambda: len(fake.asked) == 2) and fake.asked[0][1] != fake.asked[1][1])
    fake.replies(fake.asked[0], 1)
    fake.plays(0.5)
    check("the late reply to the first is not shown for it", "given for" not in page.text("words"))
    fake.replies(fake.asked[1], 0)
    check("its own reply is", fake.plays(2, lambda: "refused" in page.text("words")))
    page.key("s")
    check("the third press comes", fake.plays(2, lambda: len(fake.asked) == 3))
    fake.replies(fake.asked[2], 1)
    check("a word without a store is a word", fake.plays(1, lambda: "the store does not show it yet" in page.text("words")))
    check("and an alarm after a second", fake.plays(3, lambda: "and the store does not show it" in page.text("alarms")))
    check("it is never called made", "given for" not in page.text("words"))
    fake.close()
    evening.serves(evening.folder)
    check("serve is there again", page.waits_for(lambda: page.find("standby").is_enabled()))


def short_hazards(desk, cuectl, work):
    """Those that the gate runs: GO without the store, beside a dead controller, and beside a desk that is stopped."""
    played(desk, cuectl, work, (gone, dies, stopped_desk))


def hazards(desk, cuectl, work):
    """Each of them."""
    played(desk, cuectl, work, (dies, over, two_ready, two_at_once, open_go, open_go_again, killed_open, gone, end_of_stack,
                                stopped_desk, started_again, late_reply, lambda page, evening: another(page, evening, work)))


def played(desk, cuectl, work, scenes):
    """These scenes in order, on a show of two cues."""
    text = SHOW.format(serving.device_port(18), serving.device_port(19))
    (work / "hazards").mkdir()
    evening, page = Evening(desk, cuectl, work / "hazards", text), Browser()
    try:
        page.open(f"http://127.0.0.1:{evening.http}/")
        evening.read_token()
        check("the page is there", page.shows("stack", "Storm"))
        for scene in scenes:
            scene(page, evening)
        check("the browser has nothing against the page", page.complaints() == [])
    finally:
        page.close()
        evening.end()

