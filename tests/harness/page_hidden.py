"""The page behind another tab, in a browser that slows what is out of sight, as a stage manager's does."""
import time

from browser import Browser
from checking import check
from page_evening import Evening

# What was told, and when: each change of the alarms.
WATCH = """
window.told = [];
let before = "";
const at = document.getElementById("alarms");
new MutationObserver(() => {
  if (at.innerText !== before) told.push([Date.now(), before = at.innerText]);
}).observe(document.body, { subtree: true, childList: true, characterData: true, attributes: true });
"""
HIDDEN = 60  # seconds: a browser slows a page some thirty after its last sound


def out_of_sight(desk, cuectl, folder, text):
    """Nothing untrue is told there, and an alarm is not late."""
    evening, page = Evening(desk, cuectl, folder, text), Browser(slows=True)
    try:
        evening.play()
        page.open(f"http://127.0.0.1:{evening.http}/")
        check("the page is there", page.waits_for(lambda: page.find("standby").is_enabled()))
        page.click("sound")
        page.run(WATCH)
        page.behind_another()
        time.sleep(HIDDEN)
        killed = time.time() * 1000
        evening.serve.kill()
        time.sleep(3)
        told = page.in_front("return window.told")
        check("out of sight it tells of nothing that is not so", [text for at, text in told if at < killed] == [])
        check("and an alarm within a second",
              told[:1] and "nobody listens" in told[0][1] and told[0][0] - killed < 1000)
    finally:
        page.close()
        evening.end()
