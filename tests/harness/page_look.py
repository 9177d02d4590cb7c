"""How the page looks and sounds: themes, sizes of type, small windows, tones and the flash."""
import time

from checking import check

WINDOWS = ((640, 400), (683, 384), (800, 600), (820, 1180), (1180, 820), (390, 844), (844, 390))
SIZES = ("normal", "large", "largest")
# What is in sight in each window; with large type the button GO says who is waited for.
SEEN = ("#next", "#words", "#standby", "#cancel", "#go")
CARD = ("#live .attempt h3", "#live .waits")
HIDDEN = """
return arguments[0].filter(name => {
  const e = document.querySelector(name), r = e.getBoundingClientRect();
  return [r.top + 3, r.bottom - 3].some(y => y < 0 || y > innerHeight ||
    !e.contains(document.elementFromPoint(r.left + r.width / 2, y)));
});"""
AREAS = """return ['standby', 'cancel', 'go'].map(id => { const r = document.getElementById(id).getBoundingClientRect();
  return r.width * r.height; })"""
# Words that break in themselves: their boxes are higher than a line.
BROKEN = """return [...document.querySelectorAll('td.whole, td.answer, .small')].filter(e => e.textContent &&
  e.getClientRects().length && parseFloat(getComputedStyle(e).lineHeight) * 1.9 < (() => { const range =
  document.createRange(); range.selectNodeContents(e); return range.getBoundingClientRect().height; })())
  .map(e => e.textContent)"""
CONTRAST = """
const lum = (c) => { const f = c.map(v => { v /= 255; return v <= .03928 ? v / 12.92 : ((v + .055) / 1.055) ** 2.4; });
  return .2126 * f[0] + .7152 * f[1] + .0722 * f[2]; };
const rgb = (s) => s.match(/[\\d.]+/g).map(Number);
const ground = (e) => { for (; e; e = e.parentElement) { const c = rgb(getComputedStyle(e).backgroundColor);
  if (c.length === 3 || c[3] > 0) return c.slice(0, 3); } return [11, 13, 16]; };
const least = [];
for (const e of document.querySelectorAll('body *')) {
  if (![...e.childNodes].some(n => n.nodeType === 3 && n.textContent.trim()) || e.closest('script, .hidden')) continue;
  const a = lum(rgb(getComputedStyle(e).color).slice(0, 3)), b = lum(ground(e));
  least.push([(Math.max(a, b) + .05) / (Math.min(a, b) + .05), e.id || e.className || e.tagName, e.textContent.trim()]);
}
return least.sort((x, y) => x[0] - y[0])[0];"""


def set_to(page, setting, value):
    """Presses a button of the header until the page has this setting."""
    for _ in range(3):
        if page.run("return look[arguments[0]]", setting) != value:
            page.click(setting)
    check(f"the {setting} is {value}", page.run("return look[arguments[0]]", setting) == value)


def has_contrast(page, pictures):
    """Contrast in both themes."""
    for theme in ("light", "dark"):
        set_to(page, "theme", theme)
        least = page.run(CONTRAST)
        print(f"     the least contrast of the {theme} page is {least[0]:.1f} to 1 ({least[1]})")
        check(f"contrast of the {theme} page is at least 7 to 1", least[0] >= 7)
        if pictures and theme == "light":
            page.picture(pictures / "page-light.png")


def in_a_window(page, size, width, height):
    """What is waited for is in sight in a window."""
    names = SEEN + (CARD if size == "normal" else ())
    hidden = page.run(HIDDEN, names)
    check(f"in {width} by {height}, {size} type, what is next, live and waited for is in sight, but for {hidden}",
          hidden == [])
    if page.run("return chosenAttempt() !== undefined"):  # the ten seconds are not over
        check("GO says who is waited for", "waits for 22" in page.text("go-cue"))
    standby, cancel, go = page.run(AREAS)
    check("GO is no smaller than the others", go >= standby and go >= cancel)
    check("nothing is beside the window", page.run("return document.documentElement.scrollWidth <= innerWidth"))
    broken = page.run(BROKEN)
    check(f"no word of a button or of an answer breaks, but for {broken}", broken == [])


def in_windows(page, pictures, waits):
    """Each window, as a browser's zoom of 200 % and phones make it, with type of each size. A cue waits for device 22
    meanwhile: `waits` has one do so."""
    for size in SIZES:
        set_to(page, "size", size)
        page.sized()
        waits()
        if pictures and size != "normal":
            page.picture(pictures / f"page-{size}.png")
        for width, height in WINDOWS:
            page.sized(width, height)
            in_a_window(page, size, width, height)
            if pictures and (size == "normal" or (width, height) in WINDOWS[:3]):
                page.picture(pictures / f"page-{width}x{height}{'' if size == 'normal' else '-' + size}.png")
        page.sized()
    set_to(page, "size", "normal")


def is_kept(page, address):
    """The browser keeps how the page looks; where it has no storage, the address does."""
    set_to(page, "theme", "light")
    set_to(page, "size", "large")
    page.open(address)
    check("the look is kept", page.shows("stack", "Finale, all in") and
          page.run("return look.theme + ' ' + look.size") == "light large")
    page.run("Object.defineProperty(window, 'localStorage', { get() { throw new Error('none'); } })")
    page.click("theme")
    check("without a storage it stands in the address", page.run("return location.hash").endswith("theme=dark"))
    page.run("history.replaceState(null, '', location.pathname)")
    page.open(address)
    set_to(page, "theme", "dark")
    set_to(page, "size", "normal")


def is_allowed(page):
    """A sound wants a press first, where the browser says so; it can be turned off, and the page says that."""
    check("the page asks for a press before it sounds", page.text("sound") == "Press to allow sound")
    page.click("sound")
    check("then it sounds", page.shows("sound", "Sound on") and page.waits_for(lambda: sounded(page) == 1))
    page.click("sound")
    check("turned off, it says so", page.shows("sound", "Sound off"))
    page.click("sound")
    check("and on again", page.shows("sound", "Sound on"))


def sounded(page):
    """How often the page has sounded."""
    return page.run("return sounded")


def flash(page):
    return page.run("const e = document.getElementById('flash'), s = getComputedStyle(e); "
                    "return [e.className, s.animationName, s.opacity]")


def calls(page, before):
    """It called for something new, once."""
    check("it sounds", page.waits_for(lambda: sounded(page) == before + 1, 4))
    check("and flashes", "is-new" in flash(page)[0] and flash(page)[1] == "flash")
    time.sleep(3)
    check("once", sounded(page) == before + 1 and "is-new" not in flash(page)[0])


def is_still(page):
    """Who wants no motion has a steady frame in place of a flash."""
    still = [{"name": "prefers-reduced-motion", "value": "reduce"}]
    page.driver.execute_cdp_cmd("Emulation.setEmulatedMedia", {"features": still})
    check("without motion the frame is steady", page.waits_for(lambda: flash(page)[1:] == ["none", "1"], 3))
    page.driver.execute_cdp_cmd("Emulation.setEmulatedMedia", {"features": []})


def sounds(page, evening):
    """What calls: a dead serve and a desk that does not answer; a failure and a silent device are tried elsewhere."""
    before = sounded(page)
    evening.serve.kill()
    check("serve killed: it is said", page.waits_for(lambda: f"127.0.0.1:{evening.port}" in page.text("alarm-0"), 4))
    calls(page, before)
    is_still(page)
    evening.serves(evening.folder)
    check("no alarm, and no frame", page.waits_for(lambda: flash(page)[0] == ""))
