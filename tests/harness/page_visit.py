"""An evening in one window of a browser: its scenes, in order."""
import html
import time
from urllib.parse import quote

from browser import Browser
from checking import check
from page_guard import guards
from page_list import lists
from page_look import is_allowed, is_kept, sounded, sounds
from page_scenes import (begins, ends, fails, follows, gives, goes_back, goes_to, is_readable, is_refused, keys,
                         line_of_now, loses_power, prepares, second_tab, stand_by_together, stands_by_key)


def sends_nothing(page, evening):
    """Left alone, the page only reads."""
    before = evening.folder.joinpath("a.area").read_bytes(), evening.folder.joinpath("b.area").read_bytes()
    time.sleep(2)
    after = evening.folder.joinpath("a.area").read_bytes(), evening.folder.joinpath("b.area").read_bytes()
    check("left alone it sends nothing", before == after)
    kinds = page.run("return performance.getEntriesByType('resource').map(e => new URL(e.name).pathname)")
    check("and speaks with the desk alone", set(kinds) <= {"/board.json", "/command"})


def grows_old(page, evening):
    before = sounded(page)
    evening.stop("page")
    check("a page without its desk says that it is old", page.shows("age", "OLD", 2.5))
    check("and large", page.shows("alarm-0", "The desk does not answer"))
    check("and sounds", sounded(page) == before + 1)
    check("and has no GO", not page.find("go").is_enabled() and not page.find("standby").is_enabled())


def terminal_picture(page, text, path):
    """What the board prints, as a terminal shows it."""
    style = "background:#0b0d10;color:#eceff2;font:16px/1.3 'DejaVu Sans Mono',monospace;padding:14px;margin:0"
    page.driver.set_window_size(860, 560)
    body = f"<body style='margin:0'><pre style=\"{style}\">{html.escape(text)}</pre>"
    page.open("data:text/html;charset=utf-8," + quote(body))
    page.picture(path)


def keys_in_browser(evening):
    """A cue is given by the page, and each key is pressed; nothing here has to come within a second."""
    page = Browser()
    try:
        evening.play()
        begins(page, evening)
        gives(page, evening, "1")
        prepares(page, evening, None)
        line_of_now(page, evening)
        is_refused(page, evening)
        goes_to(page, "1")
        stands_by_key(page, "1")
        page.key(" ")
        check("the space bar is GO", ends(page, "1", "complete"))
        check("the browser has nothing against the page", page.complaints() == [])
    finally:
        page.close()


def in_browser(evening, pictures):
    address = f"http://127.0.0.1:{evening.http}/"
    page = Browser()
    try:
        evening.play()
        begins(page, evening)
        is_allowed(page)
        gives(page, evening, "1")
        prepares(page, evening, pictures)
        line_of_now(page, evening)
        is_refused(page, evening)
        keys(page, evening)
        goes_back(page, evening, pictures)
        stand_by_together(page, evening, pictures)
        fails(page, evening, pictures)
        loses_power(page, evening)
        second_tab(page, evening)
        follows(page, evening)
        lists(page, evening)
        sounds(page, evening)
        is_readable(page, evening, pictures)
        guards(page, evening)
        is_kept(page, address)
        sends_nothing(page, evening)
        grows_old(page, evening)
        check("the browser has nothing against the page", page.complaints() == [])
        if pictures:
            terminal_picture(page, evening.printed, pictures / "board.png")
    finally:
        page.close()
