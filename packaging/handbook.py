"""The pages of this repository as one handbook: a site of HTML with a search and an index, made by pandoc."""
import html
import json
import re
import shutil
import subprocess
from pathlib import Path

import first_evening

ROOT = Path(__file__).resolve().parent.parent
# Who reads which pages, in order; the first page of all is what the handbook opens with.
PARTS = {
    "For everybody": ["README.md"],
    "For the stage manager": ["docs/OPERATING.md", "docs/LOG.md"],
    "For the technician": ["docs/NETWORK.md"],
    "For the maker of a device": ["docs/DEVICES.md", "docs/PROTOCOL.md"],
    "For those who want to know why": ["docs/PROOF.md", "docs/PROMISES.md", "docs/FORMAT.md",
                                       "docs/DECISIONS.md", "docs/RELATED.md"],
    "For contributors": ["CONTRIBUTING.md", "tests/README.md", "CHANGELOG.md"],
}
PAGES = [page for pages in PARTS.values() for page in pages]
EVENING = "first-evening.html"
PICTURES = "pictures"
HEADING = re.compile(r'<h([1-4]) id="([^"]+)">(.*?)</h\1>', re.S)


def site_name(page):
    """The file of a page in the site."""
    return "index.html" if page == PAGES[0] else Path(page).stem.lower() + ".html"


def plain(text):
    """What is read of a piece of HTML."""
    return " ".join(html.unescape(re.sub(r"<[^>]+>", " ", text)).split())


def linked(page, text):
    """The HTML of a page, with links to other pages where the site has them; what it does not have is named alone."""
    folder = (ROOT / page).parent

    def place(match):
        target, _, anchor = match[2].partition("#")
        if not target or re.match(r"[a-z]+:", target):
            return match[0]
        name = (folder / target).resolve().relative_to(ROOT).as_posix()
        if name in PAGES:
            return f'{match[1]}="{site_name(name)}{"#" + anchor if anchor else ""}"'
        if name.startswith("docs/pictures/"):
            return f'{match[1]}="{PICTURES}/{Path(name).name}"'
        return f'data-file="{html.escape(name)}"'

    return re.sub(r'(href|src)="([^"]*)"', place, text)


def body_of(page):
    """The body of a page."""
    made = subprocess.run(["pandoc", "--from=gfm", "--to=html5", "--wrap=none", ROOT / page],
                          stdout=subprocess.PIPE, check=True)
    return linked(page, made.stdout.decode())


def sections(page, body):
    """Each section of a page: its title, where it is, and its words."""
    heads = list(HEADING.finditer(body))
    for head, after in zip(heads, [*heads[1:], None]):
        text = body[head.end():after.start() if after else len(body)]
        yield {"page": site_name(page), "id": head[2], "title": plain(head[3]), "text": plain(text)}


def title_of(body):
    return plain(HEADING.search(body)[3])


def words_of(body):
    """The words that CONTRIBUTING.md explains, each with where it does."""
    start = re.search(r'<h2 id="(words)">', body)
    if not start:
        return
    part = re.split(r"<h2 ", body[start.end():])[0]
    for item in re.findall(r"<li>(?:<p>)?<strong>(.*?)</strong>", part):
        yield from ((word.strip(), "words") for word in plain(item).split(",") if word.strip())


def commands_of(page, body):
    """The commands that a page's tables explain, each with the section that it stands in."""
    for head, after in zip(heads := list(HEADING.finditer(body)), [*heads[1:], None]):
        text = body[head.end():after.start() if after else len(body)]
        for cell in re.findall(r"<tr[^>]*>\s*<td[^>]*>(.*?)</td>", text, re.S):
            for code in re.findall(r"<code>((?:cuedesk|cuectl) [a-z]+)", cell):
                yield code, head[2]


def sorted_as(word):
    """An entry as the alphabet has it: without its article."""
    return re.sub(r"^(a|an|the) ", "", word.lower())


def entries(bodies):
    """The index: each entry with all its places, by the alphabet."""
    found = {}
    for page, body in bodies.items():
        for section in sections(page, body):
            found.setdefault(section["title"].strip("`"), set()).add((site_name(page), section["id"]))
        for word, where in [*words_of(body), *commands_of(page, body)]:
            found.setdefault(word, set()).add((site_name(page), where))
    return sorted(found.items(), key=lambda entry: (sorted_as(entry[0]), entry[0]))


def index(bodies, titles):
    """The page of the index."""
    lines, letter = [], None
    for word, places in entries(bodies):
        first = sorted_as(word)[0].upper()
        first = first if first.isalpha() else "0-9"
        if first != letter:
            head = f'<h2 id="letter-{first.lower()}">{first}</h2><ul class="index">'
            lines.append(("</ul>" if letter else "") + head)
            letter = first
        where = ", ".join(f'<a href="{page}#{at}">{html.escape(titles[page])}</a>' for page, at in sorted(places))
        lines.append(f"<li>{html.escape(word)}: {where}</li>")
    return "<h1>Index</h1>" + "\n".join(lines) + "</ul>"


def contents(titles, here):
    """The list of all pages; the one that is here has no link."""
    lines = []
    for part, pages in PARTS.items():
        lines.append(f"<h2>{part}</h2><ul>")
        for page in pages:
            name = site_name(page)
            text = html.escape(titles[name])
            shown = f"<strong>{text}</strong>" if name == here else f'<a href="{name}">{text}</a>'
            lines.append(f"<li>{shown}</li>")
            if page == "docs/OPERATING.md":
                lines.append(f'<li><a href="{EVENING}">The first evening, to print</a></li>')
        lines.append("</ul>")
    lines.append('<h2>All</h2><ul><li><a href="terms.html">Index</a></li></ul>')
    return "\n".join(lines)


def framed(title, body, menu):
    """A page of the site."""
    return f"""<!DOCTYPE html>
<html lang="en">
<head>
<meta charset="utf-8">
<meta name="viewport" content="width=device-width, initial-scale=1">
<title>cuectl: {html.escape(title)}</title>
<link rel="stylesheet" href="handbook.css">
</head>
<body>
<nav aria-label="Pages">
<form role="search"><label for="search">Search</label> <input id="search" type="search" autocomplete="off"></form>
<ol id="found" aria-live="polite"></ol>
{menu}
</nav>
<main>
{body}
</main>
<script src="sections.js"></script>
<script src="search.js"></script>
</body>
</html>
"""


def made(folder):
    """Makes the site in a folder, but for its pictures."""
    folder.mkdir(parents=True, exist_ok=True)
    bodies = {page: body_of(page) for page in PAGES}
    titles = {site_name(page): title_of(body) for page, body in bodies.items()}
    for page, body in bodies.items():
        name = site_name(page)
        (folder / name).write_text(framed(titles[name], body, contents(titles, name)))
    (folder / "terms.html").write_text(framed("Index", index(bodies, titles), contents(titles, "terms.html")))
    (folder / EVENING).write_text(first_evening.made())
    told = [section for page, body in bodies.items() for section in sections(page, body)]
    (folder / "sections.js").write_text("const SECTIONS = " + json.dumps(told, ensure_ascii=False, indent=0) + ";\n")
    for name in ("handbook.css", "search.js"):
        shutil.copyfile(ROOT / "packaging" / "handbook" / name, folder / name)
    return folder


def pictured(folder):
    """Copies the pictures into the site."""
    (folder / PICTURES).mkdir(exist_ok=True)
    for picture in sorted((ROOT / "docs" / "pictures").glob("*.png")):
        shutil.copyfile(picture, folder / PICTURES / picture.name)


def whole(folder):
    """All pages as one, to print: each begins on a new sheet, after the contents."""
    parts = []
    for page in PAGES:
        body = re.sub(r' id="([^"]+)"', rf' id="{site_name(page)}-\1"', body_of(page))
        body = re.sub(r'href="([a-z]+\.html)(?:#([^"]*))?"',
                      lambda match: f'href="#{match[1]}{"-" + match[2] if match[2] else ""}"', body)
        parts.append(f'<section class="sheet" id="{site_name(page)}">{body}</section>')
    rows = []
    for part, pages in PARTS.items():
        rows.append(f"<h2>{part}</h2>")
        rows += [f'<p><a href="#{site_name(page)}">{html.escape(title_of(body_of(page)))}</a></p>' for page in pages]
    front = '<section class="front"><h1>cuectl: the handbook</h1>' + "\n".join(rows) + "</section>"
    one = folder / "whole.html"
    one.write_text('<!DOCTYPE html>\n<html lang="en"><head><meta charset="utf-8"><title>cuectl: the handbook</title>'
                   '<link rel="stylesheet" href="handbook.css"></head><body class="print">' + front + "\n".join(parts)
                   + "</body></html>\n")
    return one
