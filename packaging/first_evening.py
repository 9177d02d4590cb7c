"""The first evening of docs/OPERATING.md as a page to print, with the words of an installed program."""
import html
import re

import pages

HEAD = """\
<!DOCTYPE html>
<html lang="en">
<meta charset="utf-8">
<title>cuectl: the first evening</title>
<style>
  body { font: 11pt/1.4 serif; max-width: 44em; margin: 2em auto; padding: 0 1em; }
  pre { background: #eee; padding: .5em 1em; white-space: pre-wrap; }
  table { border-collapse: collapse; }
  td, th { border: 1px solid #999; padding: .3em .6em; text-align: left; vertical-align: top; }
  tr, pre, li { break-inside: avoid; }
  @page { size: A4; margin: 12mm; }
  @media print {
    body { font-size: 9pt; line-height: 1.22; margin: 0; max-width: none; padding: 0; }
    h1 { font-size: 14pt; margin: 0; }
    p, ul, ol, pre, table { margin: .35em 0; }
    pre { padding: .2em 1em; }
    td, th { padding: .15em .5em; }
  }
</style>
<h1>The first evening</h1>
"""


def words(text):
    """A line of text: its code and what is strong."""
    text = html.escape(" ".join(text.split()), quote=False)
    text = re.sub(r"`([^`]+)`", r"<code>\1</code>", text)
    return re.sub(r"\*([^*]+)\*", r"<em>\1</em>", re.sub(r"\*\*([^*]+)\*\*", r"<strong>\1</strong>", text))


def table(piece):
    head, *rows = pages.cells(piece)
    drawn = [f"<tr>{''.join(f'<{tag}>{words(cell)}</{tag}>' for cell in row)}</tr>"
             for tag, row in [("th", head), *(("td", row) for row in rows)]]
    return "\n".join(["<table>", *drawn, "</table>"])


def shown(piece):
    return f"<pre>{html.escape(re.sub(r'^ {4,7}', '', piece, flags=re.M), quote=False)}</pre>"


def listed(piece):
    """A list. What stands between its points, as a command, keeps their numbers going."""
    number = re.match(r"(\d+)\. ", piece)
    tag, begin = ("ol", f' start="{number[1]}"') if number else ("ul", "")
    return "\n".join([f"<{tag}{begin}>", *(f"<li>{words(point)}</li>" for point in pages.items(piece)), f"</{tag}>"])


def made():
    """The page."""
    text = pages.without_links(pages.section("docs/OPERATING.md", "The first evening"))
    text, count = re.subn(r"(?<=\*\*Once, some days before\.\*\*).*?in two hours\. Then, in a window:",
                          " In a window:", text, flags=re.S)
    if count != 1:
        raise SystemExit("docs/OPERATING.md does not say how the programs are had")
    if other := re.search(r"\w+\.md|\bsee \"|\bbelow\)", text):
        raise SystemExit(f"the first evening of docs/OPERATING.md sends its reader to another page: {other[0]}")
    text = text.replace("./cue", "cue").replace("examples/evening.toml", "/usr/share/cuectl/evening.toml")
    drawn = {"table": table, "shown": shown, "items": listed}
    return HEAD + "\n".join(drawn.get(kind, lambda piece: f"<p>{words(piece)}</p>")(piece)
                            for kind, piece in pages.pieces(text)) + "\n</html>\n"
