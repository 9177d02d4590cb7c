"""Reads the little Markdown that the pages of this repository use: headings, words, lists, tables, and commands."""
import re
from pathlib import Path

ROOT = Path(__file__).resolve().parent.parent


def section(page, title):
    """The text below a heading, up to the next one of its rank or above it."""
    text = (ROOT / page).read_text()
    rank = re.search(rf"^(#+) {re.escape(title)}$", text, re.M)
    if not rank:
        raise SystemExit(f"{page} has no section {title}")
    return re.split(rf"^#{{1,{len(rank[1])}}} ", text[rank.end():], flags=re.M)[0].strip("\n") + "\n"


def kind_of(piece):
    if re.match(r" {4}|\n* {4}", piece):
        return "shown"
    if piece.startswith("#"):
        return "heading"
    if piece.startswith("|"):
        return "table"
    return "items" if re.match(r"- |\d+\. ", piece) else "words"


def pieces(text):
    """The parts of a text, each with its kind: heading, words, items, table or shown."""
    for piece in re.split(r"\n{2,}", text.strip("\n")):
        yield kind_of(piece), piece


def cells(table):
    """The rows of a table, with its head as the first."""
    rows = [re.split(r" ?(?<!\\)\| ?", line.strip().strip("|")) for line in table.splitlines()]
    return [[cell.strip() for cell in row] for row in (rows[:1] + rows[2:])]


def items(piece):
    """The points of a list, each as one line."""
    return [" ".join(point.split()) for point in re.split(r"^(?:- |\d+\. )", piece, flags=re.M)[1:]]


def without_links(text):
    """Words in place of links."""
    return re.sub(r"!?\[([^]]*)\]\([^)]*\)", r"\1", text)
