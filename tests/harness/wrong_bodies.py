"""The wrong bodies: what an edit changes, and in which function.

An edit is a file with a line 'file: PATH' and then pairs of lines 'old: TEXT' and 'new: TEXT'; its first line names a
function and the clauses that it breaks, as tests/tools/edits says.
"""
import re
from pathlib import Path

from paths import ROOT

HEAD = re.compile(r"([\w:]+), (`\w+`(?: or `\w+`)*)")
FUNCTION = re.compile(r"( *)(?:pub(?:\([a-z]+\))? )?(?:const )?(?:unsafe )?(?:extern \"C\" )?fn (\w+)")
CLAUSE = re.compile(r" *(ensures|requires|decreases|invariant)\b")


def module_of(path):
    """The names of a module by its file, as `memory::calls` of src/memory/calls.rt."""
    return [name for name in Path(path).with_suffix("").parts[1:] if name not in ("lib", "main")]


def name_of_type(words):
    return re.match(r"&?(?:mut )?(?:\w+::)*(\w+)", words.strip()).group(1)


def name_of_impl(head):
    """How the prover names what an impl is of: its type, and the trait after it. Where a type has a trait several times,
    as `From`, what the trait is of stands after that; it is not known here whether a macro wrote another."""
    head = head.removeprefix("impl").strip()
    if head.startswith("<"):
        depth, end = 0, 0
        for end, sign in enumerate(head):
            depth += (sign == "<") - (sign == ">")
            if depth == 0:
                break
        head = head[end + 1:].strip()
    of, is_trait, of_type = head.partition(" for ")
    return name_of_type(of_type) + name_of_type(of) if is_trait else name_of_type(of)


def impl_above(lines, at):
    """The impl that a method in this line stands in."""
    for begin in range(at, -1, -1):
        if lines[begin].startswith("impl"):
            return name_of_impl(" ".join(lines[begin:begin + 6]).split("{")[0])
    return ""


def span(lines, at, indent):
    """The first and the last line of the body of the function that begins in this line."""
    begin = at
    while lines[begin] != indent + "{" and (not lines[begin].endswith(" {") or CLAUSE.match(lines[begin])):
        begin += 1
        if begin == len(lines):
            return begin, begin
    end = begin
    while end < len(lines) and lines[end] != indent + "}":
        end += 1
    return begin, end


def function_at(path, text, at):
    """The function whose body has this place of a file, as the end of the name that the prover gives it: a method by its
    type, which may stand in another file, and else by its module. None outside of a function."""
    lines, line = text.split("\n"), text.count("\n", 0, at)
    for above in range(line, -1, -1):
        found = FUNCTION.match(lines[above])
        if found:
            begin, end = span(lines, above, found.group(1))
            of = [impl_above(lines, above)] if found.group(1) else module_of(path)
            return "::".join([*of, found.group(2)]) if begin < line < end else None
    return None


class Edit:
    """A wrong body, or a wrong definition."""

    def __init__(self, file):
        self.file = file
        self.crate = file.parts[-3] if file.parent.name == "must-fail" else file.parent.name
        self.label = f"{self.crate}/{file.stem}"
        self.text = file.read_text()
        head = HEAD.match(self.text)
        self.head = head.group(1).removeprefix(self.crate + "::") if head else None
        self.clauses = re.findall(r"\w+", head.group(2).replace(" or ", " ")) if head else []

    def pairs(self):
        """The file, the old text and the new one of each change."""
        path = old = None
        for line in self.text.split("\n"):
            if line.startswith("file: "):
                path = line[len("file: "):].strip()
            elif line.startswith("old: "):
                old = line[len("old: "):]
            elif line.startswith("new:"):
                yield path, old, line[len("new:"):].removeprefix(" ")

    def function(self):
        """The one function whose body it changes; None if it changes anything else."""
        found = set()
        for path, old, _ in self.pairs():
            text = (ROOT / "crates" / self.crate / path).read_text()
            at = text.find(old) + len(old) - len(old.lstrip())
            found.add(function_at(path, text, at) if path.startswith("src/") else None)
        return found.pop() if len(found) == 1 else None

    def names(self):
        """How the prover may name the function that it breaks: the one that it changes, or that its first line names."""
        changed, longer = self.function(), []
        for path, _, _ in self.pairs() if changed else ():
            text = (ROOT / "crates" / self.crate / path).read_text()
            of = re.findall(r"^impl(?:<[^{]*>)? (?:\w+::)*\w+<(\w+)> for ", text, re.M)
            longer += [re.sub(r"::(?=\w+$)", each + "::", changed) for each in of]
        return list(dict.fromkeys(filter(None, [changed, *longer, self.head])))

    def lay(self, crate):
        """Changes the files of a copy of the crate."""
        for path, old, new in self.pairs():
            file = crate / path
            text = file.read_text()
            if text.count(old) != 1:
                raise ValueError(f"{self.label}: its old text stands in {path} {text.count(old)} times")
            file.write_text(text.replace(old, new))


def second_set():
    return [Edit(file) for file in sorted((ROOT / "tests" / "more-must-fail").glob("*/*.edit"))]


def of_the_gate():
    return [Edit(file) for file in sorted((ROOT / "crates").glob("*/must-fail/*.edit"))]
