"""Reads the texts of --help: what a program, and each of its commands, can be asked."""
import re
import subprocess
from dataclasses import dataclass, field


@dataclass
class Option:
    """An option: its names, as -h and --help; what it takes, as PORT, or nothing; and what it says."""
    names: list
    takes: str
    says: str


@dataclass
class Command:
    """A command, by its words from the program's name on."""
    words: list
    says: str
    usage: str
    arguments: list = field(default_factory=list)  # pairs: <DIR> or [FILE], and what it says
    options: list = field(default_factory=list)
    commands: list = field(default_factory=list)
    ends: list = field(default_factory=list)  # the paragraphs below all of these

    @property
    def name(self):
        return self.words[-1]


def said(program, *words):
    """What it prints: the same in every window and on every machine."""
    done = subprocess.run([*map(str, program), *words], stdout=subprocess.PIPE, stdin=subprocess.DEVNULL, check=True,
                          env={"LC_ALL": "C", "COLUMNS": "100", "PATH": "/usr/bin:/bin"})
    return done.stdout.decode()


def parts(text):
    """The heads of a text, as `Options`, each with its lines; the words around them stand below the empty head."""
    found, head = {"": []}, ""
    for line in text.splitlines():
        if named := re.fullmatch(r"(Usage|Arguments|Options|Commands):(.*)", line):
            head = named[1]
            found[head] = [named[2].strip()] if named[2] else []
        elif line.startswith(" "):
            found[head].append(line)
        elif line:
            found[""].append(line)
    return found


def rows(lines):
    """The rows of a list: what is named, and what is said of it."""
    return [re.split(r" {2,}", line.strip(), maxsplit=1) for line in lines]


def option(names, says):
    takes = re.search(r"<(\S+)>", names)
    return Option(re.findall(r"--?[\w-]+", names), takes[1] if takes else "", says)


def command(program, name, *words):
    """The command of these words, with all that stand below it; the program as the words that start it."""
    found = parts(said(program, *words, "--help"))
    says, *ends = found[""]
    made = Command([name, *words], says, " ".join(found["Usage"]), rows(found.get("Arguments", [])),
                   [option(*row) for row in rows(found.get("Options", []))], ends=ends)
    made.commands = [command(program, name, *words, below) for below, _ in rows(found.get("Commands", []))
                     if below != "help"]
    return made
