"""The file `copyright` of a package: its own licence, none yet, and those of the libraries of the kit in it."""
import re
import shutil
import subprocess
from pathlib import Path

ROOT = Path(__file__).resolve().parent.parent
BELOW = dict(re.findall(r"^(\w+)[^:\n]*:(.*)$", (ROOT / "crates.txt").read_text(), re.M))
TEXTS = ("LICENSE-MIT", "LICENSE", "LICENSE-UNICODE")  # of a library under two licences the one that we choose


def libraries(*crates):
    """The libraries of the kit that these crates stand on, also through others."""
    left, found = [*crates], set()
    while left:
        name = left.pop()
        if name not in found:
            found.add(name)
            left += BELOW.get(name, "").split()
    return sorted(found - BELOW.keys())


def kit():
    """Where the libraries of the kit stand, if it is on this machine."""
    if not shutil.which("rt"):
        return None
    said = subprocess.run(["rt", "doc"], stdout=subprocess.PIPE, check=True, text=True).stdout
    return Path(said.strip()).parent / "rattle"


def copyright_of(maintainer, *crates):
    """The text; each licence once, below the libraries that are under it."""
    text = (ROOT / "packaging" / "debian" / "copyright").read_text().replace("@MAINTAINER@", maintainer)
    place, texts = kit(), {}
    for name in libraries(*crates):
        given = [place / name / file for file in TEXTS if (place / name / file).exists()] if place else []
        if not given:
            print(f"the licence of {name} is not on this machine: the package does not have it")
        for file in given:
            texts.setdefault(file.read_text().strip(), []).append(name)
    return text + "".join(f"\n{'-' * 72}\n{', '.join(names)}:\n\n{licence}\n" for licence, names in texts.items())
