"""The tests over public calls, and how they are tried: in a repository of the crates here, without any proof.

tests/calls has a folder for each crate of tests; tests/calls/stands_on.txt says what each stands on. `rt try --test`
compiles them with a check in place of each proof: of each index, overflow, division and `unwrap`. Several are compiled
as the modules of one crate, since each would compile all that it stands on. The texts end in `.rattle`, since the gate
stops at an `.rt` that no check reads.
"""
import re
import shutil
import subprocess
from pathlib import Path

ROOT = Path(__file__).resolve().parent.parent.parent
CALLS = ROOT / "tests" / "calls"
EVENINGS = "cue_evening_of_the_desk_tests"  # by tests/runs/evenings-of-the-desk
SPELLED = "cue_spelled"
PROGRAM = CALLS / SPELLED / "program.rattle"  # a module of `cuectl`: no crate can stand on a program
TRIED = "cue_tried_calls"  # the crate whose modules are crates of tests
TOP = "#![tactic(auto)]\n"  # what a crate begins with, and no module


def listed():
    """What each crate of tests stands on, by its name."""
    return dict(re.findall(r"^(\w+): *(.*)$", (CALLS / "stands_on.txt").read_text(), re.M))


def names():
    """The crates of tests that tests/runs/calls tries."""
    return sorted(set(listed()) - {EVENINGS})


def texts(name):
    return sorted(text for text in (CALLS / name).rglob("*.rattle") if text != PROGRAM)


def wanted(files):
    """How many tests stand in these texts."""
    return sum(file.read_text().count("#[test]") for file in files)


def write(path, text):
    path.parent.mkdir(parents=True, exist_ok=True)
    path.write_text(text)


def add(source, name):
    """Adds a crate of tests as a module: its root is the module's file, and its paths begin there."""
    for text in texts(name):
        within = text.relative_to(CALLS / name).with_suffix(".rt")
        path = source / f"{name}.rt" if within == Path("lib.rt") else source / name / within
        write(path, text.read_text().replace(TOP, "").replace("crate::", f"crate::{name}::"))


def repository(top, chosen):
    """Makes a repository in the folder: the crates here, as they are, and TRIED, whose modules are the chosen ones."""
    top, below = Path(top), {library for name in chosen for library in listed()[name].split()}
    shutil.copytree(ROOT / "crates", top / "crates", ignore=shutil.ignore_patterns("out", "must-fail", "proofs"))
    shutil.copy(ROOT / "HANDLES", top)
    write(top / "crates.txt", f"{(ROOT / 'crates.txt').read_text()}{TRIED}: {' '.join(sorted(below))}\n")
    source = top / "crates" / TRIED / "src"
    write(source / "lib.rt", TOP + "".join(f"#[cfg(test)]\nmod {name};\n" for name in chosen))
    for name in chosen:
        add(source, name)


def tried(top, crate=TRIED, seconds=300):
    """Tries the tests of a crate of that repository; the paths of those that passed, whether all did, what was said."""
    done = subprocess.run(["rt", "try", "--test", "--seconds", str(seconds)], cwd=Path(top) / "crates" / crate,
                          stdin=subprocess.DEVNULL, stdout=subprocess.PIPE, stderr=subprocess.STDOUT, check=False)
    said = done.stdout.decode(errors="replace")
    return re.findall(r"^test (\S+) \.\.\. ok", said, re.M), done.returncode == 0, said
