"""What each package holds, and where: the one place that says it."""
import os
import re
import shutil
import subprocess
from pathlib import Path

import command_help
import completions
import first_evening
import handbook
import manuals

ROOT = Path(__file__).resolve().parent.parent
HERE = ROOT / "packaging"
UNITS = "usr/lib/systemd/system"
MAKER = "usr/share/doc/libcue-device-dev"
TESTER = "Plays the controller of cuectl against a device, and says which of its duties it breaks"


class Tree:
    """The files of a package for a processor, in a folder that stands for /."""

    def __init__(self, folder, architecture):
        self.folder, self.architecture = folder, architecture

    def place(self, to):
        made = self.folder / to
        made.parent.mkdir(parents=True, exist_ok=True)
        return made

    def text(self, to, text, mode=0o644):
        made = self.place(to)
        made.write_text(text)
        made.chmod(mode)

    def copy(self, source, to, mode=0o644):
        """Copies a file to a path, or below it where that ends with a slash."""
        made = self.place(to + Path(source).name if to.endswith("/") else to)
        shutil.copyfile(source, made)
        made.chmod(mode)
        return made

    def program(self, source, to):
        """A program without what only a debugger reads. The name of its build stays: with that section, strip takes
        away the segment that makes relocations read-only, too."""
        made = self.copy(source, to, 0o755)
        subprocess.run([self.architecture.tool("strip"), "--strip-unneeded", "-R", ".comment", made], check=True)

    def files(self):
        """All files and links, in the order of their paths."""
        return sorted(path for path in self.folder.rglob("*") if path.is_symlink() or path.is_file())


def fill(text, **words):
    """The text with these words in place of their marks."""
    for name, word in words.items():
        text = text.replace(f"@{name.upper()}@", word)
    return text


def pages_of(tree, folder):
    """The pages, each where its links find it."""
    listed = subprocess.run(["git", "ls-files", "*.md", "docs"], cwd=ROOT, stdout=subprocess.PIPE, check=True)
    for name in listed.stdout.decode().split():
        tree.copy(ROOT / name, f"{folder}/{name}")


def site(tree, folder):
    """The handbook, whose pictures are those of the pages."""
    if not shutil.which("pandoc"):
        print("pandoc is missing: the package goes without the handbook")
        return
    made = handbook.made(tree.place(f"{folder}/index.html").parent)
    for file in made.iterdir():
        if file.suffix == ".html":
            file.write_text(file.read_text().replace(f'="{handbook.PICTURES}/', '="../docs/pictures/'))
        file.chmod(0o644)


def units(tree):
    """The units, each service with the same hardening; the account; what they call."""
    for unit in sorted((HERE / "units").glob("cuectl*")):
        tree.copy(unit, f"{UNITS}/")
        if unit.suffix == ".service":
            tree.copy(HERE / "units" / "hardened.conf", f"{UNITS}/{unit.name}.d/")
    tree.copy(HERE / "sysusers.conf", "usr/lib/sysusers.d/cuectl.conf")
    for script in [*sorted((HERE / "scripts").iterdir()), ROOT / "tools" / "disk-room"]:
        tree.copy(script, "usr/libexec/cuectl/", 0o755)


def two_machines(tree):
    """What serves a show on one of two machines, and the resource of DRBD that a technician begins with."""
    for unit in sorted((HERE / "two-machines").glob("*.service")):
        tree.copy(unit, f"{UNITS}/")
    for script in ("show-here", "peer-is-off"):
        tree.copy(HERE / "two-machines" / script, "usr/libexec/cuectl/", 0o755)
    tree.copy(HERE / "two-machines" / "first.res", "usr/share/doc/cuectl/two-machines/")


def fly_floor(tree):
    """What gives a page that only shows to others."""
    tree.copy(HERE / "fly-floor" / "nginx.conf", "usr/share/doc/cuectl/fly-floor/")


def cuectl(tree, programs, version, date):
    """Both programs, their units, and what a stage manager reads."""
    for name in ("cuectl", "cuedesk"):
        tree.program(programs / name, f"usr/bin/{name}")
    around = tree.architecture.around
    asked = {name: command_help.command([*around, programs / name], name) for name in ("cuectl", "cuedesk")}
    for name, text in manuals.of_programs(asked["cuectl"], asked["cuedesk"], version, date).items():
        tree.text(f"usr/share/man/man1/{name}", text)
    for name, program in asked.items():
        tree.text(f"usr/share/bash-completion/completions/{name}", completions.bash(program))
        tree.text(f"usr/share/zsh/vendor-completions/_{name}", completions.zsh(program))
    units(tree)
    two_machines(tree)
    fly_floor(tree)
    tree.copy(ROOT / "examples" / "evening.toml", "usr/share/cuectl/")
    tree.text("usr/share/doc/cuectl/first-evening.html", first_evening.made())
    pages_of(tree, "usr/share/doc/cuectl")
    site(tree, "usr/share/doc/cuectl/handbook")


def device(tree, libraries, version, date):
    """What the maker of a device needs: the header, the libraries that there are, the C file, and the trials."""
    tree.copy(ROOT / "include" / "cue_device.h", "usr/include/")
    own = tree.architecture
    for each, library in libraries.items():
        place = own.libraries if each is own else f"usr/lib/cue-device/{each.name}"
        tree.copy(library, f"{place}/libcue_device_c.a")
    prefix, libdir = "${pcfiledir}/../../..", "${pcfiledir}/.."
    # without a library the C file itself stands in its place: one line builds a device with either
    libs = "-L${libdir} -lcue_device_c" if own in libraries else "${prefix}/share/cue-device/cue_device.c"
    tree.text(f"{own.libraries}/pkgconfig/cue_device.pc", fill(
        (HERE / "cue_device.pc").read_text(), prefix=prefix, libdir=libdir, libs=libs,
        version=re.split("[+~]", version)[0]))
    for name in ("device/cue_device.c", "docs/vectors.txt", "docs/device-table.csv"):
        tree.copy(ROOT / name, "usr/share/cue-device/")
    for name in ("table.h", "device.h", "calls.h"):
        tree.copy(ROOT / "device" / "acsl" / name, "usr/share/cue-device/acsl/")
    tester = ROOT / "tools" / "try-device"
    tree.text("usr/bin/cue-try-device", tester.read_text().replace("#!/usr/bin/env python3", "#!/usr/bin/python3", 1),
              0o755)
    shown = re.search(r'"""(.*?)"""', tester.read_text(), re.S)[1].replace("    try-device", "    cue-try-device")
    tree.text("usr/share/man/man1/cue-try-device.1",
              manuals.as_printed("cue-try-device", TESTER, shown.partition("\n\n")[2], version, date))
    for name in ("winch.c", "device.py", "plc_device.st"):
        tree.copy(ROOT / "examples" / name, f"{MAKER}/examples/", 0o644)
    for path in sorted((ROOT / "examples" / "osc").iterdir()):
        tree.copy(path, f"{MAKER}/examples/osc/", 0o644)
    for name in ("DEVICES.md", "PROTOCOL.md", "NETWORK.md"):
        tree.text(f"{MAKER}/docs/{name}", for_maker((ROOT / "docs" / name).read_text()))


# Where the package has what the pages of a maker link to.
PLACES = {
    "../include/cue_device.h": "/usr/include/cue_device.h",
    "../device/cue_device.c": "/usr/share/cue-device/cue_device.c",
    "../tools/try-device": "/usr/bin/cue-try-device",
    "device-table.csv": "/usr/share/cue-device/device-table.csv",
    "vectors.txt": "/usr/share/cue-device/vectors.txt",
    **{name: name for name in ("DEVICES.md", "PROTOCOL.md", "NETWORK.md", "../examples/winch.c",
                               "../examples/device.py", "../examples/plc_device.st", "../examples/osc")},
}


def for_maker(page):
    """A page with its links to what the package has, and its tester by the name that it has there; words in place of
    each other link."""
    def link(found):
        name, _, part = found[2].partition("#")
        if re.match(r"https?:", name):
            return found[0]
        place = PLACES.get(name) if name else ""
        return found[1] if place is None else f"[{found[1]}]({place}{'#' + part if part else ''})"
    page = re.sub(r"!\[[^]]*\]\([^)]*\)\n*", "", page)
    page = re.sub(r"\[([^]]*)\]\(([^)]*)\)", link, page)
    return re.sub(r"(?:python3 )?tools/try-device", "cue-try-device", page)


def settle(tree, seconds):
    """Every file and folder as old as the commit; folders that everybody may read."""
    for path in sorted(tree.folder.rglob("*"), reverse=True):
        if path.is_dir():
            path.chmod(0o755)
        os.utime(path, (seconds, seconds), follow_symlinks=False)
    tree.folder.chmod(0o755)
    os.utime(tree.folder, (seconds, seconds))
