"""Builds what is written in C: the library of devices, and programs on it."""
import re
import shlex
import subprocess
from pathlib import Path

HERE = Path(__file__).resolve().parent
ROOT = HERE.parent.parent
WARNINGS = ["-Wall", "-Wextra", "-Werror"]
SANITIZERS = ["-g", "-fsanitize=address,undefined", "-fno-sanitize-recover=undefined"]


def device_library(given=None):
    """The path of the given library, or of the proved one, which is proved and built where it is missing or old."""
    if given:
        return str(Path(given).resolve())
    crate = ROOT / "crates" / "cue_device_c"
    library = crate / "out" / "libcue_device_c.a"
    parts = [file for name in ("cue_device", "cue_device_c") for kind in ("src", "specs", "proofs")
             for file in (ROOT / "crates" / name / kind).rglob("*") if file.is_file()]
    if not library.exists() or library.stat().st_mtime < max(file.stat().st_mtime for file in parts):
        print("     proving and building crates/cue_device_c: some minutes", flush=True)
        subprocess.run(["rt", "lib"], cwd=crate, stdout=subprocess.DEVNULL, check=True)
        library.touch()
    return str(library)


def has_sanitizers(folder):
    """Whether the compiler and its libraries have them."""
    empty = Path(folder) / "empty.c"
    empty.write_text("int main(void) { return 0; }\n")
    words = ["cc", *SANITIZERS, str(empty), "-o", str(Path(folder) / "empty")]
    return subprocess.run(words, stderr=subprocess.DEVNULL, check=False).returncode == 0


def program(folder, name, *words):
    """A program of these files and flags, with every warning an error; its path."""
    made = str(Path(folder) / name)
    subprocess.run(["cc", "-O1", *WARNINGS, f"-I{ROOT / 'include'}", *map(str, words), "-o", made], check=True)
    return made


def winch(folder, library=None):
    """examples/winch.c over the library, built by the command that docs/DEVICES.md shows."""
    shown = re.search(r"^    (cc .* examples/winch\.c .*)$", (ROOT / "docs" / "DEVICES.md").read_text(), re.M).group(1)
    made, built = str(Path(folder) / "winch"), "crates/cue_device_c/out/libcue_device_c.a"
    words = [device_library(library) if word == built else word for word in shlex.split(shown)]
    subprocess.run([*words[:words.index("-o")], "-Werror", "-o", made], cwd=ROOT, check=True)
    return made
