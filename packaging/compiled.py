"""Proves and builds what packages hold: the programs, and the libraries of devices.

For x86-64 the kit makes a whole program. For arm64 it proves a program and compiles it, and has no linker for it: so
Debian's gcc links the object, with packaging/arm64/runtime.c in place of what the kit has in C for x86-64.
"""
import shutil
import subprocess
import sys
import tempfile
from pathlib import Path

from architectures import ALL, AMD64, ARM64

ROOT = Path(__file__).resolve().parent.parent
RUNTIME = ROOT / "packaging" / "arm64" / "runtime.c"
NAMES = "cuectl", "cuedesk"
COMPILE = ["-std=c17", "-O2", "-fPIE", "-fstack-protector-strong", "-D_FORTIFY_SOURCE=2", "-Wall", "-Wextra",
           "-Wconversion", "-Wpedantic", "-Werror"]
LINK = ["-pie", "-Wl,-z,relro,-z,now,-z,noexecstack,-z,separate-code,--gc-sections,--as-needed,--fatal-warnings"]
TESTS = b"__asan_init"  # what only a program that was built for trials has


def is_older(made, crates):
    """Whether a file is missing, or older than the sources of these crates."""
    sources = [file for name in crates for file in (ROOT / "crates" / name / "src").rglob("*.rt")]
    return not made.exists() or made.stat().st_mtime <= max(file.stat().st_mtime for file in sources)


# ---- programs

def programs(architecture, is_trial, folder):
    """Copies both programs to a folder. They are proved and built first where they are missing or old."""
    for name in NAMES:
        built = linked(name) if architecture is ARM64 else launched(name, is_trial)
        shutil.copyfile(built, folder / name)
        (folder / name).chmod(0o755)
    return folder


def kept(name, architecture):
    """Where the proved program for a processor is kept."""
    return ROOT / "crates" / name / "out" / (architecture.name if architecture is ARM64 else ".") / name


def launched(name, is_trial):
    """A program for x86-64, by its launcher."""
    subprocess.run([ROOT / name, *["--unproved"] * is_trial, "--version"], stdout=subprocess.DEVNULL, check=True)
    built = ROOT / "crates" / name / "out" / "unproved" / name if is_trial else kept(name, AMD64)
    if not is_trial and TESTS in built.read_bytes():
        sys.exit(f"{built} was built without proofs")
    return built


def linked(name):
    """A proved program for arm64."""
    made, other = kept(name, ARM64), launched(name, False)  # which has all crates below it proved
    if not made.exists() or made.stat().st_mtime < max(path.stat().st_mtime for path in (RUNTIME, other)):
        made.parent.mkdir(exist_ok=True)
        link(proved_object(ROOT / "crates" / name), made)
    return made


def proved_object(crate):
    """The object of a program for arm64. The kit writes it once all is proved, and then fails, as it links."""
    made = crate / "out" / f"{crate.name}.o"
    made.unlink(missing_ok=True)
    done = subprocess.run(["rt", "run", "--target", ARM64.target, "--", "--version"], cwd=crate, text=True, check=False,
                          stdin=subprocess.DEVNULL, stdout=subprocess.PIPE, stderr=subprocess.STDOUT)
    if not made.exists():
        sys.exit(f"{done.stdout[-3000:]}\n{crate.name} was not compiled for arm64")
    return made


def link(compiled, made):
    """Links an object for arm64, with the functions that the kit has for x86-64 alone."""
    compiler = ARM64.tool("gcc")
    with tempfile.TemporaryDirectory() as folder:
        runtime = Path(folder) / "runtime.o"
        subprocess.run([compiler, *COMPILE, "-c", RUNTIME, "-o", runtime], check=True)
        subprocess.run([compiler, *LINK, compiled, runtime, "-o", made], check=True)


def linker():
    """What links programs for arm64 here."""
    said = subprocess.run([ARM64.tool("gcc"), "--version"], stdout=subprocess.PIPE, check=True, text=True).stdout
    return said.splitlines()[0]


# ---- libraries of devices

def proved_library(crate, target, kept):
    """Proves and builds the library of devices; the last target is the one that stays in out/."""
    done = subprocess.run(["rt", "lib", "--target", target], cwd=crate, stdout=subprocess.PIPE, text=True, check=False)
    if done.returncode:
        sys.exit(f"{done.stdout[-3000:]}\nthe library for {target} was not built")
    kept.parent.mkdir(exist_ok=True)
    shutil.copyfile(crate / "out" / "libcue_device_c.a", kept)


def libraries(is_trial, folder):
    """The proved library of devices for each processor; for a trial only what was built of these sources."""
    crate, found = ROOT / "crates" / "cue_device_c", {}
    for each in ALL.values():
        kept = crate / "out" / each.name / "libcue_device_c.a"
        if not is_trial:
            proved_library(crate, each.target, kept)
        if is_older(kept, ("cue_device_c", "cue_device", "cue_show", "cue_osc")):
            print(f"the proved library for {each.name} is not built: the package goes without it")
        else:
            found[each] = Path(shutil.copyfile(kept, folder / f"{each.name}.a"))
    return found
