"""Makes of a tree a Debian package, or an archive for other systems: the same bytes each time."""
import gzip
import hashlib
import os
import re
import subprocess
import tarfile
from email.utils import formatdate

import contents
import licences

SCRIPTS = ("postinst", "prerm", "postrm")


def needed(tree):
    """What of glibc the programs call: its newest version; and whether they need libgcc."""
    programs = [path for path in tree.files() if path.parent.name == "bin" and path.read_bytes()[:4] == b"\x7fELF"]
    objdump = tree.architecture.tool("objdump")
    said = "".join(subprocess.run([objdump, "-p", path], stdout=subprocess.PIPE, check=True, text=True).stdout
                   for path in programs)
    versions = [tuple(map(int, found.split("."))) for found in re.findall(r" GLIBC_([\d.]+)$", said, re.M)]
    found = [f"libc6 (>= {'.'.join(map(str, max(versions)))})"] if versions else []
    return found + (["libgcc-s1"] if "libgcc_s.so.1" in said else [])


def control(tree, name, version, maintainer, fields, depends):
    """The file that says what the package is."""
    size = sum(-(-path.lstat().st_size // 1024) for path in tree.files())
    lines = {"Package": name, "Version": version, "Architecture": tree.architecture.debian, "Maintainer": maintainer,
             "Installed-Size": str(size), "Depends": ", ".join(depends), **fields}
    return "".join(f"{key}: {value}\n" for key, value in lines.items() if value)


def documents(tree, name, version, maintainer, crates, seconds):
    """Its licence, and its changelog, which says where the changes stand."""
    tree.text(f"usr/share/doc/{name}/copyright", licences.copyright_of(maintainer, *crates))
    date = formatdate(seconds)
    change = f"{name} ({version}) unstable; urgency=medium\n\n  * See CHANGELOG.md.\n\n -- {maintainer}  {date}\n"
    zipped(tree, f"usr/share/doc/{name}/changelog.gz", change.encode())
    for page in sorted(tree.folder.glob("usr/share/man/man1/*.1")):
        zipped(tree, f"usr/share/man/man1/{page.name}.gz", page.read_bytes())
        page.unlink()


def zipped(tree, to, data):
    tree.place(to).write_bytes(gzip.compress(data, 9, mtime=0))


def package(tree, name, text, seconds, out):
    """The package, of a tree that has all but what dpkg reads."""
    sums = "".join(f"{hashlib.md5(path.read_bytes()).hexdigest()}  {path.relative_to(tree.folder)}\n"
                   for path in tree.files())
    tree.text("DEBIAN/control", text)
    tree.text("DEBIAN/md5sums", sums)
    for script in SCRIPTS:
        source = contents.HERE / "debian" / f"{name}.{script}"
        if source.exists():
            tree.copy(source, f"DEBIAN/{script}", 0o755)
    contents.settle(tree, seconds)
    subprocess.run(["dpkg-deb", "--root-owner-group", "-Zxz", "--threads-max=1", "--build", tree.folder, out],
                   check=True, stdout=subprocess.DEVNULL, env={**os.environ, "SOURCE_DATE_EPOCH": str(seconds)})


def archive(tree, name, seconds, out):
    """The same for systems without dpkg, with install.sh beside usr/."""
    contents.settle(tree, seconds)

    def owned(entry):
        entry.uid = entry.gid = 0
        entry.uname = entry.gname = "root"
        return entry

    with open(out, "wb") as file, gzip.GzipFile("", "wb", 9, file, mtime=0) as packed:
        with tarfile.open(fileobj=packed, mode="w", format=tarfile.GNU_FORMAT) as tar:
            for path in sorted(tree.folder.rglob("*")):
                tar.add(path, f"{name}/{path.relative_to(tree.folder)}", recursive=False, filter=owned)
