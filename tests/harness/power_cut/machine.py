"""A small virtual machine: a kernel, a few programs in memory, and one disk, which an NBD server of ours is."""
import functools
import os
import re
import shutil
import socket
import subprocess
import time
from pathlib import Path

HERE = Path(__file__).resolve().parent
DRIVERS = ("crc32c_generic", "virtio_pci", "virtio_console", "virtio_blk")
TOOLS = ("sh", "cp", "mv", "mkdir", "rm", "sync", "sleep", "cat")
QEMU = "qemu-system-x86_64"


class Missing(Exception):
    """What a machine needs and what is not here."""


# ---- a kernel and its modules

def kernel(folder):
    """The image of a kernel and the folder of its modules: the one that is installed, else Debian's, fetched once."""
    for root in (Path("/"), Path(folder)):
        for image in sorted(root.glob("boot/vmlinuz-*"), reverse=True):
            modules = root / "lib" / "modules" / image.name.removeprefix("vmlinuz-")
            if modules.is_dir():
                return image, modules
    fetch(Path(folder))
    return kernel(folder)


def fetch(folder):
    print("     fetching a kernel by apt-get download", flush=True)
    folder.mkdir(parents=True, exist_ok=True)
    asked = subprocess.run(["apt-cache", "depends", "linux-image-cloud-amd64"], capture_output=True, text=True)
    name = re.search(r"Depends: (linux-image-[\w.+-]+)", asked.stdout)
    if name:
        subprocess.run(["apt-get", "download", name[1]], cwd=folder, capture_output=True)
    for package in folder.glob("linux-image-*.deb"):
        subprocess.run(["dpkg-deb", "-x", package, folder], check=True)
        package.unlink()
    if not list(folder.glob("boot/vmlinuz-*")):
        raise Missing("a kernel: none in /boot, and apt-get download gives none")


def modules(folder, more):
    """The files of the drivers, and more, in the order in which they are loaded, each after those that it needs."""
    files = {file.name.split(".ko")[0].replace("-", "_"): file for file in Path(folder).glob("kernel/**/*.ko*")}
    order = []

    def add(name):
        if name in files and name not in order:
            needed = re.search(rb"\0depends=([^\0]*)\0", plain(files[name]))[1].decode()
            for other in filter(None, needed.split(",")):
                add(other.replace("-", "_"))
            order.append(name)

    for name in (*DRIVERS, *more):
        add(name)
    return {f"{name}.ko": plain(files[name]) for name in order}


@functools.lru_cache(maxsize=None)
def plain(file):
    """The bytes of a module, which may be compressed."""
    tool = {".xz": "xz", ".zst": "zstd", ".gz": "gzip"}.get(file.suffix)
    return subprocess.run([tool, "-dc", file], capture_output=True, check=True).stdout if tool else file.read_bytes()


# ---- what is in memory

def libraries(program):
    """The files that a program is linked to, by their paths."""
    printed = subprocess.run(["ldd", program], capture_output=True, text=True).stdout
    return {path: Path(path).read_bytes() for path in re.findall(r"(/[\w./+-]+) \(0x", printed)}


def archive(files):
    """A newc archive of these files, each a name and its bytes, with the folders around them."""
    out, folders = [], {"dev", "proc", "sys", "mnt", "tmp"}
    for name in files:
        folders |= {str(parent) for parent in Path(name).parents} - {"."}
    entries = [(name, 0o040755, b"") for name in sorted(folders)]
    entries += [(name, 0o100755, data) for name, data in files.items()]
    for number, (name, mode, data) in enumerate([*entries, ("TRAILER!!!", 0, b"")], 1):
        fields = (number, mode, 0, 0, 1, 0, len(data), 0, 0, 0, 0, len(name) + 1, 0)
        head = b"070701" + b"".join(b"%08x" % field for field in fields) + name.encode() + b"\0"
        out.append(head + b"\0" * (-len(head) % 4) + data + b"\0" * (-len(data) % 4))
    return b"".join(out)


def built(folder, name, source, *flags):
    made = Path(folder) / name
    subprocess.run(["cc", "-O2", *flags, "-o", made, HERE / source], check=True)
    return made.read_bytes()


def memory(folder, kernel_modules, kind, programs, stores):
    """The archive that the machine begins with, for a kind of file system. `programs` are paths by their names; the
    files of `stores` are in /store."""
    files = {"init": built(folder, "init", "guest.c", "-static"),
             "lib/drop_syncs.so": built(folder, "drop_syncs.so", "drop_syncs.c", "-shared", "-fPIC")}
    files |= {f"store/{name}": data for name, data in stores.items()}
    for name, path in [*((tool, shutil.which(tool)) for tool in TOOLS), *programs.items()]:
        files[f"bin/{name}"] = Path(path).read_bytes()
        files |= {library.lstrip("/"): data for library, data in libraries(path).items()}
    loaded = modules(kernel_modules, [kind])
    files |= {f"modules/{name}": data for name, data in loaded.items()}
    files["modules/list"] = "".join(f"/modules/{name}\n" for name in loaded).encode()
    made = Path(folder) / "memory.cpio"
    made.write_bytes(archive(files))
    return made


# ---- what can be asked

class Place:
    """Where a disk can be mounted at `root` and programs run; guest.c says what its words are."""

    root, printed = Path("/mnt"), Path("/tmp/printed")
    held = bytearray()

    def __enter__(self):
        return self

    def __exit__(self, *_):
        self.end()

    def line(self, seconds):
        self.wire.settimeout(seconds)
        while b"\n" not in self.held:
            try:
                got = self.wire.recv(1 << 20)
            except OSError as why:
                raise RuntimeError(f"the machine does not answer: {why}: {self.said()}")
            if not got:
                raise RuntimeError(f"the machine has ended: {self.said()}")
            self.held = self.held + got
        line, _, rest = bytes(self.held).partition(b"\n")
        self.held = bytearray(rest)
        return line.decode()

    def said(self):
        return ""

    def ask(self, words, seconds=300):
        """The text after `ok`, or none after `no`."""
        self.wire.sendall(words.encode() + b"\n")
        answer = self.line(seconds)
        self.why = answer[3:]
        return answer[3:] if answer.startswith("ok") else None

    def sh(self, command):
        """What a command printed, and its status."""
        status, _, printed = self.ask(f"sh {command}").partition(" ")
        return bytes.fromhex(printed).decode(errors="replace"), int(status)

    def do(self, command):
        printed, status = self.sh(command)
        if status:
            raise RuntimeError(f"{command}: status {status}: {printed}")

    def start(self, command):
        """The number of a process that runs on; what it prints goes to the file `printed`."""
        return int(self.ask(f"start {self.printed} {command}"))

    def stop(self, process):
        self.ask(f"stop {process}")

    def mount(self):
        """None, or why it cannot be mounted."""
        return None if self.ask(f"mount {self.device} {self.kind}") is not None else os.strerror(int(self.why))

    def unmount(self):
        end = time.monotonic() + 20
        while self.ask("umount") is None:
            if time.monotonic() > end:
                raise RuntimeError("the disk cannot be unmounted")

    def say(self, port, to, data):
        self.ask(f"say {port} {to} {data.hex()}")

    def hear(self, port, seconds):
        """The next datagram at a port; none if none comes in time."""
        heard = self.ask(f"hear {port} {int(seconds * 1000)}")
        return None if heard is None else bytes.fromhex(heard)

    def read(self, file):
        """The bytes of a file, or why it cannot be read."""
        found = self.ask(f"read {file}")
        return os.strerror(int(self.why)) if found is None else bytes.fromhex(found)


# ---- a virtual machine

def acceleration():
    """KVM if this processor has it. Else it is some ten times slower, and its clock goes by the instructions that were
    carried out: so a cue's ten seconds do not pass while other processes have the processor."""
    words = set(Path("/proc/cpuinfo").read_text().split())
    if os.access("/dev/kvm", os.R_OK | os.W_OK) and words & {"vmx", "svm"}:
        return ["-accel", "kvm"]
    return ["-accel", "tcg", "-icount", "shift=2,sleep=on", "-rtc", "clock=vm"]


class Machine(Place):
    """A virtual machine, until it is ended: that is its power cut."""

    device = "/dev/vda"

    def __init__(self, image, begin, disk, work, kind):
        self.kind, self.disk = kind, disk
        self.port, self.log = Path(work) / "machine.port", Path(work) / "machine.log"
        self.port.unlink(missing_ok=True)
        words = [QEMU, "-nodefaults", "-no-user-config", "-display", "none", "-no-reboot", "-m", "512", "-smp", "1",
                 *acceleration(), "-cpu", "max", "-kernel", image, "-initrd", begin,
                 "-append", "console=ttyS0 panic=-1 no_timer_check random.trust_cpu=on", "-serial", f"file:{self.log}",
                 "-drive", f"file=nbd+unix:///?socket={disk.socket},format=raw,if=none,id=disk,cache=none",
                 "-device", "virtio-blk-pci,drive=disk,physical_block_size=4096", "-device", "virtio-serial-pci",
                 "-chardev", f"socket,path={self.port},server=on,wait=off,id=port",
                 "-device", "virtserialport,chardev=port"]
        self.child = subprocess.Popen(list(map(str, words)), stdin=subprocess.DEVNULL, stderr=subprocess.PIPE)
        self.wire = self.connected()

    def connected(self):
        end = time.monotonic() + 60
        while self.child.poll() is None and time.monotonic() < end:
            wire = socket.socket(socket.AF_UNIX)
            try:
                wire.connect(str(self.port))
                return wire
            except OSError:
                wire.close()
                time.sleep(0.01)
        self.child.kill()
        raise Missing(f"a machine: {self.child.communicate()[1].decode(errors='replace')}")

    def end(self):
        self.child.kill()
        self.child.wait()
        self.wire.close()

    def said(self):
        """The end of its console, and what qemu said if it has ended."""
        ended = "" if self.child.poll() is None else self.child.stderr.read().decode(errors="replace")
        return "\n".join([*self.log.read_text(errors="replace").splitlines()[-12:], ended])

    def show(self, blocks):
        """Its disk is this one from now on."""
        self.disk.show(blocks)


class Here(Place):
    """This machine itself, with a mount and a network of its own: a file is the disk. It needs to be root's."""

    def __init__(self, disk, work, kind, programs):
        self.kind, self.disk, self.file = kind, disk, Path(work) / "shown"
        self.file.touch()
        os.truncate(self.file, len(disk.base))
        built(work, "guest", "guest.c", "-static")
        self.device = subprocess.run(["losetup", "--find", "--show", self.file], stdout=subprocess.PIPE, check=True,
                                     text=True).stdout.strip()
        self.wire, other = socket.socketpair()
        self.root, self.printed = Path(work) / "mounted", Path(work) / "printed"
        self.root.mkdir(exist_ok=True)
        path = ":".join([*(str(Path(program).parent) for program in programs.values()), os.environ["PATH"]])
        words = ["unshare", "--mount", "--net", str(Path(work) / "guest"), str(other.fileno()), str(self.root)]
        self.child = subprocess.Popen(words, pass_fds=[other.fileno()], env={**os.environ, "PATH": path})
        other.close()

    @staticmethod
    def is_possible(kind):
        """Whether this machine may mount such a file system."""
        known = re.search(rf"\b{kind}$", Path("/proc/filesystems").read_text(), re.M)
        return bool(known) and os.geteuid() == 0 and Path("/dev/loop-control").exists()

    def end(self):
        self.child.kill()
        self.child.wait()
        self.wire.close()
        subprocess.run(["losetup", "--detach", self.device], check=False)

    def show(self, blocks):
        self.disk.write_image(self.file, blocks)
