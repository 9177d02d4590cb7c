"""Virtual machines: a root file system of Debian with systemd, made once, and qemu with it.

The machine's journal comes over its console, commands go to a shell in it over a line of their own (`run`). Cutting the
power is a SIGKILL of qemu: what the machine itself had not written is lost, what it had written stays in the host.
"""
import atexit
import base64
import fcntl
import hashlib
import lzma
import os
import re
import shutil
import socket
import subprocess
import sys
import tempfile
import time
from pathlib import Path

SUITE, MIRROR = "bookworm", "http://deb.debian.org/debian"
PACKAGES = ("systemd systemd-sysv udev kmod fdisk iproute2 iputils-arping procps linux-image-amd64 busybox-static "
            "drbd-utils python3-minimal").split()
TOOLS = {"qemu-system-x86_64": "qemu-system-x86", "qemu-img": "qemu-utils", "debootstrap": "debootstrap",
         "mke2fs": "e2fsprogs"}
SHELL = """#!/bin/bash
# Runs each command that comes over the line; answers with its status and what it printed.
line=/dev/virtio-ports/cue.shell
until exec 3<>$line; do sleep 0.1; done 2>/dev/null
echo ready >&3
while read -r line <&3; do
  said=$(bash -c "$(base64 -d <<<"$line")" 2>&1 </dev/null)
  status=$?
  printf '%s %s\\n' "$status" "$(base64 -w0 <<<"$said")" >&3
done
"""
FILES = {
    "usr/local/sbin/answer-commands": SHELL,
    "etc/systemd/system/answer-commands.service": """[Unit]
Description=a shell for the runs
StartLimitIntervalSec=0

[Service]
ExecStart=/usr/local/sbin/answer-commands
Restart=always
RestartSec=0

[Install]
WantedBy=multi-user.target
""",
    "etc/systemd/system/systemd-udev-trigger.service.d/few.conf": """[Service]
ExecStart=
ExecStart=-udevadm trigger --action=add --subsystem-match=block --subsystem-match=net --subsystem-match=virtio-ports
""",
    "etc/systemd/system/network-cards.service": """[Unit]
Description=the addresses of /etc/network-cards
Before=network-online.target
DefaultDependencies=no
After=local-fs.target
ConditionPathExists=/etc/network-cards

[Service]
Type=oneshot
RemainAfterExit=yes
ExecStart=/bin/sh /etc/network-cards

[Install]
WantedBy=multi-user.target network-online.target
""",
    "etc/systemd/system/clock.service": """[Unit]
Description=stands in for what sets the clock
Before=time-sync.target

[Service]
Type=oneshot
RemainAfterExit=yes
ExecStart=/bin/sleep 0.5

[Install]
WantedBy=time-sync.target
""",
    "etc/fstab": "",
    "etc/hostname": "stage\n",
    "etc/hosts": "127.0.0.1 localhost\n",
    "etc/machine-id": "",
}
MODULES = ("virtio virtio_ring virtio_pci_legacy_dev virtio_pci_modern_dev virtio_pci virtio_blk crc16 mbcache jbd2 "
           "crc32c_generic ext4 failover net_failover virtio_net virtio_console").split()
INIT = f"""#!/bin/busybox sh
/bin/busybox mount -t devtmpfs none /dev
for name in {' '.join(MODULES)}; do /bin/busybox insmod /$name.ko; done
while ! /bin/busybox mount -t ext4 /dev/vda /new; do /bin/busybox sleep 0.1; done
/bin/busybox mount --move /dev /new/dev
exec /bin/busybox switch_root /new /sbin/init
"""
# What of Debian's start the machines do without, since without KVM each program that is started takes long.
MASKED = ("getty@tty1 serial-getty@ getty-static apt-daily.timer apt-daily-upgrade.timer dpkg-db-backup.timer "
          "e2scrub_all.timer e2scrub_reap systemd-pstore fstrim.timer systemd-logind systemd-binfmt "
          "proc-sys-fs-binfmt_misc.automount dev-hugepages.mount dev-mqueue.mount sys-fs-fuse-connections.mount "
          "sys-kernel-config.mount sys-kernel-debug.mount sys-kernel-tracing.mount modprobe@configfs modprobe@drm "
          "modprobe@fuse modprobe@dm_mod modprobe@loop modprobe@efi_pstore kmod-static-nodes systemd-firstboot "
          "systemd-modules-load systemd-sysctl systemd-random-seed systemd-update-utmp systemd-update-utmp-runlevel "
          "systemd-user-sessions systemd-repart systemd-machine-id-commit systemd-pcrphase systemd-pcrphase-sysinit "
          "systemd-network-generator systemd-networkd systemd-timesyncd systemd-rfkill.socket "
          "systemd-tmpfiles-clean.timer systemd-ask-password-console.path "
          "systemd-ask-password-wall.path drbd").split()
RULES = ("50-udev-default", "60-block", "60-persistent-storage", "65-drbd", "99-systemd")
DRIVERS = ("block", "char", "net", "virtio")
# With `norandmaps` tcg translates a program once, and not each time that it is started.
KERNEL_WORDS = ("root=/dev/vda rw console=ttyS0 quiet net.ifnames=0 no_timer_check mitigations=off audit=0 nokaslr "
                "norandmaps random.trust_cpu=on cryptomgr.notests tsc=reliable systemd.show_status=0 "
                "systemd.log_level=warning systemd.journald.forward_to_console=1")


def missing():
    """What has to be installed, or to be so, before a machine can be made; empty if nothing has."""
    lacks = [f"{package} (apt-get install)" for tool, package in TOOLS.items() if not shutil.which(tool)]
    return lacks + ([] if os.geteuid() == 0 else ["root, for debootstrap"])


def cache_folder(given=None):
    """Where the root file system is kept."""
    return Path(given or Path(os.environ.get("XDG_CACHE_HOME", tempfile.gettempdir())) / "cue-machines")


class Image:
    """Debian's kernel, its initrd and the root file system of every machine; made if the folder does not have them."""

    def __init__(self, cache):
        recipe = repr((SUITE, PACKAGES, INIT, MASKED, RULES, DRIVERS, sorted(FILES.items())))
        self.folder = Path(cache) / f"{SUITE}-{hashlib.sha256(recipe.encode()).hexdigest()[:12]}"
        self.folder.parent.mkdir(parents=True, exist_ok=True)
        with open(self.folder.with_suffix(".lock"), "w") as lock:
            fcntl.flock(lock, fcntl.LOCK_EX)
            if not self.folder.exists():
                self.make()

    def make(self):
        """Some minutes."""
        print(f"--   {self.folder} is made, by debootstrap", flush=True)
        part = self.folder.with_suffix(".part")
        shutil.rmtree(part, ignore_errors=True)
        part.mkdir()
        root = part / "root"
        with open(part / "log", "w") as log:
            subprocess.run(["debootstrap", "--variant=minbase", f"--include={','.join(PACKAGES)}", SUITE, str(root),
                            MIRROR], stdout=log, stderr=subprocess.STDOUT, check=True)
        for name, text in FILES.items():
            (root / name).parent.mkdir(parents=True, exist_ok=True)
            (root / name).write_text(text)
        (root / "usr/local/sbin/answer-commands").chmod(0o755)
        small_initrd(root / "small")
        lighten(root)
        for command in ("systemctl enable network-cards clock answer-commands", f"systemctl mask {' '.join(MASKED)}",
                        "depmod $(ls /usr/lib/modules)", "cd /small && find . | cpio --quiet -o -H newc >/boot/small"):
            with open(part / "log", "a") as log:
                subprocess.run(["chroot", str(root), "sh", "-c", command], stdout=log, stderr=subprocess.STDOUT,
                               check=True)
        (part / "vmlinux").write_bytes(unpacked(next((root / "boot").glob("vmlinuz-*")).read_bytes()))
        shutil.copy(root / "boot/small", part / "initrd")
        disk_of(root, part / "disk.img", "1G")
        shutil.rmtree(root)
        part.rename(self.folder)


def small_initrd(folder):
    """What mounts the root file system, and nothing else: without KVM Debian's own takes long."""
    for name in ("bin", "dev", "new"):
        (folder / name).mkdir(parents=True)
    (folder / "init").write_text(INIT)
    (folder / "init").chmod(0o755)
    shutil.copy(folder.parent / "bin/busybox", folder / "bin/busybox")
    for name in MODULES:
        shutil.copy(next((folder.parent / "usr/lib/modules").glob(f"*/kernel/**/{name}.ko")), folder)


def lighten(root):
    """Leaves out generators, rules, drivers and pages that no run needs."""
    for kind, kept in (("systemd/system-generators", ("systemd-fstab-generator",)),
                       ("udev/rules.d", [f"{name}.rules" for name in RULES])):
        masks = root / "etc" / kind
        masks.mkdir(parents=True, exist_ok=True)
        for path in (root / "usr/lib" / kind).iterdir():
            if path.name not in kept:
                (masks / path.name).symlink_to("/dev/null")
    kernel = next((root / "usr/lib/modules").glob("*/kernel"))
    for folder in [kernel / "sound", *(path for path in (kernel / "drivers").iterdir() if path.name not in DRIVERS),
                   *(root / "usr/share" / name for name in ("doc", "man", "locale")), root / "var/cache/apt"]:
        shutil.rmtree(folder, ignore_errors=True)


def unpacked(kernel):
    """The kernel in a file of Debian's: a machine without KVM would take long to unpack it."""
    return lzma.LZMADecompressor().decompress(kernel[kernel.index(b"\xfd7zXZ\0"):])


def disk_of(folder, file, size):
    """A disk with the files of a folder."""
    subprocess.run(["mke2fs", "-q", "-t", "ext4", "-d", str(folder), str(file), size],
                   stdout=subprocess.DEVNULL, check=True)


def layer(file, below, kind="qcow2"):
    """A disk that begins as another one, and leaves that as it is."""
    subprocess.run(["qemu-img", "create", "-q", "-f", "qcow2", "-b", str(below), "-F", kind, str(file)], check=True)
    return file


def made(image, acceleration, folder, name, below, disks, cards, memory=384):
    """A machine whose root file system begins as the one below, or as the image's own if that is none."""
    root = layer(folder / f"{name}.qcow2", below or image.folder / "disk.img", "qcow2" if below else "raw")
    return Machine(image, folder, name, [root, *disks], cards, acceleration, memory)


def accelerator(image, given=None):
    """`kvm` if a kernel comes up with it within some seconds, else `tcg`, which is slower."""
    if given or not os.access("/dev/kvm", os.R_OK | os.W_OK):
        return given or "tcg"
    with tempfile.TemporaryDirectory() as folder:
        probe = Machine(image, folder, "probe", [], (), "kvm")
        probe.power_on()
        came_up = probe.told(r"Kernel panic|VFS|Linux version|systemd", 8)
        probe.cut()
    return "kvm" if came_up else "tcg"


class Machine:
    """One machine. `disks` are files in qcow2, the first one with the root file system; `cards` are what follows
    `-netdev` for eth0, eth1 and so on, without `id=`."""

    def __init__(self, image, folder, name, disks, cards=(), acceleration="kvm", memory=512):
        self.image, self.folder, self.name = image, Path(folder), name
        self.disks, self.cards, self.acceleration, self.memory = disks, cards, acceleration, memory
        self.socket = self.folder / f"{name}.shell"
        self.slowness = 1 if acceleration == "kvm" else 12
        self.child, self.line, self.boots, self.answers = None, None, 0, False

    def words(self):
        """The command line of qemu."""
        words = ["qemu-system-x86_64", "-nodefaults", "-no-user-config", "-display", "none", "-no-reboot",
                 "-accel", "tcg,tb-size=512" if self.acceleration == "tcg" else self.acceleration,
                 "-cpu", "host" if self.acceleration == "kvm" else "Nehalem",
                 "-m", str(self.memory), "-smp", "2",
                 "-kernel", str(self.image.folder / "vmlinux"),
                 "-initrd", str(self.image.folder / "initrd"), "-append", KERNEL_WORDS,
                 "-serial", f"file:{self.console}", "-device", "virtio-serial",
                 "-chardev", f"socket,id=shell,path={self.socket},server=on,wait=off",
                 "-device", "virtserialport,chardev=shell,name=cue.shell"]
        for disk in self.disks:
            kind = "raw" if disk.suffix == ".img" else "qcow2"
            words += ["-drive", f"file={disk},if=virtio,format={kind},cache=writeback"]
        for k, card in enumerate(self.cards):
            kind, _, rest = card.partition(",")
            address = self.address(k)
            words += ["-netdev", f"{kind},id=card{k},{rest}", "-device", f"virtio-net-pci,netdev=card{k},mac={address}"]
        return words

    def address(self, card):
        """What a card of it is called on its network."""
        return f"52:54:00:{hashlib.sha256(self.name.encode()).hexdigest()[:2]}:00:{card:02x}"

    def power_on(self):
        """Starts it. The time runs from here."""
        self.boots, self.answers = self.boots + 1, False
        self.console = self.folder / f"{self.name}.{self.boots}.console"
        self.console.write_text("")
        self.begun = time.monotonic()
        with open(self.folder / f"{self.name}.qemu", "a") as said:
            self.start(said)
        atexit.register(self.cut)

    def start(self, said):
        """The program, and the line to its shell."""
        self.socket.unlink(missing_ok=True)
        self.child = subprocess.Popen(self.words(), stdin=subprocess.DEVNULL, stdout=said, stderr=said)
        self.line = socket.socket(socket.AF_UNIX)
        while self.line.connect_ex(str(self.socket)):
            if self.child.poll() is not None:
                sys.exit(f"qemu ended: {(self.folder / f'{self.name}.qemu').read_text()}")
            time.sleep(0.005)

    def cut(self):
        """The power is gone."""
        atexit.unregister(self.cut)
        if self.child and self.child.poll() is None:
            self.child.kill()
            self.child.wait()
        if self.line:
            self.line.close()

    def power_off(self, seconds=60):
        """Ends it in order: all that it has written is on its disks."""
        self.ask("systemctl poweroff", seconds)
        self.child.wait(seconds * self.slowness)
        self.cut()

    def journal(self):
        """What its console said since it was switched on."""
        return self.console.read_text(errors="replace")

    def told(self, pattern, seconds=60.0):
        """The seconds from power to the first line of the console with this pattern; none if none came in time."""
        end = time.monotonic() + seconds * self.slowness
        while time.monotonic() < end:
            if re.search(pattern, self.journal()):
                return time.monotonic() - self.begun
            time.sleep(0.01)
        return None

    def run(self, command, seconds=60.0):
        """What a command printed in the machine, and its status. It waits until the shell is there."""
        self.ask(command, seconds)
        status, _, said = self.heard().partition(" ")
        return base64.b64decode(said).decode(errors="replace").removesuffix("\n"), int(status)

    def ask(self, command, seconds):
        """Hands a command to the shell, once that is there."""
        self.line.settimeout(seconds * self.slowness)
        if not self.answers:
            self.heard()
        self.line.sendall(base64.b64encode(command.encode()) + b"\n")

    def heard(self):
        """The next line of the shell; its first one says that it is there."""
        answer = b""
        while not answer.endswith(b"\n"):
            piece = self.line.recv(65536)
            if not piece:
                raise ConnectionError(f"{self.name} is gone")
            answer += piece
        self.answers = True
        return answer.decode().rstrip("\n")

    def does(self, command, seconds=60.0):
        """What a command printed that has to end with status 0."""
        said, status = self.run(command, seconds)
        if status:
            sys.exit(f"{self.name}: {command.splitlines()[0]}: status {status}: {said}\n{self.journal()[-3000:]}")
        return said

    def put(self, path, text):
        """Writes a file in the machine; it is on its disk then."""
        data, folder = base64.b64encode(text.encode()).decode(), os.path.dirname(path)
        self.does(f"mkdir -p {folder}\nbase64 -d >{path} <<<{data} && sync {path} {folder}")

    def waits(self, ask, holds, seconds=15.0):
        """What is asked, once this holds of it; or as it is when the time is over."""
        end = time.monotonic() + seconds * self.slowness
        while not holds(answer := ask()) and time.monotonic() < end:
            time.sleep(0.1)
        return answer
