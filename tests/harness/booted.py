"""A Debian in a folder that boots its own systemd, in namespaces of its own: within seconds, on this machine's kernel.
`cut` ends all of it at once, as a power cut does; but what was not synced is not lost by that."""
import os
import subprocess
import time
from pathlib import Path

BOOT = """
mount --make-rprivate / && mount --bind "$1" "$1" && cd "$1" || exit 1
mount -t proc proc proc && mount -t sysfs sysfs sys && mount -t cgroup2 cgroup2 sys/fs/cgroup || exit 1
for place in run tmp dev; do mount -t tmpfs tmpfs $place -o mode=755 || exit 1; done
cp -a /dev/null /dev/zero /dev/full /dev/random /dev/urandom /dev/tty dev
mkdir dev/pts dev/shm && chmod 1777 tmp dev/shm
mount -t devpts devpts dev/pts -o newinstance,ptmxmode=666 && ln -s pts/ptmx dev/ptmx || exit 1
ip link set lo up && hostname stage && mkdir -p old && pivot_root . old && umount -l old || exit 1
exec env -i container=folder PATH=/usr/sbin:/usr/bin chroot . /sbin/init --log-target=journal
"""
GROUPS = [Path("/sys/fs/cgroup/unified"), Path("/sys/fs/cgroup")]  # where the processes of systemd are kept apart


class Booted:
    """It boots when it is made; `is_up` says whether."""

    def __init__(self, root):
        self.root = root
        (root / "etc" / "machine-id").write_text("")
        places = [place for place in GROUPS if (place / "cgroup.procs").exists()]
        self.group = places[0] / f"cuectl-{os.getpid()}" if places else None
        self.is_up = bool(places) and (root / "sbin" / "init").exists() and self.boot()

    def boot(self, seconds=60):
        self.group.mkdir(exist_ok=True)
        words = ["unshare", "--mount", "--net", "--pid", "--uts", "--ipc", "--cgroup", "--fork", "--kill-child",
                 "bash", "-c", BOOT, "boot", str(self.root)]
        joined = f"echo $$ >{self.group}/cgroup.procs && exec \"$@\""
        self.holder = subprocess.Popen(["bash", "-c", joined, "bash", *words], stdin=subprocess.DEVNULL,
                                       stdout=subprocess.DEVNULL, stderr=subprocess.DEVNULL)
        end = time.monotonic() + seconds
        while time.monotonic() < end and self.holder.poll() is None:
            if self.run("systemctl is-system-running")[0].strip() in ("running", "degraded"):
                return True
            time.sleep(0.2)
        return False

    def within(self):
        """The words that go before a command, so that it runs there."""
        children = Path(f"/proc/{self.holder.pid}/task/{self.holder.pid}/children").read_text().split()
        spaces = ["--mount", "--net", "--pid", "--uts", "--ipc", "--cgroup", "--root", "--wd"]
        return ["nsenter", f"--target={children[0] if children else self.holder.pid}", *spaces]

    def run(self, line, user="root"):
        """What a line prints, by a shell, and its status."""
        words = [*self.within(), "runuser", "-u", user, "--", "bash", "-c", line]
        done = subprocess.run(words, stdout=subprocess.PIPE, stderr=subprocess.STDOUT, check=False)
        return done.stdout.decode(errors="replace"), done.returncode

    def cut(self):
        """Ends everything in it, at once."""
        self.holder.kill()
        self.holder.wait()

    def close(self):
        if self.group is None:
            return
        self.cut()
        end = time.monotonic() + 10
        while self.group.exists() and time.monotonic() < end:
            for folder in sorted(self.group.rglob("*/"), reverse=True):
                if folder.is_dir():
                    try_to_remove(folder)
            try_to_remove(self.group)
            time.sleep(0.1)


def try_to_remove(group):
    try:
        group.rmdir()
    except OSError:
        pass  # something in it has not ended yet
