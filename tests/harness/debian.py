"""A Debian in a folder whose systemd does not run, in which packages are installed: with a network, processes and
accounts of its own. Units are started by what their files say; nothing of the sandbox that they ask for is there."""
import os
import re
import shlex
import shutil
import signal
import subprocess
import sys
import tempfile
from pathlib import Path

SUITE, MIRROR = "bookworm", "http://deb.debian.org/debian"
CACHE = Path(tempfile.gettempdir()) / f"cuectl-{SUITE}-systemd"
UNITS = "usr/lib/systemd/system"


def why_not():
    """Why there can be none on this machine, or nothing."""
    if os.geteuid() != 0:
        return "only root can make one"
    missing = [tool for tool in ("debootstrap", "unshare", "nsenter", "ip") if not shutil.which(tool)]
    return f"{missing[0]} is not installed" if missing else None


def bootstrapped():
    """The folder of a Debian that nothing is installed in, made once; none if no mirror is reached."""
    if not CACHE.exists():
        new = CACHE.with_suffix(f".{os.getpid()}")
        words = ["debootstrap", "--variant=minbase", "--include=systemd,systemd-sysv,dbus", SUITE, new, MIRROR]
        done = subprocess.run([*map(str, words)], stdout=subprocess.PIPE, stderr=subprocess.STDOUT, check=False)
        if done.returncode:
            shutil.rmtree(new, ignore_errors=True)
            return None
        new.rename(CACHE)
    return CACHE


def unit_of(text, name):
    """The settings of a unit for one NAME, each with all its values, as systemd reads them."""
    settings = {}
    for key, value in re.findall(r"^(\w+)=(.*)$", text.replace("%i", name), re.M):
        settings.setdefault(key, []).append(value)
    return settings


def copy(work, name):
    """A copy of it, to install in."""
    root = Path(work) / name
    subprocess.run(["cp", "-a", "--reflink=auto", CACHE, root], check=True)
    return root


def descendants(pid):
    """The processes that stand below this one."""
    found = [int(word) for word in Path(f"/proc/{pid}/task/{pid}/children").read_text().split()]
    return found + [below for child in found for below in descendants(child)]


class System:
    """One of them with processes of its own: `close` ends all that runs in it."""

    def __init__(self, work):
        self.root = copy(work, "debian")
        begin = f"mount -t proc proc {self.root}/proc && ip link set lo up && echo up && exec sleep infinity"
        self.holder = subprocess.Popen(["unshare", "--mount", "--net", "--pid", "--fork", "--kill-child",
                                        "bash", "-c", begin], stdout=subprocess.PIPE)
        self.holder.stdout.readline()
        self.first = Path(f"/proc/{self.holder.pid}/task/{self.holder.pid}/children").read_text().split()[0]
        self.running = {}

    def within(self, user="root"):
        """The words that go before a command, so that it runs there."""
        return ["nsenter", f"--target={self.first}", "--mount", "--net", "--pid", "chroot", f"--userspec={user}",
                str(self.root), "/usr/bin/env", "-i", "PATH=/usr/sbin:/usr/bin:/sbin:/bin", "HOME=/"]

    def run(self, line, user="root", **environment):
        """What a line prints, by a shell, and its status."""
        words = [*self.within(user), *(f"{key}={value}" for key, value in environment.items()), "bash", "-c", line]
        done = subprocess.run(words, stdout=subprocess.PIPE, stderr=subprocess.STDOUT, check=False)
        return done.stdout.decode(errors="replace"), done.returncode

    def get(self, port, path="/"):
        """What a page of this machine says."""
        asked = f"import urllib.request as web; print(web.urlopen('http://127.0.0.1:{port}{path}').read().decode())"
        done = subprocess.run(["nsenter", f"--target={self.first}", "--net", sys.executable, "-c", asked],
                              stdout=subprocess.PIPE, stderr=subprocess.PIPE, check=False)
        return done.stdout.decode()

    # ---- what systemd does for a unit

    def settings(self, unit):
        prefix, name = unit.split("@")
        return unit_of((self.root / UNITS / f"{prefix}@.service").read_text(), name)

    def environment(self, settings):
        """The variables of a unit, those of its files over its own."""
        words = [word for value in settings.get("Environment", []) for word in shlex.split(value)]
        for name in settings.get("EnvironmentFile", []):
            file = self.root / name.lstrip("-/")
            words += file.read_text().splitlines() if file.exists() else []
        return dict(word.split("=", 1) for word in words)

    def folders(self, settings, user):
        """Makes its folders, as its account's own."""
        for key, place in (("StateDirectory", "var/lib"), ("RuntimeDirectory", "run"), ("LogsDirectory", "var/log")):
            for name in settings.get(key, []):
                self.run(f"mkdir -p /{place}/{name} && chown {user}: /{place}/{name}")

    def call(self, line, user, environment, **more):
        """Begins a command of a unit. $NAME is taken apart into words, ${NAME} is not."""
        words = []
        for part in shlex.split(line.lstrip("-")):
            whole = re.fullmatch(r"\$(\w+)", part)
            words += environment.get(whole[1], "").split() if whole else [
                re.sub(r"\$\{(\w+)\}", lambda found: environment.get(found[1], ""), part)]
        names = [f"{key}={value}" for key, value in environment.items()]
        return subprocess.Popen([*self.within(user), *names, *words], **more)

    def start(self, *units):
        """Starts units, each after those that it names in After=. What they print goes to files of `said`."""
        left = list(units)
        while left:
            unit = next(unit for unit in left if not any(
                f"{other}.service" in " ".join(self.settings(unit).get("After", [])).split() for other in left))
            left.remove(unit)
            self.start_one(unit)

    def start_one(self, unit):
        settings = self.settings(unit)
        user, environment = settings["User"][0], self.environment(settings)
        self.folders(settings, user)
        with open(self.said(unit), "ab") as said:
            more = {"stdout": said, "stderr": said, "stdin": subprocess.DEVNULL}
            for line in settings.get("ExecStartPre", []):
                self.call(line, user, environment, **more).wait()
            for line in settings["ExecStart"]:
                child = self.call(line, user, environment, **more)
                if settings.get("Type") != ["oneshot"]:
                    self.running[unit] = child
                elif child.wait():
                    raise RuntimeError(f"{unit}: {line}: status {child.returncode}")
            for line in settings.get("ExecStartPost", []):
                self.call(line, user, environment, **more).wait()

    def said(self, unit):
        return self.root.parent / f"{unit}.said"

    def kill(self, unit):
        """Ends its processes by SIGKILL, as systemd ends what is left of a unit."""
        child = self.running.pop(unit)
        for pid in descendants(child.pid):
            os.kill(pid, signal.SIGKILL)
        child.wait()

    def close(self):
        self.holder.kill()
        self.holder.wait()
