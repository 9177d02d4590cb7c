"""Two virtual machines with one store, as docs/NETWORK.md sets them up, and a third one with the devices."""
import re
import threading
from pathlib import Path

from paths import ROOT, TESTS
import serving
from checking import check
from stored_show import FILE, READY, STORE, desk, show_file
from virtual_machine import disk_of, made

ADDRESSES = {n: f"10.0.7.31:{9000 + n}" for n in (3, 4)}
CONF = """CUEDESK_PAGE=--relay /run/cuectl/first/relay
STAGE_ADDRESS=10.0.7.1/24
STAGE_CARD=eth0
"""
DEVICES = "/srv/devices"  # of the machine that has them


def network(card, address):
    return f"ip link set {card} up\nip address add {address}/24 dev {card}\n"


class Stage:
    """The machine with the devices: two winches that print what they do."""

    def __init__(self, image, folder, card, acceleration):
        self.machine = made(image, acceleration, folder, "stage", None, (), [card], 256)

    def set_up(self):
        machine = self.machine
        machine.put(f"{DEVICES}/device.py", (ROOT / "examples" / "device.py").read_text())
        machine.put(f"{DEVICES}/counted_device.py", (TESTS / "harness" / "counted_device.py").read_text())
        machine.put("/etc/network-cards", network("eth0", "10.0.7.31"))
        machine.does("systemctl start network-cards")

    def begin(self, prepare=(0.2, 0.2), motion=(0.2, 0.2)):
        """Both devices anew, with these times; each keeps its number."""
        lines = [f"cd {DEVICES}; for n in 3 4; do test -e $n.pid && kill -9 $(cat $n.pid); done; sleep 0.1"]
        for n, ready, moved in zip((3, 4), prepare, motion):
            lines.append(f"setsid python3 counted_device.py {n} 10.0.7.31 {9000 + n} {n}.kept {ready} {moved} "
                         f">>{n}.log 2>&1 & echo $! >{n}.pid")
        self.machine.does("\n".join([*lines, "true"]))
        for n in (3, 4):
            self.machine.waits(lambda: self.machine.run(f"ss -Hlun sport = :{9000 + n}")[0], bool)

    def deafen(self, number):
        """No GO comes to this device, until it hears again."""
        self.machine.does(f"touch {DEVICES}/{number}.kept.deaf")

    def hears_again(self):
        self.machine.does(f"rm -f {DEVICES}/*.deaf")

    def count(self, number, line):
        """How often a device has printed this line."""
        return self.machine.run(f"cat {DEVICES}/{number}.log")[0].splitlines().count(line)

    def says(self, number, line, more_than=0, seconds=15.0):
        """Whether a device has printed this line more often than that, in time."""
        ask = lambda: self.count(number, line)  # noqa: E731
        return self.machine.waits(ask, lambda count: count > more_than, seconds) > more_than


class Pair:
    """The machine that serves is `here`, the standby `there`."""

    def __init__(self, image, acceleration, folder, package):
        self.image, self.folder, self.acceleration, self.package = image, folder, acceleration, package
        self.bus, self.cable = (f"socket,mcast=230.0.7.1:{serving.free_port()},localaddr=127.0.0.1" for _ in "ab")
        self.stage = Stage(image, folder, self.bus, acceleration)
        self.machines = []

    def install(self):
        """The package, in a disk that both machines begin with."""
        parcel = self.folder / "parcel"
        parcel.mkdir()
        (parcel / "cuectl.deb").write_bytes(Path(self.package).read_bytes())
        disk_of(parcel, self.folder / "parcel.img", "64M")
        machine = made(self.image, self.acceleration, self.folder, "installer", None, [self.folder / "parcel.img"], ())
        machine.power_on()
        machine.does("mount -o ro /dev/vdb /mnt && dpkg -i /mnt/cuectl.deb", 300)
        machine.power_off()
        for name in ("alpha", "beta"):
            store = self.folder / f"{name}.img"
            with open(store, "wb") as file:
                file.truncate(160 << 20)
            self.machines.append(made(self.image, self.acceleration, self.folder, name, machine.disks[0], [store],
                                      [self.bus, self.cable], 384))
        self.here, self.there = self.machines

    def set_up(self, number, machine):
        """What both of them get: a name, an address on the cable, a partition, the resource, the units."""
        machine.put("/etc/network-cards", network("eth1", f"10.0.8.{number}"))
        machine.put("/etc/cuectl/first.conf", CONF)
        machine.does(f"echo {machine.name} >/etc/hostname; hostname {machine.name}; systemctl start network-cards")
        machine.does("echo 'size=128M, name=first' | sfdisk -q --label gpt /dev/vdb; udevadm settle", 120)
        machine.does("cp /usr/share/doc/cuectl/two-machines/first.res /etc/drbd.d/; drbdadm create-md first", 120)
        machine.does("systemctl enable --now show-copy@first", 120)

    def power_on(self):
        for machine in (self.stage.machine, *self.machines):
            machine.power_on()
        threads = [threading.Thread(target=self.stage.set_up)]
        threads += [threading.Thread(target=self.set_up, args=both) for both in enumerate(self.machines, 1)]
        for thread in threads:
            thread.start()
        for thread in threads:
            thread.join()

    def form(self):
        """The store, on one machine, from which the other one gets it; then the show."""
        here = self.here
        check("the machines have found each other", self.comes("cstate", "Connected"))
        here.does("drbdadm primary --force first; mkfs.ext4 -q -b 4096 /dev/drbd0", 120)
        here.does("systemctl start show-here@first cuectl-form@first", 120)
        here.put(FILE, show_file(3, ADDRESSES))
        here.told("cuectl: ready", 60)
        self.desk(f"load {FILE} {STORE}", 120)
        here.does("systemctl restart cuectl-relay@first cuectl-page@first", 120)
        self.stage.begin()
        check("both disks are up to date", self.comes("dstate", "UpToDate/UpToDate", 120))

    def comes(self, what, wanted, seconds=60.0):
        """Whether DRBD says so in time, on the machine that serves."""
        ask = lambda: self.here.run(f"drbdadm {what} first")[0]  # noqa: E731
        return self.here.waits(ask, lambda said: said == wanted, seconds) == wanted

    def desk(self, words, seconds=60.0):
        desk(self.here, words, seconds)

    def starts(self, machine):
        """Has this machine serve: nothing once it is ready, else what systemd says."""
        ready = lambda: len(re.findall(READY, machine.journal()))  # noqa: E731
        before = ready()
        said, status = machine.run("systemctl start show-here@first", 120)
        if status == 0 and machine.waits(ready, lambda count: count > before, 60) > before:
            return ""
        return f": {said or 'it was not ready'}"

    def change(self):
        """The other machine is the one that serves now."""
        self.here, self.there = self.there, self.here

    def comes_back(self):
        """The lost one is switched on again, and catches up by itself."""
        self.there.power_on()
        self.there.does("true", 300)
        return self.comes("dstate", "UpToDate/UpToDate", 120)

    def end(self):
        for machine in (self.stage.machine, *self.machines):
            machine.cut()
