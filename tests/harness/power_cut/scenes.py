"""The scenes: what a machine does with a store until its power is cut, and what may be found of the store then."""
import model
import store_writer

PORT, DESK = 9100, 8000
FIRST, SECOND = 9003, 9004  # where devices 3 and 4 listen
NOISE = "k=0; while sleep 1; do k=$(((k + 1) % 9)); cat /store/full/b.area >{root}/noise.$k; done"
WRONG = {"no sync": "all", "the gate alone synced": "body", "the body alone synced": "gate"}
say, Blob = model.message, model.Blob


class Scene:
    """A store in a folder, with its states one after the other. Each was asked for and acknowledged at a moment of the
    log. `early` has the states and words that may be found before anything is acknowledged; None: any."""

    def __init__(self, name, folder, first, early=()):
        self.name, self.folder, self.early = name, folder, early
        self.states, self.sent, self.acked = [], [], []
        self.begin = self.end = 0
        self.first = first

    def add(self, state, moment):
        """A state that was asked for at this moment."""
        self.states.append(state)
        self.sent.append(moment)

    def holds(self, state, moment):
        """The store is in this state, and that is safe."""
        self.add(state, moment)
        self.acked.append(moment)

    def window(self, moment):
        """The last state that had been acknowledged, and the last that had been asked for, by their numbers."""
        acked = sum(one <= moment for one in self.acked) - 1
        return acked, sum(one <= moment for one in self.sent) - 1


class Recorder:
    """Plays the scenes on a machine whose disk records."""

    def __init__(self, machine, disk):
        self.machine, self.disk, self.scenes = machine, disk, []
        for name in ("dirty_writeback_centisecs", "dirty_expire_centisecs"):
            machine.do(f"echo 10 >/proc/sys/vm/{name}")

    def begin(self, scene, settled=True):
        """From now on the power may be cut. What came before is safe."""
        if settled:
            self.machine.do("sync")
        scene.begin = self.disk.now()
        self.scenes.append(scene)
        return scene

    def path(self, folder):
        return f"{self.machine.root}/{folder}"

    def serve(self, scene, drop=""):
        """Serves the store of a scene. Its first answer acknowledges the first state."""
        words = f"LD_PRELOAD=/lib/drop_syncs.so DROP={drop} " if drop else ""
        self.process = self.machine.start(f"{words}exec cuectl serve {self.path(scene.folder)} --port {PORT} "
                                          f"--turns 1000000 2>>{self.path('evening.log')}")
        if not scene.sent:
            scene.add(scene.first, scene.begin)
        for _ in range(100):
            self.machine.say(DESK, PORT, say("/status"))
            if self.machine.hear(DESK, 2):
                scene.acked += [self.disk.now()] if not scene.acked else []
                break
        else:
            raise RuntimeError(f"serve does not answer: {self.machine.sh(f'cat {self.machine.printed}')}")

    def tell(self, scene, *messages):
        """Sends these messages of (port, bytes) together, and hears all replies."""
        replies = []
        for port, data in messages:
            state, sends = model.hear(scene.states[-1], 0, port, data)
            replies += [(port, reply) for to, reply in sends if to == port and reply.startswith(b"/reply")]
            scene.add(state, self.disk.now())
            self.machine.say(port, PORT, data)
        for port, reply in replies:
            self.wait_for(port, reply)
            scene.acked.append(self.disk.now())

    def wait_for(self, port, reply):
        """Orders, and replies to the questions of `serve`, may come before it."""
        for _ in range(200):
            heard = self.machine.hear(port, 60)
            if heard == reply:
                return
            if heard is None or heard.startswith(b"/reply") and b"/status" not in heard:
                break
        raise RuntimeError(f"{heard} in place of {reply}")

    def make_noise(self):
        """Another program writes to the disk, and syncs nothing."""
        self.noise = self.machine.start(NOISE.format(root=self.machine.root))

    def end(self, scene):
        """The program is killed; what was not synced may still be written for a while."""
        self.machine.stop(self.process)
        self.machine.do("sleep 0.3")
        scene.end = self.disk.now()


# ---- what is asked for

def bundle(*messages):
    """One datagram of several messages, one reply each."""
    return b"#bundle\0" + (1).to_bytes(8, "big") + b"".join(len(m).to_bytes(4, "big") + m for m in messages)


def large_cue(number):
    """A cue of eight parts of 32 bytes."""
    parts = [value for device in range(1, 9) for value in (device, Blob(bytes([device, number % 256] * 16)))]
    return say("/show/cue", str(number).encode(), *parts)


def opening():
    """Devices, small cues, and cues so large that a group of them lies in several blocks of a disk."""
    yield [(DESK, say("/show/device", device, 9000 + device)) for device in range(1, 9)]
    yield [(DESK, say("/show/cue", b"1", 3, Blob(b"\x0a\x0b"), 4, Blob(b"")))]
    yield [(DESK, say("/show/cue", b"2", 3, Blob(b"")))]
    yield [(DESK, say("/show/mixed", b"3", 3, 0, Blob(b""), 4, 1, Blob(b"")))]
    yield [(DESK, large_cue(100 + k)) for k in range(12)]


def cue_from_standby_to_go(cue, number, optional=False):
    yield [(DESK, say(f"/cue/{cue}/standby"))]
    yield [(FIRST, say("/device/3/standing_by", number))]
    yield [(DESK, say("/device/4/release")) if optional else (SECOND, say("/device/4/standing_by", number))]
    yield [(DESK, say(f"/cue/{cue}/go"))]


def evening():
    """It ends with a cue that is given, and that one device has not carried out."""
    yield from opening()
    yield from cue_from_standby_to_go("1", 1)
    yield [(FIRST, say("/device/3/complete", 1))]
    yield [(SECOND, say("/device/4/complete", 1))]
    yield [(DESK, say("/cue/101/goto"))]
    yield from cue_from_standby_to_go("3", 2, optional=True)
    yield [(FIRST, say("/device/3/complete", 2))]
    yield [(DESK, say("/cue/2/standby"))]
    yield [(DESK, say("/cue/2/cancel"))]
    yield [(FIRST, say("/device/3/cancelled", 3))]
    yield [(DESK, say(f"/cue/{102 + k}/goto")) for k in range(6)]
    yield [(DESK, large_cue(200 + k)) for k in range(24)]
    yield [(DESK, say("/cue/111/remove"))]
    yield from cue_from_standby_to_go("1", 4)
    yield [(SECOND, say("/device/4/complete", 4))]


def short_evening():
    yield from opening()
    yield from cue_from_standby_to_go("1", 1)
    yield [(DESK, large_cue(200 + k)) for k in range(24)]


# ---- stores that are there before

def state_after(groups):
    state = model.State()
    for port, data in (message for group in groups for message in group):
        state, _ = model.hear(state, 0, port, data)
    return state


def store_of(groups, generation=1):
    """The area of a store that took these messages, and its state."""
    state, payloads = model.State(), []
    for port, data in (message for group in groups for message in group):
        state, _, events = model.heard(state, 0, port, data)
        payloads.append(store_writer.batch(events))
    return store_writer.area(generation, store_writer.EMPTY, payloads), state


def given():
    """A cue was given, and both devices are to answer."""
    yield from opening()
    yield from cue_from_standby_to_go("1", 1)


def nearly_full():
    """An area that is turned over at the fourth record from now."""
    groups = [*opening(), [(DESK, large_cue(200 + k)) for k in range(60)]]
    count = store_writer.RECORDS - 3 - sum(map(len, groups))
    return [*groups, [(DESK, say(f"/cue/{1 + k % 2}/goto")) for k in range(count)]]


def stores():
    """The files that the machine begins with, by their names."""
    old, _ = store_of([[(DESK, say("/show/device", 7, 9007))]])
    empty = store_writer.area(1, store_writer.EMPTY, [])
    return {"old/a.area": old, "old/b.area": b"", "given/a.area": store_of(given())[0], "given/b.area": b"",
            "full/a.area": empty, "full/b.area": store_of(nearly_full(), 2)[0]}


# ---- the scenes

MISSING = ("NotFound", "Unformed")


def form_and_evening(recorder):
    """As the first evening of docs/OPERATING.md: `mkdir`, `form`, `serve`."""
    machine, empty = recorder.machine, model.State()
    scene = recorder.begin(Scene("form", "show", empty, MISSING))
    scene.add(empty, recorder.disk.now())
    machine.do(f"mkdir {recorder.path('show')}")
    machine.do(f"cuectl form {recorder.path('show')}")
    scene.acked.append(recorder.disk.now())
    scene.end = recorder.disk.now()
    scene = recorder.begin(Scene("an evening", "show", empty), settled=False)
    scene.holds(empty, scene.begin)
    recorder.serve(scene)
    for messages in evening():
        recorder.tell(scene, *messages)
    recorder.end(scene)


def turn_over(recorder):
    path = recorder.path("full")
    recorder.machine.do(f"mkdir {path} && cp /store/full/* {path}")
    scene = recorder.begin(Scene("a turn-over", "full", state_after(nearly_full())))
    scene.holds(scene.first, scene.begin)
    recorder.serve(scene)
    for k in range(6):
        recorder.tell(scene, (DESK, say(f"/cue/{200 + k}/goto")))
    recorder.end(scene)


def restore(recorder, name, folder, commands, early):
    """A copy of a store in which a cue is given is put in place, and served at once."""
    path = recorder.path(folder)
    recorder.machine.do(f"mkdir {path} {path}.backup && cp /store/old/* {path} && cp /store/given/* {path}.backup")
    scene = recorder.begin(Scene(name, folder, state_after(given()), early))
    for command in commands:
        recorder.machine.do(command.format(show=path))
    recorder.serve(scene)
    recorder.tell(scene, (FIRST, say("/device/3/complete", 1)))
    recorder.tell(scene, (DESK, say("/cue/101/goto")))
    recorder.end(scene)


def restores(recorder):
    old = state_after([[(DESK, say("/show/device", 7, 9007))]])
    copy = ["mkdir {show}.new", "cp {show}.backup/a.area {show}.backup/b.area {show}.new"]
    move = ["mv {show} {show}.old", "mv {show}.new {show}"]
    restore(recorder, "a restore by moving", "moved", [*copy, "sync", *move], (old, "NotFound"))
    restore(recorder, "by moving, no sync", "unsynced", [*copy, *move], None)
    restore(recorder, "by copying", "copied", ["cp {show}.backup/a.area {show}.backup/b.area {show}"], None)


def wrong_evening(recorder, name):
    """The same program with some of its syncs left out."""
    path, empty = recorder.path(WRONG[name]), model.State()
    recorder.machine.do(f"mkdir {path} && cuectl form {path}")
    scene = recorder.begin(Scene(name, WRONG[name], empty))
    scene.holds(empty, scene.begin)
    recorder.serve(scene, drop=WRONG[name])
    for messages in short_evening():
        recorder.tell(scene, *messages)
    recorder.end(scene)


def all_scenes(recorder):
    recorder.make_noise()
    form_and_evening(recorder)
    turn_over(recorder)
    restores(recorder)
    recorder.machine.stop(recorder.noise)
    good, recorder.scenes = recorder.scenes, []
    for name in WRONG:
        wrong_evening(recorder, name)
    return good, recorder.scenes
