"""What is found of a store on an image of a disk, and whether it may be so."""
import model
import store_reader
import store_writer

from power_cut.scenes import DESK, FIRST, PORT, SECOND, say

FAULTS = ("NotFound", "Unformed", "Damaged", "Malformed", "Version", "Io", "Disk", "Memory")
LOST, DAMAGED, OTHER = "lost", "damaged", "other"


def files(place, scene):
    """The bytes of both files, or why one cannot be read."""
    return tuple(place.read(f"{place.root}/{scene.folder}/{name}.area") for name in "ab")


def read(found):
    """The state of two files by the second reader, or a word."""
    if not any(isinstance(each, str) for each in found):
        return store_reader.state_of(*found)
    why = next(each for each in found if isinstance(each, str))
    return "NotFound" if why == "No such file or directory" else f"unreadable: {why}"


def all_of(state):
    """All that a state has, of model.py as of store_reader.py; a word is itself."""
    if isinstance(state, str):
        return state
    live = []
    for number, attempt in sorted(state.live.items()):
        of_model = isinstance(attempt["stage"], str)
        answers = {device: store_writer.ANSWERS.index(answer) if of_model else answer
                   for device, answer in attempt["answers"].items()}
        live.append((number, attempt["cue"], store_writer.stage(attempt) if of_model else attempt["stage"], answers))
    return list(state.devices.items()), list(state.cues.items()), state.place, state.last, state.ended, live


def shown(place, scene):
    """What `cuectl show` prints: lines, or the word of a fault."""
    printed, status = place.sh(f"cuectl show {place.root}/{scene.folder} 2>/dev/null")
    return printed.splitlines() if status == 0 else printed.strip().removeprefix("! ") or f"status {status}"


def judged(scene, moment, state):
    """None if a state or a word may be found at this moment, else the kind of fault and its words; and the number of
    the state."""
    found, known = all_of(state), [all_of(one) for one in scene.states]
    acked, sent = scene.window(moment)
    for number in range(max(acked, 0), sent + 1):
        if found == known[number]:
            return None, number
    if acked < 0 and (scene.early is None or found in map(all_of, scene.early)):
        return None, None
    if found in known:
        return (LOST, f"state {known.index(found)} in place of {acked} to {sent}"), None
    if isinstance(found, str):
        return (LOST if found in ("NotFound", "Unformed") else DAMAGED if found in FAULTS else OTHER, found), None
    return (OTHER, f"a state that never was: {list(state.lines())}"), None


def looked_at(place, scene, image, served=True):
    """None, or the kind of fault and its words."""
    place.show(image.blocks)
    why = place.mount()
    if why:
        return OTHER, f"it cannot be mounted: {why}"
    try:
        state = read(files(place, scene))
        fault, number = judged(scene, image.moment, state)
        if fault or not served:
            return fault
        printed, lines = shown(place, scene), state if isinstance(state, str) else list(state.lines())
        if printed != lines:
            return OTHER, f"cuectl shows {printed}, and the reader {lines}"
        return served_again(place, scene, number) if number is not None else None
    finally:
        place.unmount()


def served_again(place, scene, number):
    """Serves the store: it recovers this state, and sends what it owes."""
    state = scene.states[number]
    recovered, owed = model.give_up(state, state.undecided(), 4)
    for port in (DESK, FIRST, SECOND):
        while place.hear(port, 0) is not None:
            pass
    process = place.start(f"exec cuectl serve {place.root}/{scene.folder} --port {PORT} --turns 1000000")
    try:
        if not answers(place):
            return OTHER, f"serve does not answer: {place.sh(f'cat {place.printed}')[0]}"
        for port, order in owed:
            if order not in heard(place, port, order):
                return OTHER, f"{order} was not sent to {port}"
    finally:
        place.stop(process)
    found = read(files(place, scene))
    return None if all_of(found) == all_of(recovered) else (OTHER, f"recovered to {all_of(found)}")


def heard(place, port, order):
    """Datagrams at a port, up to this one."""
    got = []
    while order not in got and (one := place.hear(port, 5)) is not None:
        got.append(one)
    return got


def answers(place):
    for _ in range(100):
        place.say(DESK, PORT, say("/status"))
        if place.hear(DESK, 0.1):
            return True
        if "! " in place.sh(f"cat {place.printed}")[0]:
            return False
    return False
