"""tests/harness/level_trap.c with one duty of docs/DEVICES.md broken: what a maker may do wrong over a right library.

`program` builds the one of a key of BROKEN. Beside it are the id of the requirement, what the tester needs for it, what
stands in the file, and what is put in its place.
"""
from pathlib import Path

import building

HARNESS = Path(__file__).resolve().parent
HEARD = "        order = cue_hear(&device, &place, datagram, (size_t)length, &answer);\n"
BROKEN = {
    "moves-at-the-standby": ("2a", "", "        is_bolt_drawn = true;\n",
                             "        is_bolt_drawn = true;\n        machine.motions += machine.position != target;\n"
                             "        machine.position = target;\n        note_machine();\n"),
    "stands-by-before-its-bolt": ("1a", "", "    work = order;\n",
                                  "    if (order == CUE_PREPARE) {\n        struct cue_answer early;\n"
                                  "        (void)cue_prepared(&device, &early);\n        send_answer(&early);\n    }\n"
                                  "    if (order == CUE_MOVE && time < work_ends) {\n        cannot();\n"
                                  "        return;\n    }\n    work = order == CUE_PREPARE ? CUE_NO_ORDER : order;\n"),
    "takes-its-oldest-record": ("13a", "restart", "record.count > stored.count", "record.count < stored.count"),
    "keeps-its-first-record": ("13a", "restart", "    if (device.last == stored.last && ",
                               "    if (stored.last > 0u && "),
    "aborts-from-another-port": ("12a", "fault", "    (void)cue_tick(&device, &answer);\n    send_answer(&answer);\n",
                                 "    (void)cue_tick(&device, &answer);\n    if (answer.length > 0u) {\n"
                                 "        const int own = udp;\n        udp = socket(AF_INET, SOCK_DGRAM, 0);\n"
                                 "        send_answer(&answer);\n        close(udp);\n        udp = own;\n    }\n"),
    "reads-its-level-while-it-moves": ("3b", "", "    const int32_t left = target - machine.position,",
                                       "    if (device.bytes_length == 1u)\n        target = device.bytes[0] * LEVEL;\n"
                                       "    const int32_t left = target - machine.position,"),
    "reads-one-datagram-in-a-while": ("3a", "", "        hear_all();\n        if (is_open",
                                      "        if (work == CUE_NO_ORDER)\n            hear_all();\n"
                                      "        else\n            usleep(1000 * STEP);\n        if (is_open"),
    "trap-that-obeys-bundles": ("10d", "", HEARD,
                                "        if (length > 20 && memcmp(datagram, \"#bundle\", 8) == 0)\n"
                                "            order = cue_hear(&device, &place, datagram + 20, (size_t)length - 20u, "
                                "&answer);\n        else\n    " + HEARD),
    "trap-that-hears-strangers": ("14a", "", "    (void)cue_hear_only(&device, &only);\n", ""),
    "aborts-at-its-fault-alone": ("9a", "fault", "time + TICK_TIME", "time + 1000 * TICK_TIME"),
}


def program(folder, which):
    """The path of the trap that breaks this one."""
    _, _, there, wrong = BROKEN[which]
    source = (HARNESS / "level_trap.c").read_text()
    if source.count(there) != 1:
        raise ValueError(f"{which}: {there!r} stands {source.count(there)} times in level_trap.c")
    changed = Path(folder) / f"{which}.c"
    changed.write_text(source.replace(there, wrong))
    return building.program(folder, which, changed, building.ROOT / "device" / "cue_device.c")
