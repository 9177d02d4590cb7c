#!/usr/bin/env python3
"""Writes the tables of docs/device-table.csv in ACSL, for the contracts of device/cue_device.c.

    device/acsl/table.py > device/acsl/table.h
"""
import csv
from pathlib import Path

TABLE = Path(__file__).resolve().parent.parent.parent / "docs" / "device-table.csv"
COLUMNS = {"standby, the same": "SAME_STANDBY", "standby, another": "OTHER_STANDBY", "standby": "OTHER_STANDBY",
           "go_2pc": "GO", "cancel": "CANCEL"}
ORDERS = {"prepares": "CUE_PREPARE", "moves": "CUE_MOVE", "gives up": "CUE_GIVE_UP"}
FIELDS = {"word": "answer", "order": "begins", "phase": "phase after"}
HEAD = "/* The tables of docs/device-table.csv in ACSL. device/acsl/table.py wrote it. */"


def constant(field, said):
    """The name of what a cell says, as the header and the file have it."""
    if said == "-":
        return "SILENT" if field == "word" else "CUE_NO_ORDER"
    name = said.upper().replace(" ", "_")
    return name if field == "word" else f"CUE_{name}"


def block(name, names, fields, rows):
    """The functions of a table, one for each field, and what each cell says: a row is a cell, its case, its values."""
    lines = [f"  logic integer {name}_{field}({names});" for field in fields]
    for cell, case, values in rows:
        said = [f"{name}_{field}({case}) == {value}" for field, value in zip(fields, values)]
        lines.append(f"  axiom {name}_{cell}: " + " &&\n    ".join(said) + ";")
    return "\n".join([f"/*@ axiomatic {name} {{", *lines, "} */"])


def tables(rows):
    known = [(row, f"{constant('phase', row['phase'])}, {COLUMNS[row['heard']]}")
             for row in rows if row["number"] == "known" and row["heard"] in COLUMNS]
    higher = [(row, f"{int(row['machine'] == 'at work')}, {COLUMNS[row['heard']]}")
              for row in rows if row["number"] == "higher"]
    over = [(row, COLUMNS[row["heard"]]) for row in rows if row["number"] == "over"]
    ended = [(row, ORDERS[row["machine"]]) for row in rows if row["machine"] in ORDERS]
    for name, names, cells, fields in (("known", "integer phase, integer column", known, FIELDS),
                                       ("higher", "integer at_work, integer column", higher, FIELDS),
                                       ("over", "integer column", over, {"word": "answer"}),
                                       ("ended", "integer ended", ended,
                                        {"in": "phase", "word": "answer", "phase": "phase after"})):
        yield block(name, names, fields, [
            (row["cell"], case, [constant("phase" if field == "in" else field, row[said])
                                 for field, said in fields.items()]) for row, case in cells])
    fails = " ||\n      ".join(f"phase == {constant('phase', row['phase'])}" for row in rows if row["cell"] == "N")
    yield f"/*@ predicate can_fail(integer phase) =  // N\n      {fails}; */"


def text():
    rows = [*csv.DictReader(TABLE.read_text().splitlines())]
    return "\n\n".join([HEAD, *tables(rows)]) + "\n"


if __name__ == "__main__":
    print(text(), end="")
