"""What the system is asked to keep of a program, by its headers."""
import re

import serving
from checking import check


def looked_at(name, program):
    """Full RELRO, any address, and nothing that is both written and executed."""
    said = serving.run("readelf", "-Wld", program)[0]
    check(f"{name}: relocations are done before it starts, and read-only then",
          "GNU_RELRO" in said and re.search(r"FLAGS_1\).* NOW\b", said))
    check("it may stand at any address", re.search(r"FLAGS_1\).* PIE\b", said))
    segments = re.findall(r"^  (?:LOAD|GNU_STACK) .* ([RWE ]{3}) +(?:0x)?[0-9a-f]+$", said, re.M)
    check("and nothing is both written and executed", len(segments) > 2 and not [
        flags for flags in segments if "W" in flags and "E" in flags])
