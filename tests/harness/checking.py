"""How a run says that something holds or does not. The first thing that does not hold ends the run with status 1."""
import sys

counted = 0


def check(what, holds):
    """Prints a line for what holds."""
    print(f"{'ok  ' if holds else 'FAIL'} {what}", flush=True)
    if not holds:
        sys.exit(1)


def check_quietly(what, holds, found=None):
    """Counts what holds, for runs with thousands of checks."""
    global counted
    counted += 1
    if not holds:
        sys.exit(f"FAIL {what}" + (f": {found}" if found else ""))
