"""Where things are. With `import paths` a run can import what stands in tests/oracles and in tests/harness."""
import sys
from pathlib import Path

TESTS = Path(__file__).resolve().parent.parent
ROOT = TESTS.parent
sys.path[:0] = [str(TESTS / "oracles"), str(TESTS / "harness")]
