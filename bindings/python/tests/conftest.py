"""What the tests of the package use of the tests of the C library."""

import sys
from pathlib import Path

sys.path.insert(0, str(Path(__file__).resolve().parents[3] / "tests"))

from library import installed, objects, robots, shared_object  # noqa: E402, F401 (fixtures)
