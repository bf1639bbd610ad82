"""What the tests of the crate use of the tests of the C library."""

import sys
from pathlib import Path

sys.path.insert(0, str(Path(__file__).resolve().parents[3] / "tests"))

from library import installed, objects  # noqa: E402, F401 (fixtures)
