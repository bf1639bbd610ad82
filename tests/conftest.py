"""What several test files build once."""

import pytest
from library import installed, objects, robots, shared_object  # noqa: F401 (fixtures)
from support import compiled


@pytest.fixture(scope="session")
def failing_heap(tmp_path_factory):
    """The allocator of tests/failing_heap.c, for LD_PRELOAD."""
    return compiled(tmp_path_factory.mktemp("heap") / "heap.so", "-shared", "-fPIC", "tests/failing_heap.c")
