"""tests/failing_heap.c does what its comment says: the tests that use it don't see if it fails less."""

import os
import tempfile

import pytest
from support import compiled, run

# Makes four allocations, frees the last two, writes a byte for each that shows whether it failed, and copies its input byte by byte.
PROGRAM = r"""
#include <stdlib.h>
#include <string.h>
#include <unistd.h>
int main(void) {
    void *blocks[4];
    char shown[5] = {0}, bytes[8];
    blocks[0] = malloc(1);
    blocks[1] = calloc(1, 1);
    blocks[2] = malloc(1);
    void *larger = realloc(blocks[2], 100);
    blocks[2] = larger ? larger : blocks[2];
    blocks[3] = larger;
    for (int i = 0; i < 4; i++)
        shown[i] = blocks[i] ? '+' : '-';
    for (size_t at = 0; at < 4;) {
        ssize_t count = write(1, shown + at, 4 - at);
        if (count < 1)
            return count == 0 ? 10 : 11;
        at += (size_t)count;
    }
    ssize_t count, all = 0;
    while ((count = read(0, bytes, sizeof bytes)) > 0)
        all += count == 1 ? 100 : count;
    free(blocks[2]);
    return count < 0 ? 12 : all == 3 ? 0 : all == 300 ? 13 : 14;
}
"""


@pytest.fixture(scope="module")
def caller(tmp_path_factory):
    folder = tmp_path_factory.mktemp("caller")
    (folder / "caller.c").write_text(PROGRAM)
    return compiled(folder / "caller", "-fno-builtin", folder / "caller.c")


@pytest.mark.parametrize(
    "settings, status, shown, counts",
    [
        ({}, 0, "++++", "4 0 2 0 2"),
        ({"FAIL_ALLOCATION": 1}, 0, "-+++", "4 1 1 0 2"),
        ({"FAIL_ALLOCATION": 2}, 0, "+-++", "4 1 1 0 2"),
        ({"FAIL_ALLOCATION": 2, "FAIL_LATER": 1}, 0, "+---", "4 3 1 0 2"),
        ({"FAIL_ALLOCATION": 4}, 0, "+++-", "4 1 2 0 2"),
        ({"FAIL_WRITE": 1}, 11, "", "4 0 3 1 0"),
        ({"FAIL_WRITE": 1, "WRITE_NOTHING": 1}, 10, "", "4 0 3 1 0"),
        ({"FAIL_READ": 1}, 12, "++++", "4 0 2 1 1"),
        ({"FAIL_READ": 2}, 12, "++++", "4 0 2 1 2"),
        ({"PIECE": 1}, 13, "++++", "4 0 2 0 4"),
        ({"PIECE": 1, "FAIL_WRITE": 3}, 11, "++", "4 0 3 1 0"),
    ],
    ids=str,
)
def test_what_fails(failing_heap, caller, settings, status, shown, counts):
    """The counts are allocations, failures, blocks that are left, broken reads and writes, and reads."""
    with tempfile.TemporaryFile() as file:
        given = {name: str(value) for name, value in settings.items()} | {"LD_PRELOAD": str(failing_heap), "COUNTS": str(file.fileno())}
        result = run(caller, (), b"abc", env=os.environ | given, pass_fds=[file.fileno()])
        file.seek(0)
        assert (result.status, result.out, file.read().decode().strip()) == (status, shown, counts)
