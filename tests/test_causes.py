"""Each warning has a golden case in which it is given, and a near miss that differs in one line of the file, or in one word of the
arguments that isn't an option, in which it isn't. Their names: `/usr/bin/python3 tests/test_causes.py`."""

import functools
from os.path import commonprefix

import pytest
from support import ALL_WARNINGS, ROOT, cases_of, parts_of, repeated, warnings_of


def row_of(name, level, text):
    """The number of the warning with this message."""
    rows = [number for number, row in enumerate(ALL_WARNINGS) if (row["name"], row["level"]) == (name, level) and row["text"] in text]
    return max(rows, key=lambda number: len(ALL_WARNINGS[number]["text"]))


def given(case):
    """The numbers of the warnings that a case says are given."""
    return {row_of(*parts_of(line)[1:]) for line in warnings_of(case)}


@functools.cache
def inputs():
    """For each case that reports on one file, its arguments, the lines of the file as they are written there, and what is given."""
    found = {}
    for path in sorted((ROOT / "tests/golden/robots_audit").glob("*.toml")):
        for name, case in cases_of(path.read_text()).items():
            if not case.keys() & {"from", "expect", "old", "room"}:
                words = tuple(repeated(case.get("args", "")).split())
                found[f"{path.stem}: {name}"] = (words, tuple(case.get("file", "").split("\n")), given(case))
    return found


def differing(one, other):
    """What differs between two sequences: all between what both begin and end with."""
    front = len(commonprefix([one, other]))
    one, other = one[front:], other[front:]
    end = len(commonprefix([one[::-1], other[::-1]]))
    return one[: len(one) - end], other[: len(other) - end]


def distance(one, other):
    """How much two cases differ, or nothing if that is more than a line or a word."""
    part = 0 if one[0] != other[0] else 1
    parts = differing(one[part], other[part])
    if max(map(len, parts)) > 1 or one[1 - part] != other[1 - part] or (part == 0 and any(it.startswith("-") for it in parts[0] + parts[1])):
        return None
    return max(map(len, differing("".join(parts[0]), "".join(parts[1])))) + abs(len(parts[0]) - len(parts[1]))


@functools.cache
def pairs():
    """For each warning, the case and the near miss that differ the least, of those that stand not far from one another."""
    found, cases = {}, list(inputs().items())
    for at, (name, one) in enumerate(cases):
        for other_name, other in cases[max(at - 40, 0) : at + 41]:
            missed = {it for it in one[2] - other[2] if it not in found or found[it][0] > 1}
            far = distance(one, other) if missed else None
            for number in missed if far is not None else ():
                found[number] = min(found.get(number, (far, name, other_name)), (far, name, other_name))
    return {number: it[1:] for number, it in found.items()}


def test_no_deletion_is_advised_where_a_delay_parts_two_groups():
    """For RFC 9309, Googlebot has the rule of the other group; if the delay were deleted, it would have it here, too."""
    path = ROOT / "tests/golden/robots_audit/standard.toml"
    found = list(warnings_of(cases_of(path.read_text())["a delay below Googlebot's name, and --strict"]))
    assert len(found) == 4 and "delete" not in "\n".join(found)


@pytest.mark.parametrize("number", range(len(ALL_WARNINGS)), ids=lambda it: f"{it} {ALL_WARNINGS[it]['name']} {ALL_WARNINGS[it]['level']}")
def test_each_warning_has_a_case_and_a_near_miss(number):
    assert number in pairs()


if __name__ == "__main__":
    for number, row in enumerate(ALL_WARNINGS):
        print(number + 1, row["level"], row["name"], *(f"\n    {it}" for it in pairs().get(number, ["NONE"])))
