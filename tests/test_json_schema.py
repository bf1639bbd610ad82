"""The JSON of robots_audit by docs/audit.schema.json: that of all golden cases, which tests/test_programs.py compares with the program's."""

import copy
import json
import re

import pytest
from support import ROOT, cases_of, wanted_of

validator = pytest.importorskip("jsonschema").Draft202012Validator
SCHEMA = json.loads((ROOT / "docs/audit.schema.json").read_text())
FORMAT = re.compile(r"(?<!\S)--(json|format[ =]json)(?!\S)")
REPORTS = {
    f"{path.stem}: {name}": json.loads(out)
    for path in sorted(ROOT.glob("tests/golden/robots_audit/*.toml"))
    for name, case in cases_of(path.read_text()).items()
    if FORMAT.search(case.get("args", "")) and "room" not in case and (out := wanted_of(case).out).startswith("{")
}


def test_schema():
    validator.check_schema(SCHEMA)


@pytest.mark.parametrize("report", REPORTS.values(), ids=REPORTS)
def test_golden_cases(report):
    validator(SCHEMA).validate(report)


def members_of(value, place=()):
    """Where each member of an object within the value is."""
    if isinstance(value, (dict, list)):
        for key, inner in value.items() if isinstance(value, dict) else enumerate(value):
            if isinstance(value, dict):
                yield *place, key
            yield from members_of(inner, (*place, key))


def shape_of(report, place):
    """The same for each item of an array, and for reports of one kind."""
    return "agents" in report, report.get("old") is None, *("[]" if isinstance(it, int) else it for it in place)


def test_each_member_is_required_and_no_other_is_allowed():
    """Golden cases have each member of the schema."""
    found = {shape_of(report, place): (report, place) for report in REPORTS.values() for place in members_of(report)}
    for report, (*place, name) in found.values():
        for change in (lambda it: it.pop(name), lambda it: it.update({f"{name}_": it[name]})):
            changed = inner = copy.deepcopy(report)
            for key in place:
                inner = inner[key]
            change(inner)
            assert not validator(SCHEMA).is_valid(changed), (place, name)
    properties = {name for definition in SCHEMA["$defs"].values() for name in definition.get("properties", ())}
    assert properties == {place[-1] for _, place in found.values()}
