"""What no contract states: allocation errors come from calls that allocate, and what can be derived isn't written by hand."""

import re

import pytest
from support import CRATES

SOURCES = {path.relative_to(CRATES).as_posix(): path.read_text() for path in sorted(CRATES.glob("*/src/**/*.rt"))}

# The allocation errors, with their status in C. No call returns `InvalidRobots`, so a match may turn it into one of them.
FAILED = r"(?:\b(?:\w+::)*(?:AllocError|AllocFailed|OutOfMemory|Overflow|Memory|InvalidRobots)\b|(?<![\w.])-2\b)"

# Where else the sources construct such an error, and why.
CONSTRUCTED = {
    ("audit_core/src/error.rt", "Error::Memory"): "`write!` into a report fails only if an allocation does",
    ("robots_rules/src/lines.rt", "AllocError"): "a list that can't grow; `RobotError` takes only this error",
    ("texting_robots/src/segments.rt", "AllocError"): "an index has more than 32 bits, as none has in a file of at most `FILE_LIMIT` bytes",
    ("robots_examples/src/tests.rt", "CacheError::Memory"): "an error whose message is printed",
    ("texting_robots_tests/src/calls.rt", "Error::InvalidRobots"): "an error whose message is printed",
    ("texting_robots_tests/src/calls.rt", "Error::Memory"): "an error whose message is printed",
}

# A pattern of such errors alone. A match may turn them into another one. Only `Overflow` of `url` can occur without a failed allocation:
# it means that a URL has 4 GiB or more.
FROM_FAILED = rf"(?=[^|]*{FAILED})(?:\w+(?:::\w+)*\(|{FAILED}|[\s|)])*"

# The traits that are implemented by hand, because a derive would do something else.
BY_HAND = {
    "Debug for MinRegex": "prints the pattern as it was passed",
    "PartialEq for MinRegex": "compares the patterns as they were passed",
    "Eq for MinRegex": "requires `PartialEq`, which is written by hand",
    "Ord for MinRegex": "puts a longer pattern first",
    "PartialOrd for MinRegex": "agrees with `Ord`, which is written by hand",
    "Debug for Rules": "prints the rules, and not the tables that are computed from them",
    "Hash for Value": "hashes the bytes in one piece",
    "PartialEq for Value": "says that it is `bytes_eq`, for the proofs",
    "Eq for Value": "requires `PartialEq`, which is written by hand",
}


def without(text, *starts):
    """The text without the parts that begin with one of these patterns, which end with an opening bracket, up to its closing bracket."""
    for start in starts:
        while found := re.search(start, text):
            end, depth = found.end(), 1
            while depth:
                depth += {"(": 1, "{": 1, ")": -1, "}": -1}.get(text[end], 0)
                end += 1
            text = text[: found.start()] + text[end:]
    return text


def code(text):
    """The expressions and patterns of a source, without the `From` impls of `AllocError` and `AllocFailed`."""
    text = re.sub(r'//.*|"(?:[^"\\]|\\[\s\S])*"|b?\'(?:[^\'\\]|\\.)\'', lambda it: "" if it[0].startswith("/") else '""', text)
    text = without(text, r"\b(?:ensures|requires)\*? *\w* *\{", r"\bghost \w+(?: =|:) \{", r"\b(?:enum|struct) [^{}();]*[{(]")
    text = without(text, r"\bmatches!\(")
    text = re.sub(r"\bghost use [^;]*;|\buse (?![^;]* as )[^;]*;|(?<=\bfn )\w[^{}]*?(?=\{|;\n)", "", text)
    return without(text, r"\bimpl(?:<T: Drop>)? From<(?:AllocError|AllocFailed<T>)> for \w+ \{")


def constructed(text):
    """The allocation errors that a source constructs, but for those that a match makes of one that it names."""

    def left_of(arm):
        return arm["value"] if not re.fullmatch(FROM_FAILED, arm["pattern"]) else ""

    return re.findall(FAILED, re.sub(r"(?P<pattern>[^,;{}]*?)=>(?P<value>[^,;{}]*)", left_of, code(text)))


def test_allocation_errors_come_from_calls_that_allocate():
    found = {(path, name) for path, text in SOURCES.items() for name in constructed(text)}
    assert found == CONSTRUCTED.keys()


@pytest.mark.parametrize(
    "line",
    [
        "Err(_) => Err(Error::Memory),",
        "Err(Error::Memory | Error::InvalidRule) => Err(AllocError),",
        "Pair { left, right } => Err(Error::Memory),",
        "Err(error) if is_memory(&error) => Err(Error::Memory),",
        "_ => { return Err(AllocError); }",
        "_ => checked.ok_or(Error::Memory)?,",
        '_ => say("a \\\n b", Error::Memory),',
        "_ => -2,",
    ],
)
def test_constructed_error_is_found(line):
    text = f"fn f() -> Result<(), AllocError> {{ match g() {{ Err(AllocError) => Err(Error::Memory), {line} }} }}"
    assert len(constructed(text)) == 1


def test_derives_are_not_replaced():
    traits = "Clone|Copy|Debug|Default|Eq|Hash|Ord|PartialEq|PartialOrd"
    found = [
        f"{name} for {of}"
        for text in SOURCES.values()
        for name, of in re.findall(rf"\bimpl\b[^{{}};]*?\b({traits})(?:<[^{{}}]*>)? for (\w+)", code(text))
    ]
    assert sorted(found) == sorted(BY_HAND)


def test_other_crates_use_the_shared_lemmas_of_the_library():
    """So all others can change."""
    texts = [path.read_text() for folder in ("src", "specs", "proofs") for path in CRATES.glob(f"[!t]*/{folder}/**/*.*t")]
    modules = {name for text in texts for name in re.findall(r"\btexting_robots(?:\.|::)proofs(?:\.|::)(\w+|{)", text)}
    assert modules == {"Shared"}
    used = {name for text in texts for names in re.findall(r"\bproofs(?:\.|::)Shared(?:\.|::)(\w+|{[^}]*})", text) for name in re.findall(r"\w+", names)}
    shared = re.findall(r"(\w+)[,}]", (CRATES / "texting_robots/proofs/Shared.antt").read_text().split("\n\n")[1])
    assert sorted(used) == sorted({*shared})
