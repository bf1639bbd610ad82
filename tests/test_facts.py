"""Facts that no program prints: numbers of the header, the known crawlers, and the keys of golden cases."""

import re

import pytest
from support import CRATES, KEYS, ROOT, run, tables

SOURCES = "".join(path.read_text() for path in sorted(CRATES.glob("*/src/**/*.rt")))


def constant(name):
    """The number that the sources give a constant."""
    (value,) = re.findall(rf"\bconst {name}: \w+ = ([\d_]+);", SOURCES)
    return int(value.replace("_", ""))


def test_the_limit_of_the_header():
    header = (CRATES / "robots_c/robots.h").read_text()
    for name in ("LIFETIME", "REDIRECT_LIMIT", "FILE_LIMIT"):
        assert re.findall(rf"#define ROBOTS_{name} (\d+)", header) == [str(constant(name))]
    assert constant("LIFETIME") == 24 * 60 * 60


KNOWN = re.search(r"static CRAWLERS: .*?\n\];", SOURCES, re.S)[0]
CRAWLERS = dict(re.findall(r'\("([^"]+)", "([^"]*)"\)', KNOWN))  # with the group that the vendor of each applies


def test_table_of_known_crawlers():
    """Each name is there once, ASCII case ignored, and each group is that of a known crawler, and below a source."""
    assert len(CRAWLERS) == len({name.lower() for name in CRAWLERS}) == KNOWN.count('("') == int(re.search(r"&str\); (\d+)\]", KNOWN)[1])
    for name, group in CRAWLERS.items():
        assert group in ("*", "") or CRAWLERS[group] == "*", name
    for block in re.findall(r"((?:    //.*\n)+)((?:    \(.*\n?)+)", KNOWN):
        assert "https://" in block[0] or set(re.findall(r'"([^"]*)"\)', block[1])) == {"*"}, block[1]


def test_groups_that_vendors_apply():
    """By the vendors' documents, which the table names: the group of another crawler, or none in place of that of *."""
    others = {
        "Googlebot": "Googlebot-Image Googlebot-News Googlebot-Video Google-InspectionTool Storebot-Google Google-CloudVertexBot Applebot",
        "GoogleOther": "GoogleOther-Image GoogleOther-Video",
        "Yandex": "YandexBot YandexImages YandexVideo YandexMedia YandexBlogs YandexMarket YandexWebmaster YandexPagechecker",
        "": "AdsBot-Google AdsBot-Google-Mobile APIs-Google Mediapartners-Google YandexMobileBot YandexMetrika YandexDirect",
    }
    assert {name: group for name, group in CRAWLERS.items() if group != "*"} == {name: group for group, names in others.items() for name in names.split()}


def test_names_are_spelled_as_their_owners_spell_them():
    """As far as a file in the wild has them."""
    names = set(re.findall(r"^User-agent: (\S+)$", (ROOT / "tests/wild/ai-robots-txt.txt").read_text(), re.M))
    known = {name for name in CRAWLERS if name.lower() in {it.lower() for it in names}}
    assert len(known) > 20 and known <= names


@pytest.mark.parametrize("name", [name for name, group in CRAWLERS.items() if group != "*"])
def test_crawler_with_another_group_has_its_note(name):
    """The specification takes the names from the source, so no proof sees a wrong one."""
    note, group = ("vendor-group", CRAWLERS[name]) if CRAWLERS[name] else ("star-ignoring-crawler", "*")
    result = run("robots_audit", ["-q", "--agent", name, "-"], f"User-agent: {group}\nDisallow: /a\n".encode())
    assert f" [{note}]\n" in result.err and (group == "*" or f" (see the group of {group})" in result.err)
    result = run("robots_audit", ["-q", "--agent", name, "-"], f"User-agent: {group}\nUser-agent: {name}\nDisallow: /a\n".encode())
    assert result.err == ""


def test_keys_of_golden_cases():
    table = [row for row in tables((ROOT / "tests/test_programs.py").read_text()) if row[0].startswith("`")]
    assert {name for row in table for name in re.findall(r"`([^`]+)`", row[0])} == KEYS
