"""The files of the comparison, with a crawler and URLs for each: small ones as content management systems have them, large ones as
shops and encyclopedias have them, and hostile ones. This program writes them, so that everyone compares the same bytes:

    python3 bench/corpus.py FOLDER

With `--audit` it writes two files instead, on which a report about all crawlers takes long; with `--compare` two versions of a
file, on which a comparison does.
"""

import sys
from pathlib import Path
from typing import NamedTuple

HOST = "https://www.example.com"
WORDS = "account admin ajax archive basket brand cart catalog checkout compare coupon customer feed filter gallery help index".split()
WORDS += "invoice login mail media member news order page print product profile review search session share sort tag temp user wish".split()
STAR = ["*"]
BOTS = [f"Bot{number}" for number in range(2000)]


class Case(NamedTuple):
    name: str
    file: bytes
    agent: str
    urls: list[str]
    differs: dict[str, str]  # the URLs for which other parsers may have another result, with the difference in docs/COMPATIBILITY.md


def words(number):
    """The nth path of one to three words."""
    first, second, third = (WORDS[number // len(WORDS) ** place % len(WORDS)] for place in range(3))
    return f"{first}/{second}-{number}" if number % 3 else f"{third}-{number}/{first}/{second}"


def plain(count):
    """Rules without wildcards, one Allow in eight."""
    return [f"{'Allow' if number % 8 == 7 else 'Disallow'}: /{words(number)}" for number in range(count)]


def starred(count):
    """Rules of shops: parameters, file types, parts of paths."""
    shapes = ("/*?{}=", "/*/{}/*.php", "/{}/*/print$", "/*{}*sort=", "/*.{}$", "/{}*")
    return [f"Disallow: {shapes[number % len(shapes)].format(words(number))}" for number in range(count)]


def group(agents, rules, delay=None):
    """A group of these crawlers with these rules."""
    names = "".join(f"User-agent: {agent}\n" for agent in agents)
    return names + "".join(f"{rule}\n" for rule in rules) + (f"Crawl-delay: {delay}\n" if delay else "") + "\n"


def groups(count, delay=None):
    """A group that denies everything for each of so many crawlers."""
    return "".join(group([bot], ["Disallow: /"], delay) for bot in BOTS[:count])


def html():
    """A page, as servers send that have no robots.txt."""
    rows = (f'<li><a href="/{words(number)}" title="{words(number)}">Page: {number} of 1,000</a></li>\n' for number in range(1000))
    return "<!DOCTYPE html>\n<html>\n<head><title>Not found</title></head>\n<body>\n<ul>\n" + "".join(rows) + "</ul>\n</body>\n</html>\n"


# Paths for which files have no rule, mostly.
USUAL = [f"/{words(number)}" for number in (3, 7, 50, 333)] + [f"/shop/{words(number)}?page={number}&sort=price" for number in (11, 12, 4000)]
USUAL += ["/", "/index.html", "/about/team.html", "/blog/2026/11/a-longer-title-of-a-post-about-tea", "/img/a.png"]


def case(name, text, *paths, agent="FerrisBot", differs=()):
    """A file with these paths and the usual ones."""
    file = text if isinstance(text, bytes) else text.encode()
    return Case(name, file, agent, [HOST + path for path in (*paths, *USUAL)], {HOST + path: what for path, what in dict(differs).items()})


def cases():
    """All files, from small to hostile."""
    ajax, print_page, script = "/wp-admin/admin-ajax.php", "/ajax/account-2/print", "/x/admin/account-1/y.php"
    pattern = {script: "wildcards"}
    yield case("empty", b"")
    blog = group(STAR, ["Disallow: /wp-admin/", f"Allow: {ajax}"]) + f"Sitemap: {HOST}/sitemap.xml\n"
    yield case("blog", blog, "/wp-admin/options.php", ajax, differs={ajax: "order of rules"})
    yield case("forum", group(STAR, plain(30)) + group(["BadBot"], ["Disallow: /"]))
    yield case("shop", group(STAR, plain(60) + starred(60)), print_page, script, differs=pattern)
    yield case("large shop", group(STAR, plain(400) + starred(400)), print_page, script, differs=pattern)
    yield case("encyclopedia", groups(60) + group(STAR, plain(400), 1))
    yield case("300 groups", groups(300, 5) + group(STAR, plain(10)), agent="Bot250")
    yield case("one group of 2,000", group(BOTS, ["Disallow: /"]) + group(STAR, plain(10)), agent="Bot1999")
    yield case("5,000 prefixes", group(STAR, plain(5000)))
    yield case("1,000 rules with stars", group(STAR, starred(1000)), print_page, script, differs=pattern)
    pdf = "/admin/account-1.pdf"
    ends = [f"Disallow: /{words(number)}.pdf$" for number in range(400)]
    yield case("400 rules with $", group(STAR, ends), pdf, differs={pdf: "wildcards"})
    yield case("comments", "# who may read what\n" * 8000 + group(STAR, plain(10)))
    yield case("2,000 sitemaps", group(STAR, plain(10)) + "".join(f"Sitemap: {HOST}/s{number}.xml\n" for number in range(2000)))
    cafes = [f"Disallow: /caf\u00e9/{word}/\u8336" for word in WORDS]
    yield case("not ASCII", group(STAR, cafes), "/caf\u00e9/cart/\u8336")
    yield case("a byte that isn't UTF-8", b"# caf\xe9\n" + group(STAR, plain(100)).encode())
    yield case("an HTML page", html())
    stars = {USUAL[10]: "wildcards"}
    yield case("stars between letters", group(STAR, ["Disallow: /*a*ab"] * 20), "/" + "a" * 300, differs=stars)
    nuls = {path: "NUL" for path in (USUAL[0], *USUAL[2:4])}
    yield case("NULs end lines", group(STAR, plain(10000)).replace("\n", "\0"), differs=nuls)


def audited(folder):
    """Writes 126 kB of mixed rules in 60 groups, and 500 kB of Disallows in one group."""
    folder.mkdir(parents=True, exist_ok=True)
    count = 3780
    mixed = [rule for pair in zip(plain(count), starred(count)) for rule in pair][:count]
    in_groups = "".join(group([bot], mixed[number::60]) for number, bot in enumerate(BOTS[:60]))
    in_one = group(STAR, [f"Disallow: /{words(number)}" for number in range(20000)])
    for name, text, size in (("groups", in_groups, 126_000), ("plain", in_one, 500_000)):
        (folder / f"{name}.robots.txt").write_text(text[: text.rindex("\n", 0, size) + 1])


def compared(folder):
    """Writes two versions of 500 kB: rules with stars, and the same with one star more in each."""
    folder.mkdir(parents=True, exist_ok=True)
    rules = [rule.replace("/", "/*").removesuffix("$") for rule in starred(20000)]
    for name, end in (("old", ""), ("new", "*")):
        text = group(STAR, [rule + end for rule in rules])
        (folder / f"{name}.robots.txt").write_text(text[: text.rindex("\n", 0, 500_000) + 1])


def written(folder):
    """Writes `NUMBER.robots.txt` and `NUMBER.urls.txt` for each case, and `index.tsv` with number, crawler and name."""
    folder.mkdir(parents=True, exist_ok=True)
    index = ""
    for number, it in enumerate(cases()):
        (folder / f"{number}.robots.txt").write_bytes(it.file)
        (folder / f"{number}.urls.txt").write_text("".join(f"{url}\n" for url in it.urls), "utf-8")
        index += f"{number}\t{it.agent}\t{it.name}\n"
    (folder / "index.tsv").write_text(index, "utf-8")


if __name__ == "__main__":
    write = audited if "--audit" in sys.argv else compared if "--compare" in sys.argv else written
    write(Path(sys.argv[-1]))
