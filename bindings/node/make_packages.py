"""Puts the packages for Node together, for `release` and the tests. The same files give the same bytes."""

import gzip
import io
import json
import os
import tarfile
from pathlib import Path

HERE = Path(__file__).resolve().parent
ROOT = HERE.parent.parent
VERSION = (ROOT / "VERSION").read_text().strip()
LICENSES = ["LICENSE-MIT", "LICENSE-APACHE"]
# the folder of each package, the module that it has, and its other files, of which one can be several that follow one another
LIBRARY = {
    "lib/core.cjs": ["library/robots.js"],
    "lib/index.cjs": ["library/index.cjs"],
}
PACKAGES = {
    "library": ("robots_c", "lib/robots.wasm", LIBRARY | {
        "lib/core.mjs": ["library/robots.js"],
        "lib/index.mjs": ["library/index.mjs"],
        "lib/index.d.ts": ["library/index.d.ts"],
        "lib/index.d.mts": ["library/index.d.ts"],
        "lib/init.mjs": ["library/init.mjs"],
        "lib/init.d.mts": ["library/init.d.mts"],
    }),
    "robots-parser": ("robots_c", "lib/robots.wasm", LIBRARY | {
        "lib/robots-parser.cjs": ["robots-parser/robots-parser.cjs"],
        "lib/robots-parser.d.ts": ["robots-parser/robots-parser.d.ts"],
    }),
    "audit": ("robots_audit", "lib/robots_audit.wasm", {
        "lib/command.cjs": ["../../web/program.js", "audit/command.js"],
        "bin/robots_audit.cjs": ["audit/robots_audit.cjs"],
    }),
}  # fmt: skip


def content(name, sources):
    """What a file has. As a module of ECMAScript the library exports by another word."""
    text = "".join((HERE / it).read_text() for it in sources)
    if not name.endswith("core.mjs"):
        return text
    front, word, end = text.partition("\nmodule.exports = ")
    assert word and "module.exports" not in end, sources
    return f"{front}\nexport default {end}"


def make_folder(folder, part, modules, licenses):
    """Makes the folder of a package, and returns it."""
    module, place, files = PACKAGES[part]
    metadata = json.loads((HERE / part / "package.json").read_text())
    assert metadata["version"] == VERSION, metadata
    made = {name: content(name, sources).encode() for name, sources in files.items()}
    made |= {name: (HERE / part / name).read_bytes() for name in ("package.json", "README.md")}
    made |= {name: (ROOT / name).read_bytes() for name in LICENSES}
    made |= {"LICENSE-LIBRARIES": licenses[module].encode(), place: Path(modules[module]).read_bytes()}
    for name, data in made.items():
        path = folder / metadata["name"] / name
        path.parent.mkdir(parents=True, exist_ok=True)
        path.write_bytes(data)
        path.chmod(0o755 if name.startswith("bin/") else 0o644)
    return folder / metadata["name"]


def pack(folder, out, epoch):
    """Packs a package as npm does, so that the bytes depend on nothing but its files."""
    packed = io.BytesIO()
    with tarfile.open(fileobj=packed, mode="w", format=tarfile.USTAR_FORMAT) as archive:
        for path in sorted(it for it in folder.rglob("*") if it.is_file()):
            data, entry = path.read_bytes(), tarfile.TarInfo(f"package/{path.relative_to(folder).as_posix()}")
            entry.size, entry.mtime, entry.mode = len(data), epoch, 0o755 if os.access(path, os.X_OK) else 0o644
            archive.addfile(entry, io.BytesIO(data))
    out.write_bytes(gzip.compress(packed.getvalue(), 9, mtime=0))


def make_packages(folder, modules, licenses, epoch=0, completed=lambda tree, part: None):
    """Makes FOLDER/NAME-VERSION.tgz for each package, and the folder FOLDER/NAME that is packed in it. Returns the paths of the archives.
    For the crates `robots_c` and `robots_audit` there are the path of the module that web/make_module.py makes, and a text with the licenses
    of the libraries that are linked into it. Before a folder is packed, it is completed."""
    made = []
    for part in PACKAGES:
        tree = make_folder(folder, part, modules, licenses)
        completed(tree, part)
        made.append(folder / f"{tree.name}-{VERSION}.tgz")
        pack(tree, made[-1], epoch)
    return made
