"""The packages for Node, made of modules that aren't proved, or those in the folder that NODE_PACKAGES names, such as a release's. NODE_FILES is
how many random files are compared with the native library; of a release it is 20000."""

import os
import shutil
import sys
from pathlib import Path

import pytest

HERE = Path(__file__).resolve().parent
sys.path[:0] = [str(HERE.parents[2] / "tests"), str(HERE.parent)]

from in_node import unpacked  # noqa: E402
from library import installed, objects, shared_object  # noqa: E402, F401 (fixtures)

MISSING = [it for it in ("node", "wasm-opt") if not shutil.which(it)]


def pytest_collection_modifyitems(items):
    reason = f"{', '.join(MISSING)} is missing"
    for it in [it for it in items if MISSING and HERE in it.path.parents]:
        it.add_marker(pytest.mark.skip(reason=reason))


@pytest.fixture(scope="session")
def archives(tmp_path_factory):
    """The archive of each package by its name."""
    if given := os.environ.get("NODE_PACKAGES"):
        found = sorted(Path(given).absolute().glob("*.tgz"))
    else:
        from builds import built
        from make_packages import make_packages

        folder, made = tmp_path_factory.mktemp("packages"), built("node", "page")
        modules = {"robots_c": made["node"], "robots_audit": made["page"]}
        found = make_packages(folder, modules, dict.fromkeys(modules, "Licenses are in a release."))
    return {it.name.rsplit("-", 1)[0]: it for it in found}


@pytest.fixture(scope="session")
def packages(archives, tmp_path_factory):
    """The folder of each package by its name."""
    folder = tmp_path_factory.mktemp("unpacked")
    return {name: unpacked(archive, folder / name) for name, archive in archives.items()}
