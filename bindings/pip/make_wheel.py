"""Makes the wheel `robots_audit`, which has the program and nothing else, for `release` and the tests. The same files give the same bytes."""

import base64
import hashlib
import time
import zipfile
from pathlib import Path

HERE = Path(__file__).resolve().parent
ROOT = HERE.parent.parent
VERSION = (ROOT / "VERSION").read_text().strip()
LICENSES = ["LICENSE-MIT", "LICENSE-APACHE"]
METADATA = """\
Metadata-Version: 2.1
Name: robots-audit
Version: {version}
Summary: Explains a robots.txt file, and warns of mistakes: a formally verified program
License: MIT OR Apache-2.0
Keywords: robots.txt,robots exclusion protocol,rfc9309,audit,lint,seo,formal verification
Classifier: Environment :: Console
Classifier: Operating System :: POSIX :: Linux
Classifier: Topic :: Internet :: WWW/HTTP :: Site Management
Requires-Python: >=3.7
Description-Content-Type: text/markdown
{licenses}

{readme}"""
WHEEL = "Wheel-Version: 1.0\nGenerator: texting_robots\nRoot-Is-Purelib: false\nTag: {tag}\n"


def make_wheel(work, out, program, licenses, glibc, epoch, completed=lambda path: None):
    """Makes the wheel in the folder `out`, and returns its path. The program needs the GNU C library of this version, such as (2, 17), and has
    libraries with these licenses. Before the wheel is packed, its METADATA is completed."""
    tag = f"py3-none-manylinux_{glibc[0]}_{glibc[1]}_x86_64"
    named = "\n".join(f"License-File: {it}" for it in [*LICENSES, "LICENSE-LIBRARIES"])
    info, script = f"robots_audit-{VERSION}.dist-info", f"robots_audit-{VERSION}.data/scripts/robots_audit"
    texts = {it: (ROOT / it).read_text() for it in LICENSES} | {"LICENSE-LIBRARIES": licenses}
    texts |= {"METADATA": METADATA.format(version=VERSION, licenses=named, readme=(HERE / "README.md").read_text())}
    texts |= {"WHEEL": WHEEL.format(tag=tag)}
    folder = work / info
    folder.mkdir(parents=True)
    for name, text in texts.items():
        (folder / name).write_text(text)
    completed(folder / "METADATA")
    files = {f"{info}/{name}": (folder / name).read_bytes() for name in texts} | {script: Path(program).read_bytes()}
    record = "".join(f"{name},sha256={hash_of(data)},{len(data)}\n" for name, data in files.items()) + f"{info}/RECORD,,\n"
    wheel = out / f"robots_audit-{VERSION}-{tag}.whl"
    with zipfile.ZipFile(wheel, "w") as packed:
        for name, data in [*files.items(), (f"{info}/RECORD", record.encode())]:
            entry = zipfile.ZipInfo(name, time.gmtime(max(int(epoch), 315532800))[:6])  # zip knows no year before 1980
            entry.compress_type, entry.external_attr = zipfile.ZIP_DEFLATED, (0o100755 if name == script else 0o100644) << 16
            packed.writestr(entry, data)
    return wheel


def hash_of(data):
    return base64.urlsafe_b64encode(hashlib.sha256(data).digest()).decode().rstrip("=")
