"""Running Node, and unpacking packages."""

import subprocess


def unpacked(archive, folder):
    """The folder of a package that was packed."""
    folder.mkdir(parents=True)
    subprocess.run(["tar", "-xzf", archive, "-C", folder, "--strip-components=1"], check=True)
    return folder


def node(*words, **options):
    """What Node prints."""
    options = {"capture_output": True, "text": True, "timeout": 180, **options}
    ended = subprocess.run(["node", *map(str, words)], **options)
    assert ended.returncode == 0, ended.stdout[-2000:] + ended.stderr[-4000:]
    return ended.stdout
