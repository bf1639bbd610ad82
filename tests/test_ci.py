"""The hook, the Makefile rule and the steps of the workflows in docs/CI.md, run on a repository with a good and with a bad robots.txt."""

import json
import os
import re
import subprocess

import pytest
from support import DOCUMENTS, program, shown

GOOD = "User-agent: *\nDisallow: /private/\n"
EXPECTED = "allow Googlebot /products/tea\ndeny Googlebot /private/tea\n"
BAD = {
    "an expectation fails": "User-agent: *\nDisallow: /\n",
    "a warning is an error": "User-agent: *\nDisallow: /private/\nDisallow: cart\n",
}


def blocks(language):
    """The code blocks of the document in this language."""
    return re.findall(rf"^```{language}\n(.*?)^```$", DOCUMENTS["docs/CI.md"], re.M | re.S)


def commands(workflow):
    """The commands of each step of a workflow that has some, and whether the step runs after one that failed."""
    steps = re.findall(r"^ {6}- (.*\n(?: {8}.*\n)*)", workflow, re.M)
    runs = [re.match(r"run: (?:\|\n((?: {10}.*\n)*)|(.*)\n)", step) for step in steps]
    return [(re.sub("^ {10}", "", run[1] or run[2], flags=re.M), "\n        if: always()\n" in step) for step, run in zip(steps, runs) if run]


@pytest.fixture
def folder(tmp_path):
    """A repository with a good robots.txt, its expectations, and the program as `tools/robots_audit`, which is on the path too."""
    (tmp_path / "robots.txt").write_text(GOOD)
    (tmp_path / "expect.txt").write_text(EXPECTED)
    (tmp_path / "tools").mkdir()
    (tmp_path / "tools/robots_audit").symlink_to(program("robots_audit"))
    ran(tmp_path, "git init -q && git add robots.txt expect.txt")
    return tmp_path


def ended(folder, command):
    """What a shell command in the folder ended with."""
    given = {"PATH": f"{folder / 'tools'}:{os.environ['PATH']}", "HOME": str(folder)}
    given |= {f"GIT_{who}_{what}": "a@b.example" for who in ("AUTHOR", "COMMITTER") for what in ("NAME", "EMAIL")}
    return subprocess.run(["bash", "-ec", command], cwd=folder, env=given, capture_output=True, timeout=60, text=True)


def ran(folder, command):
    """The exit status of a shell command in the folder."""
    return ended(folder, command).returncode


def makefile(folder):
    (folder / "Makefile").write_text(blocks("make")[0])
    return ran(folder, "make check-robots")


def hook(folder):
    path = folder / ".git/hooks/pre-commit"
    path.parent.mkdir(exist_ok=True)
    path.write_text(blocks("sh")[0])
    path.chmod(0o755)
    return ran(folder, "git add robots.txt && git commit -qm robots")


def workflow(folder):
    """The first status of a step that isn't 0. Each of the later steps runs all the same, as it says."""
    expectations, *others = commands(blocks("yaml")[0])
    assert not expectations[1] and len(others) == 2 and all(always for _, always in others)
    return max([ran(folder, command) for command, _ in (expectations, *others)])


@pytest.mark.parametrize("guard", [makefile, hook, workflow])
def test_good_file_passes(folder, guard):
    assert guard(folder) == 0


@pytest.mark.parametrize("guard", [makefile, hook, workflow])
@pytest.mark.parametrize("robots", BAD.values(), ids=BAD)
def test_bad_file_is_stopped(folder, guard, robots):
    (folder / "robots.txt").write_text(robots)
    assert guard(folder) != 0


def test_hook_checks_what_is_committed(folder):
    """The file in the folder may differ from the one that is committed."""
    assert hook(folder) == 0
    (folder / "robots.txt").write_text(BAD["an expectation fails"])
    assert ran(folder, "git commit -q --allow-empty -m other") == 0
    assert ran(folder, "git commit -qam robots") != 0


def test_hook_checks_new_expectations(folder):
    """Also if robots.txt itself doesn't change."""
    assert hook(folder) == 0
    (folder / "expect.txt").write_text("deny Googlebot /products/tea\n")
    assert ran(folder, "git commit -qam expectations") != 0


def test_hook_stops_a_commit_without_robots_txt(folder):
    assert hook(folder) == 0
    assert ran(folder, "git rm -q robots.txt && git commit -qm gone") != 0


def test_empty_file_is_stopped_by_its_audit(folder):
    """That of a build, and standard input."""
    _, audit, *_ = shown(DOCUMENTS["docs/CI.md"]).splitlines()
    assert ran(folder, audit) == 0
    assert ran(folder, audit.replace(" robots.txt", " - < /dev/null")) == 2
    (folder / "robots.txt").write_text("")
    assert ran(folder, audit) == 3
    assert ran(folder, audit.replace("--strict", "--strict=error")) == 0 and makefile(folder) != 0


def test_commands_of_the_page_guard_a_file(folder):
    """The third one leaves out a warning."""
    expectations, audit, ignoring, *_ = shown(DOCUMENTS["docs/CI.md"]).splitlines()
    assert [ran(folder, it) for it in (expectations, audit, ignoring)] == [0, 0, 0]
    (folder / "robots.txt").write_text(f"{GOOD}Noindex: /old/\n")
    assert [ran(folder, it) for it in (expectations, audit, ignoring)] == [0, 3, 0]


def test_workflow_reports_what_changes(folder):
    *_, (command, _) = commands(blocks("yaml")[0])
    ran(folder, "git commit -qm one")
    (folder / "robots.txt").write_text(BAD["an expectation fails"])
    ran(folder, "git commit -qam two")
    result = ended(folder, command)
    assert result.returncode == 0 and "- Disallow: /private/ (line 2)\n" in result.stdout and "+ Disallow: / (line 2)\n" in result.stdout
    ran(folder, "git commit -q --allow-empty -m three")
    assert "same group, delay and rules" in ended(folder, command).stdout


def test_workflow_reports_on_a_new_file(folder):
    """It is compared with an empty one."""
    *_, (command, _) = commands(blocks("yaml")[0])
    ran(folder, "git rm -q --cached robots.txt && git commit -qm one && git add robots.txt && git commit -qm two")
    result = ended(folder, command)
    assert result.returncode == 0 and "+ Disallow: /private/ (line 2)\n" in result.stdout


def test_workflows_run_if_a_file_changes_that_they_read():
    """And the first one fetches the commit before, which it compares with."""
    for workflow in blocks("yaml"):
        read = {name for command, _ in commands(workflow) for name in re.findall(r"(?:--expect| (?=robots\.txt)) ?(\S+)", command)}
        assert read == set(re.search(r"paths: \[(.*)\]", workflow)[1].split(", "))
    changes, alerts = blocks("yaml")
    assert "HEAD^1" in changes and int(re.search(r"fetch-depth: (\d+)", changes)[1]) == 2
    assert "contents: read" in alerts and "security-events: write" in alerts


@pytest.mark.parametrize("robots, status", [(GOOD, 0), (BAD["a warning is an error"], 3)], ids=["good", "bad"])
def test_scan_writes_a_log_whatever_its_status_is(folder, robots, status):
    workflow = blocks("yaml")[1]
    ((command, _),) = commands(workflow)
    (folder / "robots.txt").write_text(robots)
    assert ran(folder, command) == status
    log = json.loads((folder / re.search(r"sarif_file: (.*)", workflow)[1]).read_text())
    assert log["version"] == "2.1.0" and (status == 0) == all(it["level"] != "error" for it in log["runs"][0]["results"])
    assert re.search(r"upload-sarif@v\d+\n +if: always\(\)", workflow)


def test_workflows_are_yaml():
    """Each step of each job runs a command or uses an action."""
    yaml = pytest.importorskip("yaml")
    jobs = [job for block in blocks("yaml") for job in yaml.safe_load(block)["jobs"].values()]
    assert len(jobs) == 2 and all({"run", "uses"} & step.keys() for job in jobs for step in job["steps"])
