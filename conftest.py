"""How tests run side by side, in several processes of pytest-xdist (`-n auto --dist loadgroup`)."""

import fcntl

import pytest


def is_alone(item):
    """The marker may name fixtures: then it is about the tests that use one of these."""
    marker = item.get_closest_marker("alone")
    return marker is not None and (not marker.args or any(it in item.fixturenames for it in marker.args))


@pytest.hookimpl(tryfirst=True)
def pytest_collection_modifyitems(items):
    """Tests that share what their file builds run in one process, in their order. Those that run alone are the last ones."""
    for item in items:
        fixtures = [it for name in item.fixturenames for it in item._fixtureinfo.name2fixturedefs.get(name, ())]
        if is_alone(item):
            item.add_marker(pytest.mark.xdist_group("alone"))
        elif any(it.scope == "module" for it in fixtures):
            item.add_marker(pytest.mark.xdist_group(item.path.stem))
    items.sort(key=is_alone)


@pytest.hookimpl(hookwrapper=True)
def pytest_runtest_protocol(item):
    """A test shares a lock with all others, but has it for itself if it runs alone."""
    with open(__file__) as lock:
        fcntl.flock(lock, fcntl.LOCK_EX if is_alone(item) else fcntl.LOCK_SH)
        yield
