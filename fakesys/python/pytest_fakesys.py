# SPDX-License-Identifier: MIT OR Apache-2.0
"""A plugin of pytest: `pytest --fakesys DESCRIPTION` runs the whole suite on a fake /sys, with the fixture `fake_sys`.

The suite runs inside `fakesys DESCRIPTION`, so each test, each module that it imports and each program that it starts
sees the tree as /sys. The fixture is that tree, which is whole again after each test. A test that is marked
@pytest.mark.fakesys("other.kf") gets another tree, for its reader and for what fake_sys.run() starts."""
import os
import shutil
import sys

import pytest

INSIDE = "FAKESYS_PYTEST"  # in the environment of the suite that runs inside
HERE = os.path.dirname(os.path.realpath(__file__))


def pytest_addoption(parser):
    what = "run the suite on this tree in place of /sys: a file of lines, or a name that `fakesys --list` prints"
    parser.getgroup("fakesys").addoption("--fakesys", metavar="DESCRIPTION", help=what)
    parser.addini("fakesys", "the description for --fakesys, if that option is not given")


def pytest_configure(config):
    config.addinivalue_line("markers", "fakesys(description): give this test a tree of its own")


def program():
    """The program fakesys, on the path or beside this file."""
    near = os.path.join(HERE, "../bin/fakesys")
    found = shutil.which("fakesys") or (near if os.path.isfile(near) else None)
    if not found:
        raise pytest.UsageError("--fakesys: the program fakesys is not installed (see its document)")
    return found


@pytest.hookimpl(tryfirst=True)
def pytest_cmdline_main(config):
    """Runs pytest again, inside. A worker of another plugin is inside already."""
    description = config.getoption("fakesys") or config.getini("fakesys")
    if not description or hasattr(config, "workerinput") or config.getoption("help", False):
        return
    if os.environ.pop(INSIDE, None):
        return
    is_module = os.path.basename(sys.argv[0]) == "__main__.py"
    again = ["-m", "pytest"] if is_module else [sys.argv[0]]
    words = [program(), file_of(config, description), sys.executable, *again, *config.invocation_params.args]
    sys.stdout.flush()
    sys.stderr.flush()
    os.execve(words[0], words, {**os.environ, INSIDE: "1"})


def file_of(config, description):
    """A file that the configuration names is relative to the folder of that."""
    beside = config.rootpath / description
    return description if config.getoption("fakesys") or not beside.is_file() else str(beside)


@pytest.fixture
def fake_sys(request):
    """The tree that the suite runs on, or with a marker a tree of the test's own."""
    from fakesys import FakeSys  # (only the tests that need it do)

    marker = request.node.get_closest_marker("fakesys")
    if marker:
        beside = request.path.parent / marker.args[0]
        with FakeSys(str(beside) if beside.is_file() else marker.args[0]) as tree:
            yield tree
        return
    if "FAKESYS_DESCRIPTION" not in os.environ:
        pytest.fail("the fixture fake_sys needs `pytest --fakesys DESCRIPTION`, or a marker")
    from fakesys_whole import make_whole

    tree = FakeSys()
    yield tree
    make_whole(tree)
