"""Tests that on an unchanged tree `make deb` and `make wheel` prove nothing and take at most 15 seconds each.

They run in a copy of the repository, with a made `rt` that notes each crate that it is asked to prove, and that takes the
library and the program `ipexts` from build/. Once everything is built there, both are made again. The seconds are those of
processors, so that other programs on the machine don't count.
"""

import os
import resource
import shutil

import pytest

from tools import ROOT, need, read, run, write

SECONDS = 15
RT = r"""#!/bin/sh
[ "$1" != version ] || { echo "rt 1"; exit 0; }
name=$(basename "$PWD")
echo "$name" >> "$ASKED"
mkdir -p out
case $name in
    ipexts_c) cp "$BUILT/libwolfaren.a" out/libipexts_c.a ;;
    ipexts) cp "$BUILT/ipexts" out/ipexts ;;
esac
"""


def make(room, target):
    """Makes a target. Returns the crates that rt was asked to prove, and how many seconds of processors that took."""
    environment = {name: it for name, it in os.environ.items() if name not in ("MAKEFLAGS", "MAKELEVEL", "MFLAGS")}
    environment |= {"PATH": f"{room}/bin:{os.environ['PATH']}", "ASKED": write(f"{room}/asked", ""), "BUILT": f"{ROOT}/build", "CFLAGS": "-O1",
                    "MAINTAINER": "Nobody <nobody@example.org>", "SOURCE_DATE_EPOCH": "1700000000"}
    before = resource.getrusage(resource.RUSAGE_CHILDREN)
    run("make", target, cwd=f"{room}/tree", env=environment)
    after = resource.getrusage(resource.RUSAGE_CHILDREN)
    return read(f"{room}/asked").split(), after.ru_utime + after.ru_stime - before.ru_utime - before.ru_stime


@pytest.fixture(scope="module")
def built(tmp_path_factory):
    """Copies the files of the repository, and builds everything there."""
    need("libwolfaren.a", "ipexts")
    room = tmp_path_factory.mktemp("unchanged")
    for name in run("git", "ls-files", "-z").split("\0"):
        if name and os.path.exists(f"{ROOT}/{name}"):
            os.makedirs(os.path.dirname(f"{room}/tree/{name}"), exist_ok=True)
            shutil.copy2(f"{ROOT}/{name}", f"{room}/tree/{name}", follow_symlinks=False)
    write(f"{room}/bin/rt", RT, 0o755)
    asked, _ = make(room, "wheel")
    assert {"ipexts_c", "ipexts"} <= {*asked}
    make(room, "deb")
    yield room
    shutil.rmtree(room)


@pytest.mark.parametrize("target", ["deb", "wheel"])
def test_an_unchanged_tree_proves_nothing(built, target):
    asked, seconds = make(built, target)
    assert asked == [] and seconds <= SECONDS
