"""Tests that scripts/prove skips a crate only if nothing has changed since its last proof, and skips it after a build for ARM64.

It runs in a made repository of three crates, with a made `rt` that notes each crate that it is asked to prove. There it also
tests that `make fuzz` runs both of its parts if the tools of one are missing.
"""

import os
import shutil
import subprocess

import pytest

from tools import ROOT, read, write

TOP = "ipexts_c"  # of which the Makefile builds the library
ALL = ["low", "middle", TOP]
RT = """#!/bin/sh
room=$(cd "$(dirname "$0")/.." && pwd)
name=$(basename "$PWD")
[ "$1" != version ] || { cat "$room/version"; exit 0; }
echo "$name" >> "$room/asked"
[ ! -f "$room/meanwhile" ] || cat "$room/meanwhile" >> "$room/crates/$name/src/lib.rt"
[ ! -f "$room/fails" ] || exit 1
mkdir -p out/incremental
[ "$name" = ipexts_c ] || exit 0
[ "$2" != --target ] || { echo "of $3" > out/libipexts_c.a; [ ! -f "$room/fails-for-arm64" ]; exit; }
[ -f "$room/no-archive" ] || cat ../*/src/lib.rt > out/libipexts_c.a
"""
# copies the archive, as programs/Makefile does
PROGRAMS = """archive:
	cp $(PROVED) $(OUT)/libwolfaren.a
shared:
"""


@pytest.fixture
def room(tmp_path):
    """Makes a repository of crates, each of which uses those below it, and proves them."""
    room = str(tmp_path)
    write(f"{room}/bin/rt", RT, 0o755)
    write(f"{room}/version", "rt 1\n")
    write(f"{room}/crates.txt", f"low: std\nmiddle: low\n{TOP} staticlib: middle low\n")
    for name in ALL:
        write(f"{room}/crates/{name}/src/lib.rt", f"// {name}\n")
        write(f"{room}/crates/{name}/specs/Words.antt", "")
    os.makedirs(f"{room}/scripts")
    for name in ["prove", "built"]:
        shutil.copy(f"{ROOT}/scripts/{name}", f"{room}/scripts/{name}")
    shutil.copy(f"{ROOT}/Makefile", f"{room}/Makefile")
    write(f"{room}/programs/Makefile", PROGRAMS)
    write(f"{room}/include/wolfaren.h", "")
    assert prove(room) == ALL
    return room


def run(room, words, status, **further):
    """Runs a command with further environment. It must end with this status. Returns what it wrote to standard error, without
    make's last line. `asked` has the crates that rt was asked to prove."""
    write(f"{room}/asked", "")
    environment = {name: it for name, it in os.environ.items() if name not in ("MAKEFLAGS", "MAKELEVEL", "MFLAGS")}
    environment |= {"PATH": f"{room}/bin:{os.environ['PATH']}", "PYTHONDONTWRITEBYTECODE": "1", **further}
    ran = subprocess.run(words, cwd=room, env=environment, capture_output=True, text=True, check=False)
    assert ran.returncode == status, ran.stderr
    return "".join(it for it in ran.stderr.splitlines(True) if not it.startswith("make: "))


def asked(room):
    """Returns the crates that rt was asked to prove."""
    return read(f"{room}/asked").split()


def prove(room, status=0):
    """Runs scripts/prove, which must end with this status. Returns the crates that rt was asked to prove."""
    run(room, ["scripts/prove", TOP], status)
    return asked(room)


def changes(room):
    """Returns each change, with its name and the crates that have to be proved after it."""
    crates = f"{room}/crates"
    return [
        ("a source", lambda: write(f"{crates}/low/src/lib.rt", "// other\n"), ALL),
        ("a source as it was before", lambda: write(f"{crates}/low/src/lib.rt", "// low\n"), ALL),
        ("a definition", lambda: write(f"{crates}/middle/specs/Words.antt", "word"), ["middle", TOP]),
        ("a new proof", lambda: write(f"{crates}/middle/proofs/a/Answers.antt", ""), ["middle", TOP]),
        ("a removed proof", lambda: os.unlink(f"{crates}/middle/proofs/a/Answers.antt"), ["middle", TOP]),
        ("a renamed file", lambda: os.rename(f"{crates}/{TOP}/specs/Words.antt", f"{crates}/{TOP}/specs/Other.antt"), [TOP]),
        ("what a program reads", lambda: write(f"{crates}/{TOP}/stdin", "line\n"), [TOP]),
        ("crates.txt", lambda: write(f"{room}/crates.txt", f"low: std\nmiddle: low std\n{TOP} staticlib: middle low\n"), ALL),
        ("the handles", lambda: write(f"{room}/HANDLES", "Handles allowed: none.\n"), ALL),
        ("the version of rt", lambda: write(f"{room}/version", "rt 2\n"), ALL),
        ("the archive", lambda: write(f"{crates}/{TOP}/out/lib{TOP}.a", "other"), [TOP]),
        ("a removed archive", lambda: os.unlink(f"{crates}/{TOP}/out/lib{TOP}.a"), [TOP]),
        ("a note of another proof", lambda: write(f"{room}/build/proved/low", "0" * 64), ["low"]),
        ("a file in a folder named out in the sources", lambda: write(f"{crates}/{TOP}/src/out/a.rt", ""), [TOP]),
    ]


def test_what_changed_is_proved_again(room):
    assert prove(room) == []
    for name, change, wanted in changes(room):
        change()
        assert prove(room) == wanted, name
        assert prove(room) == [], name


def test_failed_proofs_are_repeated(room):
    """A crate is proved again after a proof that failed, and after one during which it changed."""
    write(f"{room}/crates/{TOP}/src/lib.rt", "// wrong\n")
    write(f"{room}/fails", "")
    for _ in range(2):
        assert prove(room, status=1) == [TOP]
    os.unlink(f"{room}/fails")
    assert prove(room) == [TOP]
    write(f"{room}/crates/{TOP}/src/lib.rt", "// right\n")
    write(f"{room}/meanwhile", "// edited\n")
    assert prove(room) == [TOP]
    os.unlink(f"{room}/meanwhile")
    assert prove(room) == [TOP]
    assert prove(room) == []


def test_a_killed_run_loses_nothing(room):
    """What a crate's proofs left is given back after a run that was killed."""
    out, aside = f"{room}/crates/{TOP}/out", f"{room}/build/rooms/{TOP}/crates/{TOP}/out"
    os.makedirs(os.path.dirname(aside))
    os.rename(out, aside)
    assert prove(room) == []
    assert os.path.isfile(f"{out}/lib{TOP}.a") and not os.path.exists(f"{room}/build/rooms/{TOP}")


def content(path):
    """Returns the content of a file, or nothing if there is no such file."""
    return read(path) if os.path.exists(path) else None


def build_for_arm64(room, status, is_anew=True):
    """Builds the library for ARM64, anew or as it was, which must end with this status. Only that build needs rt, and it leaves
    the archive of this machine, or none if there was none."""
    out = f"{room}/crates/{TOP}/out"
    before, files = content(f"{out}/lib{TOP}.a"), {*os.listdir(out), f"lib{TOP}.a.aarch64"}
    run(room, ["make", "lib", "TARGET=aarch64", "ARM64_CC=true"], status)
    assert asked(room) == [TOP] * is_anew
    assert content(f"{out}/lib{TOP}.a") == before
    assert {*os.listdir(out), f"lib{TOP}.a.aarch64"} == files
    assert prove(room) == []


def test_builds_for_arm64(room):
    """After a build for ARM64 nothing has to be proved, even if that build fails. It is built anew only if the library or what
    was built for ARM64 has changed."""
    build_for_arm64(room, 0)
    build_for_arm64(room, 0, is_anew=False)
    write(f"{room}/crates/{TOP}/out/lib{TOP}.a.aarch64", "other")
    build_for_arm64(room, 0)
    assert read(f"{room}/build/aarch64/libwolfaren.a") == "of aarch64-unknown-linux-gnu\n"
    write(f"{room}/crates/{TOP}/src/lib.rt", "// for ARM64\n")
    assert prove(room) == [TOP]
    write(f"{room}/fails-for-arm64", "")
    build_for_arm64(room, 2)
    os.unlink(f"{room}/fails-for-arm64")
    write(f"{room}/no-archive", "")
    os.unlink(f"{room}/crates/{TOP}/out/lib{TOP}.a")
    assert prove(room) == [TOP]
    build_for_arm64(room, 0)


@pytest.mark.parametrize(("lacks", "status"), [("fuzz/run", 2), ("ipcap/fuzz", 2), ("", 0)])
def test_both_parts_of_fuzz_run(room, lacks, status):
    """Each part of `make fuzz` is run, whatever is missing for the other. If AFL++ is missing, that is the last message."""
    for name in ["ipcap/fuzz", "fuzz/run"]:
        missing = f'[ "$LACKS" != {name} ] || {{ echo "{name}: missing" >&2; exit 2; }}'
        write(f"{room}/tests/{name}", f"#!/bin/sh\necho {name} >> {room}/parts\n{missing}\n", 0o755)
    said = run(room, ["make", "fuzz", "CC=true"], status, LACKS=lacks)
    assert read(f"{room}/parts").split() == ["ipcap/fuzz", "fuzz/run"]
    assert lacks != "fuzz/run" or said.endswith("\nfuzz/run: missing\n")
