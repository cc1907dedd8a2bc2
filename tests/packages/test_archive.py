"""Tests the archives of `make dist`, of this machine and of ARM64: what is in them, and how it is used."""

import glob
import os
import re
import struct
import subprocess

import pytest

from tools import ROOT, read, run
from uses import (CHAIN, HERE, INSTALLED, LIBRARY, PCAP_SHARED, PYTHON, build_and_run, pkg_config, read_captures,
                  see_that_libraries_have_the_same_calls, see_that_programs_are_hardened, use_library, use_programs)

SHARE = [f"share/wolfaren/{it}" for it in ["page/wolfaren.wasm", "rust/Cargo.toml", "rust/src/lib.rs", "rust/c/src/calls.rs", "python/pyproject.toml",
                                          "python/src/wolfaren/wolfaren.h"]]


def unpacked(room, machine, files):
    """Packs an archive and unpacks it. Checks its checksums, and that it has these files."""
    run("tar", "-C", room, "-xf", f"{ROOT}/{run('scripts/dist', machine).strip()}")
    (top,) = glob.glob(f"{room}/wolfaren-*-{machine}-linux")
    run("sha256sum", "--check", "--strict", "--quiet", "SHA256SUMS", cwd=top)
    assert all(os.path.getsize(f"{top}/{it}") for it in [*files, "TOOLCHAIN", *SHARE])
    return top


@pytest.fixture(scope="module")
def top(tmp_path_factory):
    return unpacked(tmp_path_factory.mktemp("archive"), "x86_64", INSTALLED)


@pytest.fixture(scope="module")
def arm64_top(tmp_path_factory):
    return unpacked(tmp_path_factory.mktemp("archive"), "aarch64", LIBRARY)


def see_that_documents_are_true(top):
    """What README.md names is in the archive, no document links to a file that isn't, and README.md names the version of
    glibc that the files need, or a later one."""
    text = read(f"{top}/README.md")
    code = " ".join(re.findall(r"`(.*?)`", text))
    named = re.findall(r"(?<![\w/])(?:(?:bin|include|lib|share)/[\w./-]+|[A-Z]{4,}[A-Z0-9-]*(?:\.md)?(?![\w=.]))", code)
    assert len(named) >= 10 and [it for it in named if not os.path.exists(f"{top}/{it}")] == []
    for path in glob.glob(f"{top}/**/*.md", recursive=True):
        links = re.findall(r"\]\((?!https?:|#)([^)#]*)", read(path))
        assert [it for it in links if not os.path.exists(f"{os.path.dirname(path)}/{it}")] == [], path
    stated = tuple(map(int, re.search(r"glibc (\d+)\.(\d+)", text).groups()))
    needed = re.findall(r"Name: GLIBC_(\d+)\.(\d+)", run("readelf", "--version-info", *glob.glob(f"{top}/bin/*"), *glob.glob(f"{top}/lib/*.so.*")))
    assert max(tuple(map(int, it)) for it in needed) <= stated


def test_documents(top):
    see_that_documents_are_true(top)


def test_library(top, tmp_path):
    use_library(tmp_path, top)


def test_programs(top):
    use_programs(top)
    see_that_programs_are_hardened(top)


def test_captures(top, tmp_path):
    read_captures(tmp_path, top)


@pytest.mark.parametrize("there", ["libpcap.so.0.8", "libpcap.so.1", ""])
def test_libpcap_has_either_name(top, there, tmp_path):
    """ipcap reads a capture with libpcap by each of its two names, and says so if there is neither."""
    assert "libpcap" not in run("readelf", "-d", f"{top}/bin/ipcap", f"{top}/lib/{PCAP_SHARED}")
    system = re.search(r"libpcap\.so\S* .*=> (\S+)", run("sh", "-c", "PATH=$PATH:/sbin:/usr/sbin ldconfig -p"))[1]
    (tmp_path / "empty.pcap").write_bytes(struct.pack("<IHHiIII", 0xA1B2C3D4, 2, 4, 0, 0, 65535, 101))
    for name in ["libpcap.so.0.8", "libpcap.so.1"]:
        if name == there:
            (tmp_path / name).symlink_to(system)
        else:
            (tmp_path / name).touch()  # hides that of the system, since it is no library
    ran = subprocess.run([f"{top}/bin/ipcap", "stat", "--json", f"{tmp_path}/empty.pcap"], capture_output=True, text=True,
                         env={**os.environ, "LD_LIBRARY_PATH": str(tmp_path)}, check=False)
    assert (ran.returncode, ran.stderr) == ((0, "") if there else (1, "ipcap: libpcap can't be loaded\n"))
    assert ('"packets":0,' in ran.stdout) == bool(there)


def test_wheel(top, tmp_path):
    """The wheel is installed with the command of README.md, and finds its libraries."""
    (wheel,) = re.findall(r"`pip install (share/\S+\.whl)`", read(f"{top}/README.md"))
    pythons = ["python3", "/usr/bin/python3"]
    (python, *_) = [it for it in pythons if not subprocess.run([it, "-c", "import cffi, pip"], capture_output=True, check=False).returncode]
    run(python, "-m", "pip", "install", "--quiet", "--no-deps", "--no-index", "--target", f"{tmp_path}/target", f"{top}/{wheel}")
    environment = {name: it for name, it in os.environ.items() if name != "WOLFAREN_LIB_DIR"}
    assert PYTHON.fullmatch(run(python, f"{HERE}/program.py", env={**environment, "PYTHONPATH": f"{tmp_path}/target"}))


def test_arm64_documents(arm64_top):
    see_that_documents_are_true(arm64_top)


def test_arm64_library(arm64_top, tmp_path):
    see_that_libraries_have_the_same_calls(f"{arm64_top}/lib")
    flags = pkg_config(f"{arm64_top}/lib/pkgconfig/wolfaren.pc", [], "--cflags", "--libs")
    for words in [[*flags, f"-Wl,-rpath,{arm64_top}/lib"], ["-Wl,-Bstatic", *flags, "-Wl,-Bdynamic"]]:
        assert build_and_run(tmp_path, "aarch64-linux-gnu-gcc", "program.c", *words, runner=["qemu-aarch64", "-L", "/usr/aarch64-linux-gnu"]) == CHAIN
