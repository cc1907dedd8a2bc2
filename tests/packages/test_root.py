"""Tests the archive of `make dist` and the packages of `make deb` in a root that has nothing but a C compiler, libpcap, Python with
cffi, what the Rust package depends on, and what autopkgtest needs. The root is made from Debian's archive. The wheel for ARM64 is
used under QEMU, by the Python of another root. Only root can run this.
"""

import glob
import os
import re
import shutil
import sys

import pytest

from tools import ROOT, run, write
from uses import CHAIN, HERE, NO_FILE, PYTHON

CRATES = "librust-arrayvec-dev,librust-thiserror-dev,librust-serde+serde-derive-dev"
PACKAGES = f"gcc,libc6-dev,libpcap0.8,python3-cffi,apt-utils,{CRATES}"
# pieces of the library's texts, which the compiler stores beside others
PIECES = re.compile(r" spelling-error-in-binary (?:ment meant|onthe on the) ")
# what packages are excused: rt links ipexts, so that its package can't harden it; the documentation of the crate is its own
EXCUSED = {"ipexts": "hardening-no-bindnow,hardening-no-fortify-functions,hardening-no-pie,hardening-no-relro",
           "librust": "package-contains-documentation-outside-usr-share-doc"}


def suite():
    with open("/etc/os-release", encoding="utf-8") as it:
        return re.search(r"^VERSION_CODENAME=(.*)$", it.read(), re.M)[1]


@pytest.fixture(scope="module")
def root(tmp_path_factory):
    where = f"{tmp_path_factory.mktemp('bare')}/root"
    run("mmdebstrap", "--quiet", "--variant=minbase", f"--include={PACKAGES}", suite(), where)
    for name in ["program.c", "captures.c", "program.py"]:
        shutil.copy(f"{HERE}/{name}", f"{where}/tmp/")
    yield where
    shutil.rmtree(where)


def inside(root, line):
    """Runs a line of shell in the root and returns its output."""
    environment = {"PATH": "/usr/sbin:/usr/bin:/sbin:/bin", "LC_ALL": "C.UTF-8", "DEBIAN_FRONTEND": "noninteractive"}
    return run("chroot", root, "sh", "-c", line, env=environment)


def use(root, include, flags, static, pcap_flags, path=""):
    """Builds and runs the program with the shared library and with the archive, and that of captures. -m32 is refused by a
    sentence."""
    built = "cd /tmp && gcc -Wall -Wextra -Werror"
    for link in (flags, static):
        assert inside(root, f"{built} {include} program.c {link} -o program && {path} ./program") == CHAIN
    said = inside(root, f"echo '#include <wolfaren.h>' | gcc -m32 -ffreestanding {include} -E -x c - 2>&1 >/dev/null || true")
    assert "needs a 64-bit machine" in said
    assert inside(root, f"{built} {include} captures.c {pcap_flags} -o captures && {path} ./captures") == 2 * NO_FILE


def test_the_archive_is_usable(root):
    run("tar", "-C", f"{root}/opt", "-xf", run("scripts/dist").strip())
    (top,) = (it.removeprefix(root) for it in glob.glob(f"{root}/opt/wolfaren-*"))
    use(root, f"-I{top}/include", f"-L{top}/lib -lwolfaren", f"{top}/lib/libwolfaren.a", f"-L{top}/lib -lwolfaren-pcap",
        f"LD_LIBRARY_PATH={top}/lib")
    assert inside(root, f"{top}/bin/ipcap --help && echo 'exts6 17 00' | {top}/bin/ipexts").endswith("next 17 rest 1\nok\n")
    inside(root, f"python3 -m zipfile -e {top}/share/wolfaren/wolfaren-*.whl /tmp/wheel")
    assert PYTHON.fullmatch(inside(root, "PYTHONPATH=/tmp/wheel:$(echo /tmp/wheel/wolfaren-*.data/purelib) python3 /tmp/program.py"))


@pytest.fixture(scope="module")
def packages():
    """Makes the packages. Returns their files by their names."""
    return {os.path.basename(it).split("_")[0]: it for it in run("scripts/deb").split()}


def test_lintian_reports_nothing(packages, tmp_path):
    """Except what it takes for words, and what is excused."""
    for start in ["", *EXCUSED]:
        checked = [it for name, it in packages.items() if (name.startswith(start) if start else not name.startswith((*EXCUSED,)))]
        said = run("lintian", "--allow-root", "--display-info", "--fail-on", "error,warning", "--suppress-tags", EXCUSED.get(start, ""),
                   *checked, env={**os.environ, "TMPDIR": str(tmp_path)})  # in which lintian leaves files
        assert [it for it in said.splitlines() if not PIECES.search(it)] == []


def test_packages_are_installed_used_and_removed(root, packages, tmp_path):
    """The tests in debian/tests install and use them."""
    run("autopkgtest", "--quiet", "--no-built-binaries", *packages.values(), f"{ROOT}/build/deb/", "--", "chroot", root)
    run("cp", *packages.values(), f"{root}/tmp/")
    inside(root, "dpkg -i /tmp/*.deb")
    if shutil.which("cargo"):
        use_crate(root, tmp_path)
    inside(root, f"dpkg --verify {' '.join(packages)}")
    inside(root, f"ldconfig -p | grep libwolfaren-pcap.so.0. && dpkg -P {' '.join(packages)}")
    assert inside(root, "find /usr -name '*wolfaren*' -o -name 'ipcap*' -o -name 'ipexts*'") == ""


def use_crate(root, room):
    """Builds and runs a program with the Rust package that is installed."""
    crates = ["--config", 'source.crates-io.replace-with="debian"',
              "--config", f'source.debian.directory="{root}/usr/share/cargo/registry"']
    write(f"{room}/Cargo.toml", '[package]\nname = "uses"\nversion = "0.0.0"\nedition = "2021"\n[dependencies]\n'
          'wolfaren = { version = "0", features = ["serde"] }\n[[bin]]\nname = "uses"\npath = "program.rs"\n')
    shutil.copy(f"{HERE}/program.rs", room)
    assert run("cargo", "run", "--quiet", "--offline", "--manifest-path", f"{room}/Cargo.toml", *crates) == "1 of 1\n"


def test_arm64_wheel(tmp_path):
    """The wheel for ARM64 is used by Debian's Python of that machine."""
    (wheel,) = glob.glob(f"{ROOT}/build/wolfaren-*linux*_aarch64.whl")
    other = f"{tmp_path}/arm64"
    run("mmdebstrap", "--quiet", "--variant=extract", "--architectures=arm64", "--include=libpcap0.8,python3-cffi", suite(), other)
    run(sys.executable, "-m", "zipfile", "-e", wheel, f"{tmp_path}/wheel")
    paths = ":".join([f"{tmp_path}/wheel", *glob.glob(f"{tmp_path}/wheel/wolfaren-*.data/purelib")])
    (python,) = glob.glob(f"{other}/usr/bin/python3.[0-9]*[0-9]")
    said = run("qemu-aarch64", "-L", other, python, f"{HERE}/program.py", env={"PATH": "/usr/bin:/bin", "PYTHONPATH": paths})
    shutil.rmtree(other)
    assert PYTHON.fullmatch(said)
