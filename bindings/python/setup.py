"""Puts the shared libraries into the wheel if WOLFAREN_LIB_DIR names their directory, for the machine that they are built for.
The rest is in pyproject.toml."""

import os
import re
import shutil
import subprocess

from setuptools import setup
from setuptools.command.build_py import build_py
from wheel.bdist_wheel import bdist_wheel

FOLDER = os.environ.get("WOLFAREN_LIB_DIR")
HEADERS = {"libwolfaren": "wolfaren.h", "libwolfaren-pcap": "wolfaren-pcap.h"}
# The libraries that a manylinux wheel may need (PEP 600, and the policies of auditwheel), and the oldest glibc that is named.
EVERYWHERE = re.compile(r"(?:libc|libm|libgcc_s|ld-linux-[\w-]+)\.so\.\d|lib(?:dl|rt|z)\.so\.[12]|libpthread\.so\.0")
LEAST_GLIBC = (2, 17)
# The machines by the numbers in ELF headers, at byte 18.
MACHINES = {62: "x86_64", 183: "aarch64"}


def libraries():
    """Returns the file names of the libraries, which end in the checksums in their headers."""
    found = []
    for name, header in HEADERS.items():
        with open(os.path.join("src", "wolfaren", header), encoding="utf-8") as it:
            found.append(f"{name}.so.0." + re.search(r"_ABI 0x([0-9a-f]{8})u$", it.read(), re.M)[1])
    return found


class BuildWithLibraries(build_py):
    def run(self):
        missing = [it for it in HEADERS.values() if not os.path.isfile(os.path.join("src", "wolfaren", it))]
        if missing:
            raise SystemExit(f"{', '.join(missing)} missing: run `make wheel`, or build a copy made by scripts/copy-python")
        super().run()
        for name in libraries() if FOLDER else []:
            shutil.copy(os.path.join(FOLDER, name), os.path.join(self.build_lib, "wolfaren", name))


def machine():
    """Returns the machine of the libraries."""
    found = set()
    for name in libraries():
        with open(os.path.join(FOLDER, name), "rb") as it:
            found.add(MACHINES[int.from_bytes(it.read(20)[18:], "little")])
    (one,) = found
    return one


def platform():
    """Returns the tag for the machine of the libraries: with the glibc that they need if they need nothing else."""
    linux = f"linux_{machine()}"
    try:
        said = "".join(subprocess.run(["readelf", "--dynamic", "--version-info", os.path.join(FOLDER, it)], capture_output=True,
                                      text=True, check=True, env={**os.environ, "LC_ALL": "C"}).stdout for it in libraries())
    except (OSError, subprocess.CalledProcessError):
        return linux
    needed, versions = re.findall(r"\(NEEDED\).*\[(\S+)\]", said), re.findall(r"\bName: GLIBC_(\w[\w.]*)", said)
    if not all(map(EVERYWHERE.fullmatch, needed)) or not all(re.fullmatch(r"\d+(?:\.\d+)+", it) for it in versions):
        return linux
    most = max([LEAST_GLIBC, *(tuple(map(int, it.split(".")[:2])) for it in versions)])
    return "many" + linux.replace("_", "_%d_%d_" % most, 1)


class WheelForMachine(bdist_wheel):
    """A wheel with the libraries is for one machine, and for any Python 3."""

    def finalize_options(self):
        super().finalize_options()
        self.root_is_pure = not FOLDER

    def get_tag(self):
        return ("py3", "none", platform()) if FOLDER else super().get_tag()


setup(cmdclass={"build_py": BuildWithLibraries, "bdist_wheel": WheelForMachine})
