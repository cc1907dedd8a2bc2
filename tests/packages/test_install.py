"""Tests `make install`, `make install-lib` and `make uninstall` with what `make programs` has built, without rt on the PATH."""

import os
import shutil

import pytest

from tools import need, run
from uses import INSTALLED, LIBRARY, PCAP_SHARED, SHARED, read_captures, see_that_programs_are_hardened, use_library, use_programs

BUILT = ["libwolfaren.a", SHARED, PCAP_SHARED, "wolfaren.h", "ipcap", "ipexts"]


def files_below(folder):
    """Returns each file below the folder, with its permissions."""
    return {os.path.relpath(f"{where}/{name}", folder): os.stat(f"{where}/{name}").st_mode & 0o777
            for where, _, names in os.walk(folder) for name in names}


def make(target, *words):
    """Makes a target without rt, and returns what that prints."""
    path = os.pathsep.join(it for it in os.environ["PATH"].split(os.pathsep) if not os.path.exists(f"{it}/rt"))
    assert not shutil.which("rt", path=path)
    return run("make", "--no-print-directory", target, *words, env={**os.environ, "PATH": path})


@pytest.mark.parametrize(("target", "wanted"), [("install-lib", LIBRARY), ("install", INSTALLED)])
def test_installed_files_are_usable_and_removed(target, wanted, tmp_path):
    need(*BUILT)
    prefix, words = f"{tmp_path}/opt/wolfaren", ["PREFIX=/opt/wolfaren", f"DESTDIR={tmp_path}"]
    assert make(target, *words) == ""
    assert files_below(prefix) == wanted
    variables = [f"--define-variable=prefix={prefix}", f"--define-variable=libdir={prefix}/lib",
                 f"--define-variable=includedir={prefix}/include"]
    use_library(tmp_path, prefix, variables)
    if target == "install":
        use_programs(prefix)
        see_that_programs_are_hardened(prefix)
        read_captures(tmp_path, prefix, variables)
    make("uninstall", *words)
    assert files_below(prefix) == {}


def test_an_installation_that_the_loader_misses_says_so(tmp_path):
    said = make("install-lib", f"PREFIX={tmp_path}/unknown")
    assert f"doesn't find {SHARED} in {tmp_path}/unknown/lib" in said and "ldconfig" in said
