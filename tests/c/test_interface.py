"""Tests the shared library's interface with `abidiff`.

The archive has no debug information, so `abidiff` sees the symbols alone; wolfaren_abi and test_library.py check the layouts of
the structs.
"""

import re

from tools import names, refused, run

# those of programs/interface.c
OTHERS = ["wolfaren_chains_init", "wolfaren_chains_size", "wolfaren_cpu_is_supported", "wolfaren_defragmenter_init",
          "wolfaren_defragmenter_size"]


def shared_library(room, archive):
    """Builds a shared library from the archive, below the directory, and returns its path."""
    run("make", "-s", "-C", "programs", "shared", f"LIB={archive}", f"OUT={room}")
    return f"{room}/{names()[0]}"


def test_builds_export_what_the_header_declares(library, tmp_path):
    one, other = (shared_library(f"{tmp_path}/{it}", library.archive) for it in ("one", "other"))
    run("abidiff", one, other)
    exported = sorted(line.split()[-1] for line in run("nm", "-D", "--defined-only", one).splitlines())
    said = run("scripts/abi")
    assert exported == sorted([*re.findall(r"^\w+ (wolfaren_\w+)\(", said, re.M), *OTHERS, f"wolfaren_abi_{said.split()[-1]}"])


def test_a_missing_call_is_noticed(library, tmp_path):
    run("objcopy", "--localize-symbol=wolfaren_run_len", library.archive, f"{tmp_path}/without.a")
    whole, less = shared_library(f"{tmp_path}/one", library.archive), shared_library(f"{tmp_path}/less", f"{tmp_path}/without.a")
    refused("abidiff", whole, less, said="wolfaren_run_len")
