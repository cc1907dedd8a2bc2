"""Compares the structs in the page's memory with those of C compilers, for pointers of 4 and of 8 bytes."""

import shutil
import subprocess

import pytest

from tools import ROOT, read

# The compiler for pointers of each size. On ARM, alignments are those of wasm32.
COMPILERS = {8: ["cc"], 4: ["arm-linux-gnueabihf-gcc", "-DWOLFAREN_PLAIN"]}
USED = ["fault", "header", "chain", "dissection", "interface", "capture", "capture_error", "record", "frame", "name"]


@pytest.mark.parametrize("size", COMPILERS)
def test_structs_are_those_of_c(page, tmp_path, size):
    if not shutil.which(COMPILERS[size][0]):
        pytest.skip(f"{COMPILERS[size][0]} missing")
    script = "const kept = [Wolfaren.pointerSize, Wolfaren.memory]; Wolfaren.pointerSize = arguments[0];" + read(
        f"{ROOT}/page/scripts/memory.js") + """
        const layouts = Object.keys(Wolfaren.structs).map((it) => [it, Wolfaren.memory.layoutOf(it)]);
        [Wolfaren.pointerSize, Wolfaren.memory] = kept;
        return layouts;"""
    layouts = dict(page.browser.execute_script(script, size))
    assert set(USED) <= layouts.keys()
    facts = [f"sizeof(struct wolfaren_{name}) == {it['size']}" for name, it in layouts.items()]
    facts += [f"offsetof(struct wolfaren_{name}, {field['name']}) == {field['at']}" for name, it in layouts.items() for field in it["fields"]]
    assert len(facts) > 100
    asserted = [f'_Static_assert({it}, "");' for it in facts]
    (tmp_path / "layouts.c").write_text("\n".join(["#include <stddef.h>", '#include "wolfaren.h"', *asserted, ""]))
    subprocess.run([*COMPILERS[size], "-std=c11", "-fsyntax-only", f"-I{ROOT}/include", tmp_path / "layouts.c"], check=True)
