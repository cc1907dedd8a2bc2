"""Tests what neither the contracts nor the gate cover of the program `ipexts`: its status and message if input, output or memory
fails. The proved program itself runs. PROGRAM: another program to run instead.
"""

import os
import subprocess

import pytest

from tools import LAST, ROOT, run

CRATE = f"{ROOT}/crates/ipexts"
PROGRAM = os.environ.get("PROGRAM", f"{CRATE}/out/ipexts")
FAILED = "ipexts: input or output failed"
MOST_ALLOCATIONS = 100_000


@pytest.mark.parametrize(("to", "wanted"), [("", (0, "next 17 rest 4\nok\n", "")), ("/dev/full", (1, "", FAILED + "\n"))])
def test_good_lines(to, wanted):
    line = f"printf 'exts6 17 00010203\\n' | {PROGRAM} {to and f'> {to}'}"
    ran = subprocess.run(["sh", "-c", line], capture_output=True, text=True, check=False)
    assert (ran.returncode, ran.stdout, ran.stderr) == wanted


def test_a_directory_as_input(tmp_path):
    ran = subprocess.run(["sh", "-c", f"{PROGRAM} < {tmp_path}"], capture_output=True, text=True, check=False)
    assert (ran.returncode, ran.stdout, ran.stderr) == (1, "", FAILED + "\n")


def whole_answers(answers):
    """Returns the total length of the answers to the first lines, for each number of lines."""
    lens, end = {0}, 0
    for line in answers.splitlines(keepends=True):
        end += len(line)
        if LAST.match(line.rstrip(b"\n")):
            lens.add(end)
    return lens


def test_refused_memory(tmp_path):
    """Runs the program once for each allocation, with that allocation refused by a preloaded library. It must exit with status 1
    and a message, and must have written complete answers to the first lines and nothing else."""
    run(os.environ.get("CC", "cc"), "-O1", "-shared", "-fPIC", f"{ROOT}/tests/lines/refuse-memory.c", "-o", f"{tmp_path}/refuse.so")
    with open(f"{CRATE}/stdout", "rb") as it:
        answers = it.read()
    lens = whole_answers(answers)
    for refused in range(1, MOST_ALLOCATIONS):
        with open(f"{CRATE}/stdin", "rb") as lines:
            ran = subprocess.run([PROGRAM], stdin=lines, capture_output=True, timeout=60, check=False,
                                 env={"LD_PRELOAD": f"{tmp_path}/refuse.so", "REFUSED_ALLOCATION": str(refused)})
        if (ran.returncode, ran.stdout, ran.stderr) == (0, answers, b""):
            break
        assert (ran.returncode, ran.stderr) == (1, b"ipexts: out of memory\n"), refused
        assert answers.startswith(ran.stdout) and len(ran.stdout) in lens, refused
    assert refused > 1
