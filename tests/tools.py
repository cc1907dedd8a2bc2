"""What the tests of the libraries, packages and scripts have in common."""

import os
import re
import subprocess

ROOT = os.path.dirname(os.path.dirname(os.path.abspath(__file__)))
WARNINGS = ["-Wall", "-Wextra", "-Werror"]
LAST = re.compile(rb"ok$|fault |bad line$|payload$|later fragment$|truncated len ")


def run(*words, status=0, is_silent=False, cwd=ROOT, text=True, **given):
    """Runs a program, which must exit with this status, and returns its standard output. One that is silent must write nothing to
    standard error."""
    ran = subprocess.run(words, cwd=cwd, capture_output=True, text=text, check=False, **given)
    is_right = ran.returncode == status and not (is_silent and ran.stderr)
    assert is_right, f"{' '.join(words)}: status {ran.returncode}: {ran.stdout}{ran.stderr}"
    return ran.stdout


def refused(*words, said):
    """Runs a program, which must fail and say this."""
    ran = subprocess.run(words, cwd=ROOT, stdout=subprocess.PIPE, stderr=subprocess.STDOUT, text=True, check=False)
    assert ran.returncode != 0 and said in ran.stdout, f"{' '.join(words)}: status {ran.returncode}: {ran.stdout}"


def read(path):
    with open(path, encoding="utf-8") as it:
        return it.read()


def write(path, text, mode=0o644):
    """Writes a file, and makes the folders that it is in. Returns its path."""
    os.makedirs(os.path.dirname(path), exist_ok=True)
    with open(path, "w", encoding="utf-8") as it:
        it.write(text)
    os.chmod(path, mode)
    return str(path)


def names():
    """Returns the names of the shared libraries, libwolfaren and libwolfaren-pcap."""
    return run("scripts/abi", "--names").split()


def need(*names):
    """Checks that these files were built."""
    missing = [it for it in names if not os.path.isfile(f"{ROOT}/build/{it}")]
    assert not missing, f"build/ lacks {', '.join(missing)}: run `make programs`"


def lines_and_answers():
    """Returns the lines of crates/ipexts/stdin, each with the lines that the program answers."""
    with open(f"{ROOT}/crates/ipexts/stdin", "rb") as it:
        lines = it.read().removesuffix(b"\n").split(b"\n")
    answers, parts = [], []
    with open(f"{ROOT}/crates/ipexts/stdout", "rb") as it:
        for line in it.read().splitlines():
            parts.append(line)
            if LAST.match(line):
                answers.append(parts)
                parts = []
    assert len(lines) == len(answers)
    return list(zip(lines, answers))
