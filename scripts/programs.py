"""How the programs of crates/ are tried: as the gate runs them, but built with run-time checks in place of proofs."""

import os

# Some runs take longer with run-time checks than the minute that rt gives them.
SECONDS = "600"


def words_for(folder):
    """Returns the words for rt that try the program of a folder on the arguments of its file `args` and the files in its `data/`."""
    data = sorted(os.listdir(f"{folder}/data")) if os.path.isdir(f"{folder}/data") else []
    words = [word for name in data for word in ("--data", f"{name}={folder}/data/{name}")]
    if not os.path.isfile(f"{folder}/args"):
        return ["try", "--seconds", SECONDS, *words]
    with open(f"{folder}/args", encoding="utf-8") as it:
        return ["try", "--seconds", SECONDS, *words, "--", *it.read().split()]


def stdin_of(folder):
    """Returns the bytes of the program's file `stdin`, none if there is no such file."""
    if not os.path.isfile(f"{folder}/stdin"):
        return b""
    with open(f"{folder}/stdin", "rb") as it:
        return it.read()


def stdout_of(folder):
    """Returns what the program must print."""
    with open(f"{folder}/stdout", "rb") as it:
        return it.read()
