"""Gives the tests a copy of the package, and what `make programs` has built."""

import os
import subprocess
import sys
import tempfile

import pytest

ROOT = os.path.dirname(os.path.dirname(os.path.dirname(os.path.dirname(os.path.abspath(__file__)))))
NAMES = subprocess.run([f"{ROOT}/scripts/abi", "--names"], capture_output=True, text=True, check=True).stdout.split()
COPY = tempfile.TemporaryDirectory()

missing = [it for it in [*NAMES, "ipcap"] if not os.path.isfile(f"{ROOT}/build/{it}")]
if missing:
    pytest.exit(f"build/ lacks {', '.join(missing)}: run `make programs`", 2)
subprocess.run([f"{ROOT}/scripts/copy-python", COPY.name], check=True)
sys.path.insert(0, f"{COPY.name}/src")
os.environ.update(WOLFAREN_LIB_DIR=f"{ROOT}/build", PYTHONPATH=f"{COPY.name}/src", PYTHONDONTWRITEBYTECODE="1",
                  PATH=f"{ROOT}/build:{os.environ['PATH']}")
