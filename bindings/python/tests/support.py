"""What the tests share: packets and captures made byte by byte, and ipcap."""

import os
import subprocess
import sys

ROOT = os.path.realpath(os.path.join(os.path.dirname(__file__), "..", "..", ".."))
BUILD = os.environ.get("WOLFAREN_LIB_DIR", f"{ROOT}/build")
IPCAP = os.environ.get("IPCAP", f"{BUILD}/ipcap")
sys.path.append(f"{ROOT}/tests/ipcap")

# An IPv6 packet with each extension header, one with a fault, an IPv4 packet, a later fragment, and no bytes.
from captures import (LATER_FRAGMENT, TCP, UDP, authentication, capture, chain, checksum, ethernet, file_header, fragment, header, ipv4,
                      ipv6, ipv6_chain, options, record, routing)

PACKETS = [ipv6_chain([0, 43, 44, 51, 60]), ipv6(60, b"\x11"), ipv4(6, TCP), LATER_FRAGMENT, b""]


def write(folder, name, content):
    """Writes a file and returns its path."""
    path = os.path.join(folder, name)
    with open(path, "wb") as it:
        it.write(content)
    return path


def ipcap(*arguments, text=None, status=0):
    """Runs ipcap and returns its output. It must end with this status."""
    ran = subprocess.run([IPCAP, *arguments], input=text, capture_output=True, text=True, check=False)
    if ran.returncode != status:
        raise AssertionError(f"ipcap {arguments}: status {ran.returncode}: {ran.stderr}")
    return ran.stdout
