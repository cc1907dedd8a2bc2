"""Tests of libwolfaren-pcap, by a program that prints what its call returns."""

import subprocess

from captures import *
from test_stat import random_frames


def test_as_ipcap(harness):
    """The call returns what `ipcap stat --json` prints, and the error without the name of the file."""
    whole = capture(random_frames(100, 6))
    for content, is_capture in [(whole, True), (whole[:-1], True), (whole[:30], True), (b"no capture", False),
                                (capture([b""], 119), False)]:
        path = harness.file(content)
        status, found, errors, _ = harness.run("stat", "--json", path)
        for command in harness.commands("count"):
            answer = harness.answer(command, [path], b"", None)
            wanted = found if is_capture else b""
            reason = errors.replace("ipcap: %s: " % path, "").rstrip("\n")
            harness.equal(answer[:3], (status, wanted, reason), command)
    harness.equal(harness.answer(harness.commands("count")[0], ["/nonexistent"], b"", None)[:3],
                  (1, b"", "No such file or directory"), "no file")


def test_refused_memory(harness):
    """Each failed allocation is an error, unless the call gets by without that memory."""
    path = harness.file(capture([ethernet(ipv6_chain([60] * 40)), ethernet(ipv4(17, UDP))]))
    command = harness.commands("count")[0] + [path]
    wanted, failures = subprocess.run(command, stdout=subprocess.PIPE).stdout, 0
    for number in range(1, 60):
        environment = dict(harness.environment, LD_PRELOAD=harness.refusing, REFUSED_ALLOCATION=str(number))
        found = subprocess.run(command, stdout=subprocess.PIPE, stderr=subprocess.PIPE, env=environment)
        harness.check(found.returncode in (0, 1) and (found.returncode == 0) == (found.stderr == b""), number, found)
        harness.equal(found.stdout if found.returncode == 0 else wanted, wanted, "allocation", number)
        failures += found.returncode
    harness.check(failures > 1, "failed on", failures)
