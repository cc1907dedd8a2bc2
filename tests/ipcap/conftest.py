"""Runs ipcap normally, with sanitizers, and under valgrind, and compares its output with what is expected.

With sanitizers, memory that nothing has written holds other bytes than it would normally, so that a read of it changes what is
printed. valgrind, which takes a second to start, runs each command of a test with each set of options and each status once."""

import concurrent.futures
import itertools
import json
import os
import subprocess
import sys
import tempfile

import pytest

# Runs a command in a process of its own, since a process has at least the peak memory of the one that started it, and prints
# its peak memory in kilobytes to standard error.
MEASURE = """import resource, subprocess, sys
status = subprocess.call(sys.argv[1:])
sys.stderr.write("peak %d\\n" % resource.getrusage(resource.RUSAGE_CHILDREN).ru_maxrss)
sys.exit(status)"""


class Harness:
    def __init__(self, plain, sanitized, refusing, folder):
        self.plain = [plain]
        self.sanitized = [sanitized]
        self.checked = ["valgrind", "--error-exitcode=99", "-q", "--leak-check=full", plain]
        self.refusing = refusing
        self.folder = folder
        self.passed = 0
        self.files = itertools.count()
        self.pending = []
        self.seen = set()
        workers = int(os.environ.get("PYTEST_XDIST_WORKER_COUNT", 1))
        self.pool = concurrent.futures.ThreadPoolExecutor(max(2, len(os.sched_getaffinity(0)) // workers))
        self.environment = dict(os.environ, ASAN_OPTIONS="exitcode=98:max_malloc_fill_size=1048576", UBSAN_OPTIONS="halt_on_error=1:exitcode=98")
        self.environment.pop("NO_COLOR", None)

    def check(self, condition, *words):
        if not condition:
            pytest.fail(" ".join(str(word) for word in words), pytrace=False)
        self.passed += 1

    def equal(self, found, wanted, *words):
        self.check(found == wanted, *words, "\n  found  ", repr(found), "\n  wanted ", repr(wanted))

    def path(self, suffix=".pcap"):
        return os.path.join(self.folder, "%d%s" % (next(self.files), suffix))

    def temporary(self):
        """Returns the folder of temporary files."""
        return os.environ.get("TMPDIR") or "/tmp"

    def file(self, content, suffix=".pcap"):
        path = self.path(suffix)
        with open(path, "wb") as output:
            output.write(content)
        return path

    def commands(self, name):
        """Returns the commands that run another program of the tests: normally, with sanitizers, and under valgrind."""
        plain, sanitized = [os.path.join(os.path.dirname(it[0]), name) for it in (self.plain, self.sanitized)]
        return [[plain], [sanitized], self.checked[:-1] + [plain]]

    def answer(self, command, arguments, content, output):
        """Runs one build. Returns status, standard output, standard error, and what it wrote to the path `{}`."""
        own = self.path(".own")
        streams = {"stdin": subprocess.PIPE, "stdout": output or subprocess.PIPE, "stderr": subprocess.PIPE}
        filled = [argument.replace("{}", own) for argument in arguments]
        process = subprocess.Popen(command + filled, env=self.environment, **streams)
        found, errors = process.communicate(content)
        written = None
        if os.path.exists(own):
            with open(own, "rb") as file:
                written = file.read()
        return process.returncode, found, errors.decode().replace(own, "{}"), written

    def run(self, *arguments, content=b"", output=None):
        """Runs all builds with the arguments, and checks that they agree. Returns status, standard output, standard
        error, and what was written to the path `{}`, which is a different one for each build. The result under valgrind
        is checked at the end of the test."""
        sanitized = self.pool.submit(self.answer, self.sanitized, arguments, content, output)
        answer = self.answer(self.plain, arguments, content, output)
        self.check(answer[0] in (0, 1, 2), "status", answer[0], "of", arguments, answer[2])
        self.equal(sanitized.result(), answer, "different result with sanitizers of", arguments)
        kind = (*arguments[:1], *sorted({it.partition("=")[0] for it in arguments if it.startswith("-")}), answer[0])
        if kind not in self.seen:
            self.seen.add(kind)
            self.pending.append((self.pool.submit(self.answer, self.checked, arguments, content, output), answer, arguments))
        if output:
            self.finish()
        return answer

    def measure(self, *arguments, output=None, timeout=300):
        """Runs the plain build. Returns its status, output and messages, and its peak memory in bytes."""
        command = [sys.executable, "-S", "-E", "-c", MEASURE, *self.plain, *arguments]
        found = subprocess.run(command, stdout=output or subprocess.PIPE, stderr=subprocess.PIPE, env=self.environment, timeout=timeout)
        errors, _, peak = found.stderr.decode().rpartition("peak ")
        return found.returncode, found.stdout, errors, int(peak) << 10

    def finish(self):
        """Waits for the runs under valgrind, and compares their results with those of the plain build."""
        for checked, answer, arguments in self.pending:
            self.equal(checked.result(), answer, "different result under valgrind of", arguments)
        self.pending = []

    def stat(self, *arguments, content=b"", status=0):
        """Runs `stat --json`. Returns the statistics as an object, and standard error."""
        found = self.run("stat", "--json", *arguments, content=content)
        self.equal(found[0], status, "status of stat", arguments, found[2])
        return json.loads(found[1]), found[2]

    def tshark(self, path, *arguments):
        command = ["tshark", "-n", "-r", path, *arguments]
        found = subprocess.run(command, stdout=subprocess.PIPE, stderr=subprocess.DEVNULL)
        self.equal(found.returncode, 0, "status of tshark on", path)
        return found.stdout


def pytest_addoption(parser):
    parser.addoption("--builds", required=True, help="the folder of what tests/ipcap/run has built")


@pytest.fixture
def harness(request):
    """Runs the builds in a folder of the test's own."""
    builds = request.config.getoption("--builds")
    with tempfile.TemporaryDirectory() as folder:
        it = Harness(f"{builds}/plain/ipcap", f"{builds}/sanitized/ipcap", f"{builds}/refuse.so", folder)
        yield it
        it.finish()
        request.node.user_properties.append(("checks", it.passed))


def pytest_terminal_summary(terminalreporter):
    """Prints how many checks the tests made. A test's number is reported after its fixture has ended, which has no outcome's name."""
    reports = terminalreporter.stats.get("", [])
    checks = sum(number for it in reports if it.when == "teardown" for name, number in it.user_properties if name == "checks")
    terminalreporter.write_line(f"{checks} checks passed")
