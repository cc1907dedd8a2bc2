"""Tests that ipcap gives up what it doesn't need, and that it works where the system has no means for that."""

import ctypes
import errno
import os
import platform
import re
import signal
import subprocess
import time

from captures import *

COMMANDS = [["show", "--one-line"], ["filter", "any"], ["defrag"], ["defrag", "--keep", "--tunnels"], ["rewrite", "--without", "0"], ["stat", "--json"], ["sum"]]
HEAD = file_header() + record(ethernet(ipv6_chain([0, 44])))
SECCOMP_CALLS = {"x86_64": (157, 317, 444, 445, 446), "aarch64": (167, 277, 444, 445, 446)}
CALLS = ["read", "write", "seek", "memory", "terminal", "threads", "process", "open", "open-to-write", "truncate", "create", "remove", "mode", "code", "socket", "kill",
         "program"]
ALLOWED = CALLS[:5]
# what Landlock doesn't refuse, nor that root becomes nobody
LEFT = ["threads", "process", "code", "socket"] + (["mode", "kill"] if os.geteuid() else [])
OVERRIDES, SEARCHES = 1 << 1, 1 << 2  # CAP_DAC_OVERRIDE and CAP_DAC_READ_SEARCH
NOBODY = "65534"


def has_means():
    """Whether the machine has what is tested: a kernel with seccomp, and a processor for which ipcap knows the calls."""
    with open("/proc/self/status") as file:
        return platform.machine() in SECCOMP_CALLS and "Seccomp:" in file.read() and os.path.exists("/proc/sys/kernel/seccomp")


def fields_of(process):
    """Returns the fields of a process by their names."""
    with open("/proc/%d/status" % process.pid) as file:
        return dict(line.rstrip("\n").split(":\t", 1) for line in file if ":\t" in line)


def waiting(command, arguments, environment):
    """Starts a command that has read some bytes of a pipe, and waits for more."""
    process = subprocess.Popen(command + arguments, stdin=subprocess.PIPE, stdout=subprocess.PIPE, stderr=subprocess.DEVNULL, env=environment)
    process.stdin.write(b"{" if arguments[0] == "sum" else HEAD)
    process.stdin.flush()
    return process


def wait_until(process, name, value):
    """Returns the fields of a process as soon as one has this value, at the latest after some seconds."""
    fields = fields_of(process)
    for _ in range(200):
        if fields[name] == value:
            break
        time.sleep(0.05)
        fields = fields_of(process)
    return fields


def test_confined(harness):
    """Each command is confined while it reads, but for builds with sanitizers and preloaded libraries."""
    if not has_means():
        print("confinement: skipped, this kernel or processor has no means for it")
        return
    for arguments in COMMANDS:
        confined_as(harness, arguments, 0)
    for command, more in [(harness.sanitized, {}), (harness.plain, {"LD_PRELOAD": harness.refusing})]:
        process = waiting(command, ["filter", "any"], dict(harness.environment, **more))
        harness.equal(process.stdout.read(len(HEAD)), HEAD, "the first packet")
        fields = fields_of(process)
        process.communicate()
        harness.equal((fields["Seccomp"], fields["NoNewPrivs"]), ("0", "0"), command, more)


def confined_as(harness, arguments, capabilities):
    """A command that waits for bytes is confined, and has kept only these capabilities."""
    process = waiting(harness.plain, arguments, harness.environment)
    fields = wait_until(process, "CapPrm", "%016x" % capabilities)
    process.communicate()
    harness.equal((fields["Seccomp"], fields["NoNewPrivs"]), ("2", "1"), arguments)
    found = [int(fields[name], 16) for name in ("CapEff", "CapPrm", "CapInh")]
    harness.equal(found, [capabilities, capabilities, 0], arguments, "capabilities")
    if os.geteuid() == 0:
        harness.equal((fields["Uid"].split(), fields["Gid"].split(), fields["Groups"].split()), ([NOBODY] * 4, [NOBODY] * 4, []), arguments, "root")


def test_several_files(harness):
    """While files are left to open, a command keeps what it takes to open them for reading."""
    if not has_means():
        print("confinement with several files: skipped, this kernel or processor has no means for it")
        return
    with open("/proc/self/status") as file:
        own = int(re.search(r"^CapEff:\t(\w+)", file.read(), re.M)[1], 16)
    reads = own & SEARCHES or own & OVERRIDES
    path, empty, absent = harness.file(HEAD), harness.file(file_header()), "/nonexistent"
    for command in (["filter", "any"], ["stat", "--json", "-j1"]):
        confined_as(harness, command + ["-", path], reads)
        confined_as(harness, command + ["-", absent], reads)
        confined_as(harness, command + [path, "-"], 0)
        confined_as(harness, command + [path, path, "-"], 0)
    confined_as(harness, ["stat", "--json", "-j2", path, "-"], reads)
    for command in (["filter", "any"], ["stat", "--json", "-j1"], ["stat", "--json", "-j2"]):
        found = harness.run(*command, path, absent)
        harness.equal((found[0], found[2]), (1, "ipcap: /nonexistent: No such file or directory\n"), command)
        harness.equal(found[1], harness.run(*command, path, empty)[1], command)
        many = harness.run(*command, *[path] * 40)
        harness.equal((many[0], many[2]), (0, ""), command, "many files")


def test_calls(harness):
    """What isn't needed is refused, and what is needed isn't."""
    if not has_means():
        print("calls of the system: skipped, this kernel or processor has no means to refuse them")
        return
    for name, allowed in [("none", ALLOWED), ("reading", ALLOWED + ["threads", "open"]), ("both", ALLOWED)]:
        calls_as(harness, name, allowed, None)
    found = subprocess.run(harness.commands("confined")[1] + ["none", harness.file(b"x")], stdout=subprocess.PIPE, stderr=subprocess.PIPE,
                           env=dict(harness.environment, ASAN_OPTIONS="detect_leaks=0"))
    harness.check(b"open done\n" in found.stdout, "with sanitizers", found.stdout)


def calls_as(harness, name, allowed, before):
    """Of the calls that are tried, these succeed."""
    path = harness.file(b"some bytes")
    found = subprocess.run(harness.commands("confined")[0] + [name, path], stdout=subprocess.PIPE, stderr=subprocess.PIPE, env=harness.environment,
                           preexec_fn=before)
    wanted = "".join("%s %s\n" % (it, "done" if it in allowed else "refused") for it in CALLS)
    harness.equal((found.returncode, found.stdout.decode(), found.stderr), (-signal.SIGTERM, wanted, b""), name)
    with open(path, "rb") as file:
        harness.equal(file.read(), b"s\0me bytes", "the file", name)


def test_landlock(harness):
    """Landlock alone refuses to open files, to change them and to run programs."""
    create, with_truncate = 444, 3
    version = ctypes.CDLL(None).syscall(create, None, 0, 1) if has_means() else -1
    if version < with_truncate:
        print("Landlock: skipped, this kernel has none, or one that doesn't refuse to truncate files")
        return
    without_seccomp = refuser([SECCOMP_CALLS[platform.machine()][1]], errno.EPERM)
    for name, allowed in [("none", ALLOWED + LEFT), ("reading", ALLOWED + LEFT + ["open"]), ("both", ALLOWED + LEFT)]:
        calls_as(harness, name, allowed, without_seccomp)


class Step(ctypes.Structure):
    _fields_ = [("code", ctypes.c_uint16), ("if_met", ctypes.c_uint8), ("if_not", ctypes.c_uint8), ("number", ctypes.c_uint32)]


class Program(ctypes.Structure):
    _fields_ = [("len", ctypes.c_uint16), ("steps", ctypes.POINTER(Step))]


def refuser(numbers, error):
    """Returns a function that lets the system fail calls with these numbers, as some containers do."""
    steps = [(0x20, 0, 0, 0)]
    for number in numbers:
        steps += [(0x15, 0, 1, number), (0x06, 0, 0, 0x00050000 | error)]
    steps.append((0x06, 0, 0, 0x7FFF0000))
    array = (Step * len(steps))(*[Step(*it) for it in steps])
    program = Program(len(steps), array)
    libc = ctypes.CDLL(None, use_errno=True)

    def refuse():
        if libc.prctl(38, 1, 0, 0, 0) or libc.prctl(22, 2, ctypes.byref(program), 0, 0):
            os._exit(77)
    return refuse


def test_without_means(harness):
    """Where the system refuses the means, as in containers, each command works as elsewhere."""
    if not has_means():
        print("systems without means: skipped, this kernel or processor can't play them")
        return
    path = harness.file(capture([ethernet(ipv6_chain([0, 44])), ethernet(ipv4(17, UDP, 0x2000))] * 20))
    prctl, seccomp, *landlock = SECCOMP_CALLS[platform.machine()]
    for numbers in ([prctl], [seccomp], landlock, landlock[1:], [seccomp, *landlock]):
        for error in (errno.ENOSYS, errno.EPERM, errno.EINVAL):
            for arguments in (["show"], ["filter", "any"], ["defrag"], ["rewrite", "--without", "0"], ["stat", "--json", "-j2", path]):
                wanted = harness.answer(harness.plain, arguments + [path], b"", None)
                found = subprocess.run(harness.plain + arguments + [path], stdout=subprocess.PIPE, stderr=subprocess.PIPE, env=harness.environment,
                                       preexec_fn=refuser(numbers, error))
                harness.equal((found.returncode, found.stdout, found.stderr.decode()), wanted[:3], arguments, numbers, error)
