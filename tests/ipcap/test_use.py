"""Tests of usage errors, full disks, terminals, interrupts, memory and damaged captures."""

import os
import pty
import random
import re
import resource
import select
import shutil
import signal
import subprocess

import test_compression
from captures import *

STACK = 160 << 10
COMMANDS = ["stat", "sum", "filter", "show", "defrag", "rewrite"]


def test_helps(harness):
    for arguments in [["--help"], ["-h"]] + [[c, "--help"] for c in COMMANDS] + [[c, "-h"] for c in COMMANDS]:
        status, found, errors, _ = harness.run(*arguments)
        harness.equal((status, errors), (0, ""), arguments)
        harness.check(found.startswith(b"usage: ipcap " + (arguments[0].encode() if len(arguments) > 1 else b"stat")),
                      arguments)
    for arguments in [["--version"]] + [[c, "--version"] for c in COMMANDS]:
        status, found, errors, _ = harness.run(*arguments)
        harness.equal((status, errors), (0, ""), arguments)
        harness.check(re.match(rb"ipcap \d+\.\d+\.\d+\nlibpcap ", found), arguments, found)


    for arguments in [["help"]] + [["help", c] for c in COMMANDS]:
        wanted = harness.run(*arguments[1:], "--help")
        harness.equal(harness.run(*arguments), wanted, arguments)
        harness.equal(wanted[0], 0, arguments)


def test_wrong_usage(harness):
    """Without arguments, the usage is printed. Otherwise one line says what is wrong."""
    found = harness.run()
    harness.equal((found[0], found[1], found[2].encode()), (2, b"", harness.run("--help")[1]), "no argument")
    for arguments in [["frob"], ["--frob"], ["x" * 500], ["help", "frob"], ["help", "stat", "sum"],
                      ["stat", "--frob"], ["sum", "file"], ["sum", "--frob"],
                      ["show", "--color"], ["show", "--color=red"], ["show", "-w", "x"], ["show", "-c", "0"],
                      ["show", "--json", "--one-line"], ["show", "--csv", "--json"],
                      ["stat", "--json=1"], ["stat", "-j", "0"], ["stat", "-j"],
                      ["stat", "-j", "x"], ["sum", "-j", "2"],
                      ["stat", "--top", "0"], ["stat", "--top"], ["sum", "--top", "x"], ["sum", "--per-file"],
                      ["stat", "--tunnels=1"], ["sum", "--tunnels"], ["defrag", "--tunnels=1"], ["rewrite", "--tunnels=1", "--clear"]]:
        status, found, errors, _ = harness.run(*arguments)
        harness.equal((status, found), (2, b""), arguments)
        name = "ipcap " + arguments[0] if arguments[0] in COMMANDS else "ipcap"
        harness.check(errors.startswith("ipcap: ") and errors.endswith("; see `%s --help`\n" % name) and errors.count("\n") == 1,
                      arguments, errors)
    for arguments, words in [(["--frob"], "unknown option '--frob'"), (["--frob=1"], "unknown option '--frob=1'"),
                             (["-x"], "unknown option '-x'"), (["-nx"], "unknown option '-x'"), (["--s"], "ambiguous option '--s'"),
                             (["--s=1"], "ambiguous option '--s=1'"), (["--since"], "--since needs an argument: a time such as "),
                             (["-w"], "-w needs an argument: a path"), (["-nw"], "-w needs an argument: a path"),
                             (["--show=1"], "--show takes no argument"), (["--help=1"], "--help takes no argument"),
                             (["--version=1"], "--version takes no argument"), (["-c0"], "-c must be a number above 0")]:
        found = harness.run("filter", *arguments)
        harness.check(found[2].startswith("ipcap: " + words) and found[2].count("\n") == 1, arguments, found[2])
    harness.equal(harness.run("filter", "--sh", "fault")[0], 0, "a shortened option")


def test_old_processors(harness):
    """On a processor without x86-64-v2, each command but for help and version says so, and so does the library's call."""
    if not shutil.which("qemu-x86_64"):
        print("old processors: skipped, qemu-x86_64 missing")
        return
    path = harness.file(capture([ethernet(ipv4(17, UDP))]))
    words = "this processor lacks instructions of x86-64-v2, such as SSE4.2\n"
    for model, is_old in [("qemu64", True), ("max", False)]:
        processor = ["qemu-x86_64", "-cpu", model]
        for arguments in [["--help"], ["--version"], ["help", "stat"]]:
            harness.equal(harness.answer(processor + harness.plain, arguments, b"", None), harness.run(*arguments), model, arguments)
        for arguments in [["stat", path], ["sum"], ["filter", "any", path], ["show", path], ["defrag", path], ["rewrite", "--clear", path]]:
            wanted = (1, b"", "ipcap: " + words, None) if is_old else harness.run(*arguments)
            harness.equal(harness.answer(processor + harness.plain, arguments, b"", None), wanted, model, arguments)
        count = harness.commands("count")[0]
        wanted = (1, b"", words.strip(), None) if is_old else harness.answer(count, [path], b"", None)
        harness.equal(harness.answer(processor + count, [path], b"", None), wanted, model, "count")


# What is given, and how it is shown: characters of C1 in UTF-8 and alone, those that change a text's direction, and others.
HIDDEN = [(b"a\x9b31mb", "a\\x9b31mb"), ("a\x9b31mb".encode(), "a\\xc2\\x9b31mb"), (b"\xe9", "\\xe9"),
          ("a\u202egnp.pcap".encode(), "a\\xe2\\x80\\xaegnp.pcap"), ("\u2066x\u2069".encode(), "\\xe2\\x81\\xa6x\\xe2\\x81\\xa9"),
          ("\u200f\u061c".encode(), "\\xe2\\x80\\x8f\\xd8\\x9c"), ("\u2028".encode(), "\\xe2\\x80\\xa8"), (b"\033]0;x\007", "\\x1b]0;x\\x07"),
          ("\u00a0\u4e2d\u00e9\U0001f600".encode(), "\u00a0\u4e2d\u00e9\U0001f600")]


def test_hidden_characters(harness):
    """Characters that change the terminal, or the direction of its text, are escaped wherever arguments are shown."""
    for number, (given, shown) in enumerate(HIDDEN):
        name = os.fsdecode(given)
        for command in COMMANDS[number % 6:][:1] if number else COMMANDS:
            words = "sum reads standard input and takes no file name; see `ipcap sum --help`" if command == "sum" else "%s: No such file or directory" % shown
            found = harness.run(command, *{"filter": ["-r", name, "fault"], "rewrite": ["--clear", name]}.get(command, [name]))
            harness.equal(found[2], "ipcap: %s\n" % words, command, given)
            found = harness.run(command, "--" + name)
            harness.equal(found[2], "ipcap: unknown option '--%s'; see `ipcap %s --help`\n" % (shown, command), command, "option", given)
            found = harness.run(command, "--version=" + name)
            harness.equal(found[2], "ipcap: --version takes no argument; see `ipcap %s --help`\n" % command, command, "argument", given)
        harness.equal(harness.run(name)[2], "ipcap: unknown command '%s'; see `ipcap --help`\n" % shown, "command", given)
        errors = harness.run("filter", "ip frob%s and ip" % name)[2]
        harness.check(not re.search("[\x00-\x09\x0b-\x1f\x7f-\x9f\u061c\u200e\u200f\u2028-\u202e\u2066-\u2069]", errors), given, repr(errors))
        harness.check(errors.endswith("\n     ^\n"), given, repr(errors))
    found = harness.run("stat", "-\u00e9")
    harness.equal(found[2], "ipcap: unknown option '-\\xc3'; see `ipcap stat --help`\n", "a letter that isn't ASCII")


def make_lines(compiler, folder):
    """Returns the commands that make would run with a compiler."""
    programs = os.path.join(os.path.dirname(os.path.abspath(__file__)), "..", "..", "programs")
    library = "/nonexistent/libwolfaren.a"
    command = ["make", "-n", "-B", "-C", programs, "-o", library, "ipcap", "CC=" + compiler, "LIB=" + library, "OUT=" + folder]
    return subprocess.run(command, stdout=subprocess.PIPE, check=True).stdout.decode()


def test_hardening(harness):
    """The compiler is given the flags that harden a program, but for those that it doesn't take."""
    for compiler, branches, other in [("gcc", "-fcf-protection", "-mbranch-protection"),
                                      ("aarch64-linux-gnu-gcc", "-mbranch-protection=standard", "-fcf-protection")]:
        if not shutil.which(compiler):
            print("hardening: skipped, %s missing" % compiler)
            continue
        lines = make_lines(compiler, harness.path(""))
        compiled = [line for line in lines.splitlines() if " -c -o " in line]
        harness.check(len(compiled) > 20, compiler, lines)
        for line in compiled:
            for flag in (branches, "-fstack-clash-protection", "-D_FORTIFY_SOURCE=3", "-fstack-protector-strong"):
                harness.check(" %s " % flag in line, compiler, flag, line)
            harness.check(other not in line, compiler, other, line)
    refusing = harness.file(b"#!/bin/sh\ncase \"$*\" in *-fcf-protection*|*clash*) exit 1;; esac\nexec gcc \"$@\"\n", ".sh")
    os.chmod(refusing, 0o755)
    lines = make_lines(refusing, harness.path(""))
    harness.check("-D_FORTIFY_SOURCE=3" in lines and "-fcf-protection" not in lines and "clash" not in lines, "flags that are refused", lines)


def test_names_of_files(harness):
    """Control characters in the names of files are escaped."""
    for name, shown in [("a\033[31m\nb\177.pcap", "a\\x1b[31m\\x0ab\\x7f.pcap"), ("é.pcap", "é.pcap")]:
        wanted = (1, b"", "ipcap: %s: No such file or directory\n" % shown, None)
        harness.equal(harness.run("show", name), wanted, name)
        harness.equal(harness.run("stat", name), wanted, name)


def test_full_outputs(harness):
    content = capture([ethernet(ipv6_chain([0, 43]))] * 500)
    path = harness.file(content)
    good = harness.run("stat", "--json", path)[1]
    with open("/dev/full", "wb") as full:
        for arguments, given in [(["stat", path], b""), (["stat", "--json", path], b""), (["sum"], good),
                                 (["sum", "--json"], good),
                                 (["show", path], b""), (["show"], content), (["show", "--json"], content), (["filter", "header 0", path], b""),
                                 (["show", "header 0", path], b""), (["show", "--tunnels", path], b""), (["filter", "--number", "header 0", path], b""),
                                 (["filter", "--number", "header 0"], content), (["filter", "header 0"], content),
                                 (["filter", "fault", path], b""), (["filter", "--show", "fault"], b""),
                                 (["filter", "--help-terms"], b""),
                                 (["rewrite", "--without", "0", path], b""), (["rewrite", "--without", "0"], content),
                                 (["--help"], b""), (["--version"], b"")]:
            answer = harness.run(*arguments, content=given, output=full)
            harness.equal((answer[0], answer[2]), (1, "ipcap: standard output: No space left on device\n"), arguments)
        answer = harness.run("filter", "header 0", "-w", "/dev/full", path)
        harness.equal((answer[0], answer[2]), (1, "ipcap: /dev/full: No space left on device\n"), "-w")


def read_terminal(master, seconds=None):
    """Returns what a terminal displays until nothing more comes for `seconds`, or until it is closed."""
    shown = b""
    while select.select([master], [], [], seconds)[0]:
        try:
            part = os.read(master, 65536)
        except OSError:
            break
        if not part:
            break
        shown += part
    return shown


def in_terminal(command, environment, standard_error=False, head=b"", part=b""):
    """Runs a command with standard error, and standard output unless `standard_error` is set, on a terminal. Feeds it
    `head`, then `part` repeatedly until it displays something, for a minute at most. Returns its status and what it
    displayed."""
    master, terminal = pty.openpty()
    output = subprocess.DEVNULL if standard_error else terminal
    process = subprocess.Popen(command, stdin=subprocess.PIPE, stdout=output, stderr=terminal, env=environment)
    os.close(terminal)
    shown = b""
    process.stdin.write(head)
    for _ in range(120 if part else 0):
        process.stdin.write(part)
        process.stdin.flush()
        shown += read_terminal(master, 0.5)
        if shown:
            break
    process.stdin.close()
    shown += read_terminal(master)
    os.close(master)
    return process.wait(), shown


def test_terminals(harness):
    path = harness.file(capture([ethernet(ipv6_chain([0, 43]))]))
    environment = dict(harness.environment, TERM="xterm")
    for command in [harness.plain, harness.sanitized, harness.checked]:
        for more, arguments, is_colored in [({}, [], True), ({"NO_COLOR": "1"}, [], False),
                                            ({"NO_COLOR": ""}, [], True), ({"TERM": "dumb"}, [], False),
                                            ({"NO_COLOR": "1"}, ["--color=always"], True),
                                            ({}, ["--color=never"], False)]:
            status, shown = in_terminal(command + ["show", path] + arguments, dict(environment, **more))
            harness.equal((status, b"\033[" in shown), (0, is_colored), more, arguments)
        status, shown = in_terminal(command + ["filter", "fault", path], environment)
        harness.equal((status, b"refusing to write a capture to a terminal" in shown), (2, True),
                      "a capture on a terminal")
        frames = b"".join([record(ethernet(ipv6_chain([0])))] * 1024)
        status, shown = in_terminal(command + ["stat"], environment, True, file_header(), frames)
        is_shown = re.search(rb"standard input: \d+ packets", shown)
        harness.check(status == 0 and is_shown and shown.endswith(b"\r\033[K"), shown)
        status, shown = in_terminal(command + ["filter", "fault", "-w", "/dev/null"], environment, False,
                                    file_header(), frames)
        is_shown = re.search(rb"standard input: \d+ packets", shown)
        harness.check(status == 0 and is_shown and shown.endswith(b"\r\033[K"), shown)
        status, shown = in_terminal(command + ["stat", "-j2", path, "-"], environment, True, file_header(), frames)
        harness.check(status == 0 and re.search(rb"[01] of 2 files", shown) and shown.endswith(b"\r\033[K"), shown)
        status, shown = in_terminal(command + ["stat", path], environment, True)
        harness.equal((status, shown), (0, b""), "no progress line for a short file")


def take_interrupts():
    """Restores the default action of SIGINT, which is ignored if the tests run in the background."""
    signal.signal(signal.SIGINT, signal.SIG_DFL)


def test_interrupts(harness):
    """After one interrupt, the rest of the pipe is still filtered. The second interrupt ends the program."""
    packet = record(ethernet(ipv6_chain([0])))
    for command in [harness.plain, harness.sanitized, harness.checked]:
        for is_second, wanted in [(False, 0), (True, -signal.SIGINT)]:
            process = subprocess.Popen(command + ["filter", "header 0"], stdin=subprocess.PIPE, stdout=subprocess.PIPE,
                                       env=harness.environment, preexec_fn=take_interrupts)
            os.write(process.stdin.fileno(), file_header() + packet)
            harness.equal(process.stdout.read(24 + len(packet)), file_header() + packet, "before the interrupt")
            process.send_signal(signal.SIGINT)
            os.write(process.stdin.fileno(), packet)
            harness.equal(process.stdout.read(len(packet)), packet, "after the interrupt")
            if is_second:
                process.send_signal(signal.SIGINT)
            else:
                process.stdin.close()
            harness.equal(process.wait(60), wanted, "status, with a second interrupt:", is_second)
            process.stdout.close()


def test_bounded_memory(harness):
    """A capture with a thousand times as many packets takes no more memory."""
    frames = [record(ethernet(ipv6_chain(numbers))) for numbers in [[0], [0, 43], [60, 44], [51]]]
    short, long = [harness.file(file_header() + b"".join(frames) * count) for count in [50, 50000]]
    for command in [["stat"], ["filter", "header 44", "-w", "/dev/null"], ["show"], ["rewrite", "--without", "0", "-w", "/dev/null"]]:
        few, many = [harness.measure(*command, path, output=subprocess.DEVNULL) for path in (short, long)]
        harness.check(few[0] == many[0] == 0 and many[3] < few[3] + (500 << 10), command, few, many)


# a frame for which more memory is needed than for the others
LONG = ethernet(bytes(100000))


def refuse_each(harness, arguments, given=b""):
    """Refuses each of the first hundred allocations of a command in turn."""
    wanted = harness.run(*arguments, content=given)[1]
    failures = 0
    for number in range(1, 101):
        environment = dict(harness.environment, LD_PRELOAD=harness.refusing, REFUSED_ALLOCATION=str(number))
        found = subprocess.run(harness.plain + arguments, input=given, stdout=subprocess.PIPE,
                               stderr=subprocess.PIPE, env=environment)
        if found.returncode == 0:
            harness.equal(found.stdout, wanted, "allocation", number, "of", arguments)
        else:
            harness.check(found.returncode == 1 and found.stderr.startswith(b"ipcap: "), arguments, number, found)
            failures += 1
    harness.check(failures > 1, arguments, "failed on", failures)


def test_manual(harness):
    """What tcpdump writes to a pipe of the manual's examples arrives at once."""
    path = os.path.join(os.path.dirname(os.path.abspath(__file__)), "..", "..", "programs", "ipcap", "ipcap.1")
    with open(path) as file:
        pipes = [line.replace("\\", "") for line in file if line.startswith("tcpdump") and "|" in line]
    harness.check(pipes and all(" -U --immediate-mode -w - " in line for line in pipes), pipes)


def limit_stack():
    resource.setrlimit(resource.RLIMIT_STACK, (STACK, STACK))


def test_small_stacks(harness):
    """Threads with little room on their stacks, as some C libraries give them, count and filter files, also compressed ones."""
    parts = [ethernet(ipv6(44, fragment(17, offset, more) + bytes(16))) for offset, more in ((0, 1), (2, 0))]
    content = capture(([ethernet(ipv6_chain([0]))] + parts) * 9)
    for name, compressed in [("", content), *((name, packed(content)) for name, packed in test_compression.formats(harness))]:
        path = harness.file(compressed)
        count = harness.commands("count")[0]
        for command, arguments in [(harness.plain + ["stat", "--json", "-j2", path, path, path], ["stat", "--json", path, path, path]),
                                   (harness.plain + ["stat", "--json", "--defrag", "-j2", path, path], ["stat", "--json", "--defrag", path, path]),
                                   (count + [path], ["stat", "--json", path]), (count + [path, "header 0"], ["filter", "header 0", path])]:
            found = subprocess.run(command, stdout=subprocess.PIPE, env={}, preexec_fn=limit_stack)
            harness.equal((found.returncode, found.stdout), (0, harness.run(*arguments)[1]), name, command)


def test_refused_memory(harness):
    """Each failed allocation ends the program with a message, unless it gets by without that memory."""
    content = capture([ethernet(ipv6_chain([60] * 40)), ethernet(ipv4(4, ipv6_chain([60] * 41))), LONG], snap_len=len(LONG))
    path = harness.file(content)
    counts = harness.run("stat", "--json", "--tunnels", path)[1]
    harness.finish()
    for arguments, given in [(["stat", path], b""), (["stat", "--tunnels", path], b""),
                             (["filter", "header 60", path], b""), (["show", path], b""), (["sum"], counts),
                             (["rewrite", "--without", "60", path], b"")]:
        refuse_each(harness, arguments, given)


def test_damaged_captures(harness):
    """Whatever bytes of a capture are changed, each command ends in an orderly way."""
    draw = random.Random(5)
    content = capture([ethernet(ipv6_chain([0, 43, 44, 51, 60])),
                       ethernet(ipv4(51, authentication(17) + UDP), (0x8100,)),
                       ethernet(ipv6(44, fragment(60, 0, 1) + options(17) + UDP))])
    for number in range(60):
        changed = bytearray(content)
        for _ in range(draw.choice([1, 2, 5, 20])):
            place = draw.randrange(0 if number % 4 == 0 else 24, len(changed))
            changed[place] = draw.choice([0, 1, 255, draw.randrange(256)])
        command = [["stat"], ["show"], ["filter", "header 44 or fault"], ["rewrite", "--without", "0", "--without", "51", "--clear", "--in-order"]][number % 4]
        status, _, errors, _ = harness.run(*command, content=bytes(changed))
        errors = re.sub(r"ipcap: .*: \d+ packets? (unchanged:|with a transport) .*\n", "", errors)
        harness.equal(status == 0, errors == "", command, bytes(changed).hex(), errors)
