"""Tests of the files that complete commands in bash and zsh."""

import os
import re
import shutil
import subprocess

FOLDER = os.path.join(os.path.dirname(os.path.abspath(__file__)), "..", "..", "programs", "ipcap", "completion")
COMMANDS = ["stat", "sum", "filter", "show", "defrag", "rewrite"]
SCRIPT = 'source "$0"; COMP_WORDS=("$@"); COMP_CWORD=$(($# - 1)); _ipcap; printf "%s\\n" "${COMPREPLY[@]}"'


def completed(harness, *words):
    """Returns the words with which bash completes the last of these words."""
    script = os.path.join(FOLDER, "ipcap.bash")
    command = ["bash", "-c", SCRIPT, script, *harness.plain, *words]
    found = subprocess.run(command, stdout=subprocess.PIPE, stderr=subprocess.PIPE)
    harness.equal((found.returncode, found.stderr), (0, b""), words)
    return found.stdout.decode().split()


def options_of(harness, command):
    """Returns the options that the usage text of a command lists."""
    text = harness.run(command, "--help")[1].decode()
    return set(re.findall(r"^  (--?[a-z-]+=?)", text, re.M))


def test_completions(harness):
    """Every command and option is completed, and nothing else."""
    harness.equal(completed(harness, ""), COMMANDS + ["help", "--help", "--version"], "commands")
    harness.equal(completed(harness, "s"), ["stat", "sum", "show"], "commands with s")
    harness.equal(completed(harness, "frob", ""), [], "another command")
    harness.equal(completed(harness, "help", ""), COMMANDS, "commands to explain")
    with open(os.path.join(FOLDER, "_ipcap")) as file:
        in_zsh = file.read()
    harness.check("help) _arguments ':command:(%s)'" % " ".join(COMMANDS) in in_zsh, "commands to explain, in zsh", in_zsh)
    for command in COMMANDS:
        wanted = options_of(harness, command)
        harness.equal(set(completed(harness, command, "-")), wanted, command)
        harness.equal(completed(harness, command, "--v"), ["--version"], command, "--v")
        line = re.search(r"^        %s\) (.*?);;" % command, in_zsh, re.M | re.S)[1]
        harness.equal(set(re.findall(r"'\*?(--?[a-z-]+=?)\[", line)), wanted - {"--help", "--version"}, command, "in zsh")
    for words, wanted in [(["stat", "--p"], ["--per-file"]), (["stat", ""], []), (["stat", "-j", ""], []),
                          (["show", "--color", "=", "a"], ["always", "auto"]),
                          (["show", "--color", "="], ["always", "never", "auto"]),
                          (["show", "--c"], ["--color=", "--csv"]), (["rewrite", "--without", "h"], ["hop-by-hop"]), (["filter", "-w", "a"], []), (["filter", "--since", "1"], []),
                          (["filter", "--undecided", "k"], ["keep"]), (["filter", "--b"], ["--bytecode"]),
                          (["filter", "fragment", "an"], ["and"]), (["filter", "trunc"], ["truncated"]),
                          (["show", "fragment", "an"], ["and"]), (["show", "/dev/nul"], ["/dev/null"]), (["show", "fault", "/dev/nul"], ["/dev/null"]),
                          (["defrag", "--report", "a"], []), (["stat", "frag"], []),
                          (["filter", "header", "44", "and", "first"], ["first-fragment"])]:
        harness.equal(completed(harness, *words), wanted, words)
    rows = harness.run("filter", "--help-terms")[1].decode().partition("\n\n")[0].split("\n")[1:]
    harness.equal(set(completed(harness, "filter", "")), {"and", "or", "not"} | {row.split()[0] for row in rows}, "terms")
    for name, shell in [("ipcap.bash", "bash"), ("_ipcap", "zsh")]:
        if not shutil.which(shell):
            print("the syntax of %s: skipped, %s missing" % (name, shell))
            continue
        found = subprocess.run([shell, "-n", os.path.join(FOLDER, name)], stderr=subprocess.PIPE)
        harness.equal((found.returncode, found.stderr), (0, b""), "syntax", name)
