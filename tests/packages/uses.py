"""What is in packages, and how it is used."""

import re

from tools import ROOT, WARNINGS, names, read, refused, run, write

HERE = f"{ROOT}/tests/packages"
SHARED, PCAP_SHARED = names()
INSTALLED = {"bin/ipcap": 0o755, "bin/ipexts": 0o755, "include/wolfaren.h": 0o644, "lib/libwolfaren.a": 0o644,
             "lib/libwolfaren.so": 0o644, f"lib/{SHARED}": 0o644, "lib/libwolfaren-pcap.so": 0o644,
             f"lib/{PCAP_SHARED}": 0o644, "include/wolfaren-pcap.h": 0o644, "lib/pkgconfig/wolfaren.pc": 0o644,
             "lib/pkgconfig/wolfaren-pcap.pc": 0o644, "share/man/man1/ipcap.1": 0o644, "share/man/man1/ipexts.1": 0o644,
             "share/bash-completion/completions/ipcap": 0o644, "share/zsh/site-functions/_ipcap": 0o644}
LIBRARY = {it: mode for it, mode in INSTALLED.items() if it.startswith(("include/", "lib/")) and "pcap" not in it}
CHAIN, NO_FILE = "2 headers, then UDP\n", "No such file or directory\n"
PYTHON = re.compile(r"\d+\.\d+\.\d+ 6\n" + NO_FILE)


def symbols(*words):
    return sorted(line.split()[-1] for line in run(*words).splitlines() if re.search(" [RT] ", line))


def pkg_config(path, variables, *words):
    """Returns the words that pkg-config prints for a file, with these variables."""
    return run("pkg-config", *words, *variables, path).split()


def build_and_run(room, compiler, source, *flags, runner=()):
    """Builds a C program as the compiler's language, runs it and returns its output."""
    language = "c++" if compiler.endswith("++") else "c"
    run(compiler, *WARNINGS, "-x", language, f"{HERE}/{source}", "-x", "none", *flags, "-o", f"{room}/program")
    return run(*runner, f"{room}/program")


def see_that_libraries_have_the_same_calls(folder):
    """The shared library exports the calls that the archive defines, and nothing else."""
    shared = symbols("nm", "-D", "--defined-only", f"{folder}/{SHARED}")
    assert shared == symbols("nm", "-g", "--defined-only", f"{folder}/libwolfaren.a")
    assert shared and all(it.startswith("wolfaren_") for it in shared)


def use_library(room, prefix, variables=()):
    """Builds a program with each library, with the flags that pkg-config gives for these variables."""
    file = f"{prefix}/lib/pkgconfig/wolfaren.pc"
    see_that_libraries_have_the_same_calls(f"{prefix}/lib")
    (stated,) = pkg_config(file, variables, "--modversion")
    major, minor, patch = map(int, stated.split("."))
    version = run("cc", "-E", "-P", "-include", f"{prefix}/include/wolfaren.h", "-", input="WOLFAREN_VERSION").splitlines()[-1]
    assert re.sub("[()]", "", version) == f"10000 * {major} + 100 * {minor} + {patch}"
    flags = pkg_config(file, variables, "--cflags", "--libs")
    assert build_and_run(room, "cc", "program.c", *flags, f"-Wl,-rpath,{prefix}/lib") == CHAIN
    assert build_and_run(room, "c++", "program.c", "-Wl,-Bstatic", *flags, "-Wl,-Bdynamic") == CHAIN


def use_programs(top):
    assert run(f"{top}/bin/ipexts", input="exts6 17 00\n") == "next 17 rest 1\nok\n"
    run(f"{top}/bin/ipcap", "--help")


def see_that_programs_are_hardened(top):
    """What reads captures calls the checked functions of the C library, and has a protected stack and no late binding."""
    for path in [f"{top}/bin/ipcap", f"{top}/lib/{PCAP_SHARED}"]:
        imported = run("nm", "-D", "--undefined-only", path)
        assert len(re.findall(r" __(?!stack)\w+_chk\b", imported)) >= 3 and "__stack_chk_fail" in imported, path
        dynamic, segments = run("readelf", "-d", "-W", path), run("readelf", "-l", "-W", path)
        assert "BIND_NOW" in dynamic and "GNU_RELRO" in segments and re.search(r"GNU_STACK .* RW ", segments), path
        assert not path.endswith("/ipcap") or re.search(r"FLAGS_1.* PIE", dynamic)
    if "x86-64" in run("readelf", "-h", f"{top}/bin/ipcap").lower():
        assert "IBT, SHSTK" in run("readelf", "-n", f"{top}/lib/libwolfaren.a")


def read_captures(room, top, variables=()):
    """Builds C and C++ programs with libwolfaren-pcap, with the flags that pkg-config gives for these variables. One that was
    compiled for another interface can't be linked."""
    header = read(f"{top}/include/wolfaren-pcap.h")
    declared = re.findall(r"^\w.*?(wolfaren_pcap_\w+)\(|^#define WOLFAREN_PCAP_ABI_SYMBOL (\w+)$", header, re.M)
    assert symbols("nm", "-D", "--defined-only", f"{top}/lib/{PCAP_SHARED}") == sorted(call or symbol for call, symbol in declared)
    flags = pkg_config(f"{top}/lib/pkgconfig/wolfaren-pcap.pc", variables, "--cflags", "--libs")
    for compiler in ["cc", "c++"]:
        assert build_and_run(room, compiler, "captures.c", *flags, f"-Wl,-rpath,{top}/lib") == 2 * NO_FILE
    write(f"{room}/other/wolfaren-pcap.h", re.sub(r"(?<=_abi_)[0-9a-f]{8}$", "00000001", header, flags=re.M))
    refused("cc", f"-I{room}/other", f"{HERE}/captures.c", *flags, "-o", f"{room}/program", said="wolfaren_pcap_abi_00000001")
