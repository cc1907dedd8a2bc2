"""Tests the C library that `make lib` builds: what it needs and exports, its header, and its calls, with sanitizers.

The options name another library. That of ARM64 is tested without sanitizers; of one that scripts/rust-c has built for any
machine, whose folder has wolfaren.pc, `-k calls` tests the calls.
"""

import functools
import itertools
import os
import re
import shutil
import subprocess

import pytest

import tools
from tools import ROOT, lines_and_answers, read, refused, write

run = functools.partial(tools.run, is_silent=True)

HEADER = f"{ROOT}/include/wolfaren.h"
WARNINGS = ["-Wall", "-Wextra", "-Wpedantic", "-Wconversion", "-Wshadow", "-Wundef", "-Werror"]
STANDARDS = {"c": ["c99", "gnu99", "c11", "c17"], "c++": ["c++11", "c++14", "c++17", "c++20"]}
SANITIZERS = ["-fsanitize=address,undefined", "-fno-sanitize-recover=all"]
FORMS = {"exts6": ["exts6", "steps6"], "exts4": ["exts4"], "packet": ["packet", "payload"]}
LINE = re.compile(r"(exts6|exts4) (0|[1-9]\d{0,2}) (-|([0-9A-Fa-f]{2})+)$|(packet) (-|([0-9A-Fa-f]{2})+)$")
# all but those that read lines or measure stacks
PROGRAMS = sorted({it.removesuffix(".c") for it in os.listdir(f"{ROOT}/tests/c") if it.endswith(".c")} - {"lines", "stacks"})
# machines and systems for which there is no library, as flags of a compiler, with words of the message
REFUSED = [("any", "-U__LP64__ -D__ILP32__", "64-bit machine"), ("any", "-U__x86_64__ -U__aarch64__", "64-bit machine"),
           ("any", "-U__BYTE_ORDER__ -D__BYTE_ORDER__=__ORDER_BIG_ENDIAN__", "little-endian machine"),
           ("any", "-U__ELF__ -U__linux__ -D_WIN32 -D_M_X64", "not for Windows or macOS"), ("gcc", "-m32", "64-bit machine"),
           ("gcc", "-mx32", "64-bit machine"), ("clang", "--target=x86_64-pc-windows-msvc", "not for Windows or macOS"),
           ("clang", "--target=x86_64-w64-mingw32", "not for Windows or macOS"),
           ("clang", "--target=arm64-apple-macos", "not for Windows or macOS"),
           ("clang", "--target=aarch64_be-linux-gnu", "little-endian machine"),
           ("aarch64-linux-gnu-gcc", "-mbig-endian", "little-endian machine"),
           ("aarch64-linux-gnu-gcc", "-mabi=ilp32", "64-bit machine")]
MISUSES = {"result": "wolfaren_find_payload(b, n, p, f);", "null": "if (wolfaren_find_payload(b, n, 0, f)) return;"}
LINKS = ["", "-no-pie", "-O2 -flto", "-O2 -ffunction-sections -fdata-sections -Wl,--gc-sections -Wl,--as-needed"]
# processors that the library supports, and models that lack an instruction
SUPPORTED = ["Nehalem", "max"]
LACKING = ["qemu64", "core2duo", "Conroe",
           *(f"Nehalem,-{it}" for it in ["pni", "ssse3", "sse4.1", "sse4.2", "popcnt", "cx16", "lahf-lm"])]


def test_undefined_symbols_are_those_that_the_header_names(library):
    lines = [line.split() for line in run("nm", "-g", library.archive).splitlines()]
    defined = {it[-1] for it in lines if len(it) == 3}
    assert {it[-1] for it in lines if it[:1] == ["U"]} - defined <= {"memcpy", "memmove", "memset"}


def test_versions_and_checksums_agree():
    """The versions of header, library, Makefile and packages agree, and so do the checksums of structs and calls."""
    run("scripts/abi", "--check")
    version = re.search(r"^VERSION = (\S+)$", read(f"{ROOT}/Makefile"), re.M)[1]
    assert ".".join(re.findall(r"^#define WOLFAREN_VERSION_(?:MAJOR|MINOR|PATCH) (\d+)$", read(HEADER), re.M)) == version
    assert re.search(r'^version = "(\S+)"$', read(f"{ROOT}/rust/Cargo.toml"), re.M)[1] == version


def test_layouts_are_those_of_the_compiler(library, compiler, tmp_path):
    """The sizes and offsets that scripts/abi computes are those of the compiler."""
    program, name = ['#include "wolfaren.h"'], ""
    for line in run("scripts/abi").splitlines():
        if found := re.match(r"struct (\w+): (\d+) bytes$", line):
            name = found[1]
            program.append(f'_Static_assert(sizeof(struct {name}) == {found[2]}, "{line}");')
        elif found := re.match(r"  (\d+): .*?(\w+)(?:\[\d+\])*$", line):
            program.append(f'_Static_assert(offsetof(struct {name}, {found[2]}) == {found[1]}, "{line}");')
        elif found := re.match(r"(WOLFAREN_\w+) = (\d+)$", line):
            program.append(f'_Static_assert({found[1]} == {found[2]}, "{line}");')
    assert len(program) > 50
    source = write(f"{tmp_path}/layouts.c", "\n".join(program) + "\n")
    run(compiler, "-std=c11", f"-I{ROOT}/include", "-fsyntax-only", source)


@pytest.mark.parametrize("header", [HEADER, f"{ROOT}/programs/ipcap/wolfaren-pcap.h"])
@pytest.mark.parametrize("language", STANDARDS)
def test_headers_compile_without_warnings(library, language, header):
    """By each standard from C99 and C++11 on, as they say."""
    compilers = library.compilers if language == "c" else library.cpp_compilers or pytest.skip("no C++ compiler for this library")
    for compiler, standard in itertools.product(compilers, STANDARDS[language]):
        run(compiler, f"-std={standard}", *WARNINGS, "-fsyntax-only", "-x", language, "-include", header, os.devnull)


@pytest.mark.parametrize("what", MISUSES)
def test_misuse_is_reported(compiler, what):
    """An ignored result and a null pointer are reported when a program is compiled."""
    arguments = "const uint8_t *b, size_t n, struct wolfaren_payload *p, struct wolfaren_fault *f"
    text = f'#include "wolfaren.h"\nvoid use({arguments}) {{ {MISUSES[what]} (void)p; }}\n'
    words = [compiler, "-std=c11", "-Wall", "-O2", f"-I{ROOT}/include", "-c", "-x", "c", "-", "-o", os.devnull]
    ran = subprocess.run(words, input=text, capture_output=True, text=True, check=True)
    assert what in ran.stderr


def test_machines_are_refused(library):
    """A machine, a system or a byte order without a library is refused by a sentence; those with one are not."""
    for compiler in {*library.compilers, *filter(shutil.which, ["aarch64-linux-gnu-gcc"])}:
        run(compiler, "-fsyntax-only", "-x", "c", "-include", HEADER, os.devnull)
        for flags, words in [(it, words) for only, it, words in REFUSED if only in ("any", compiler)]:
            ran = subprocess.run([compiler, *flags.split(), "-fsyntax-only", "-ffreestanding", "-Wundef", "-Werror", "-x", "c", HEADER],
                                 capture_output=True, text=True, check=False)
            assert ran.returncode and words in re.findall(r"error: .*", ran.stderr)[0], f"{compiler} {flags}: {ran.stderr}"


def make(library, *words):
    compiler = library.compilers[0]
    run("make", "-s", "-C", "programs", f"CC={compiler}", f"AR={compiler.replace('gcc', 'ar')}", *words)


def other_library(library, room):
    """Makes an archive, a header and a shared library with another checksum, and returns their folder."""
    write(f"{room}/other/wolfaren.h", re.sub(r"(ABI 0x|_abi_)[0-9a-f]{8}(?=u?$)", r"\g<1>00000001", read(HEADER), flags=re.M))
    where = [f"INCLUDE={room}/other", f"OUT={room}/other"]
    make(library, "archive", f"PROVED={library.archive}", *where)
    make(library, "shared", f"LIB={room}/other", *where)
    return f"{room}/other"


def own_library(library, room):
    """Makes the shared library, also under the name of another interface. Returns its folder and its name."""
    make(library, "shared", f"LIB={library.archive}", f"OUT={room}/own")
    (name,) = [it for it in os.listdir(f"{room}/own") if ".so." in it]
    shutil.copy(f"{room}/own/{name}", f"{room}/own/libwolfaren.so.0.00000001")
    return f"{room}/own", name


def start(library, program, folder):
    """Starts a program with the libraries of a folder. Returns its status and messages."""
    ran = subprocess.run([*library.runner, program], capture_output=True, text=True, env={**os.environ, "LD_LIBRARY_PATH": str(folder)}, check=False)
    return ran.returncode, ran.stderr


def test_interfaces_are_told_apart(library, tmp_path):
    """A program that includes the header, and makes no call, is linked and started with the library of its interface only."""
    other, (own, name) = other_library(library, tmp_path), own_library(library, tmp_path)
    source, program = write(f"{tmp_path}/includes.c", "#include <wolfaren.h>\nint main(void) { return 7; }\n"), f"{tmp_path}/includes"
    compilers = [*((it, "c") for it in library.compilers), *((it, "c++") for it in library.cpp_compilers)]
    for (compiler, language), form in itertools.product(compilers, LINKS):
        if "clang" in compiler and "-flto" in form:  # which needs a plugin of the linker
            continue
        words = [compiler, *form.split(), "-x", language, source, "-x", "none", "-o", program]
        mine, theirs = [*words, f"-I{ROOT}/include"], [*words, f"-I{other}"]
        for linked in (library.archive, f"{own}/{name}"):
            run(*mine, linked)
            assert start(library, program, own)[0] == 7, f"{mine} {linked}"
            refused(*theirs, linked, said="wolfaren_abi_00000001")
        refused(*mine, said="wolfaren_abi_")
        run(*mine, "-DWOLFAREN_UNLINKED")
        run(*theirs, f"{other}/libwolfaren.so.0.00000001")
        for folder, said in [(tmp_path, "libwolfaren.so.0.00000001"), (own, "wolfaren_abi_00000001")]:
            status, message = start(library, program, folder)
            assert status not in (0, 7) and said in message


def test_processors_are_told_apart(library, tmp_path):
    """The library supports this processor, x86-64-v2 and ARM64, but no processor that lacks one of the instructions."""
    source, program = f"{tmp_path}/processor.c", f"{tmp_path}/processor"
    write(source, "#include <wolfaren.h>\nint main(void) { return 7 + wolfaren_cpu_is_supported(); }\n")
    run(library.compilers[0], "-static", f"-I{ROOT}/include", source, library.archive, "-o", program)
    run(*library.runner, program, status=8)
    if not library.is_foreign and shutil.which("qemu-x86_64"):
        for models, status in [(SUPPORTED, 8), (LACKING, 7)]:
            for it in models:
                run("qemu-x86_64", "-cpu", it, program, status=status)


def build(library, compiler, name, room, *flags):
    """Builds a program of this folder, and returns its path."""
    run(compiler, "-std=c11", "-g", "-O1", *WARNINGS, *flags, *library.flags("Cflags"), f"{ROOT}/tests/c/{name}.c", *library.flags("Libs"),
        "-o", f"{room}/{name}")
    return f"{room}/{name}"


def build_checked(library, compiler, name, room):
    """Builds a program of this folder with sanitizers where they are."""
    return build(library, compiler, name, room, *([] if library.is_foreign else SANITIZERS))


@pytest.mark.parametrize("name", PROGRAMS)
def test_calls(library, compiler, name, tmp_path):
    """Tests what the lines don't cover."""
    run(*library.runner, build_checked(library, compiler, name, tmp_path))


def test_calls_answer_lines(library, compiler, tmp_path):
    """The lines of crates/ipexts/stdin that the library covers have the same answers through it as from the program."""
    asked = [(line.decode("latin-1"), answer) for line, answer in lines_and_answers()]
    rows = [(line.replace(form, other, 1), b"\n".join([*answer, b""])) for line, answer in asked if LINE.match(line) and answer != [b"bad line"]
            for form, others in FORMS.items() if line.startswith(form) for other in others]
    assert len(rows) >= 1000
    program = build_checked(library, compiler, "lines", tmp_path)
    wrote = run(*library.runner, program, text=False, input="".join(f"{line}\n" for line, _ in rows).encode())
    if wrote != b"".join(answer for _, answer in rows):
        for line, answer in rows:
            assert run(*library.runner, program, text=False, input=f"{line}\n".encode()) == answer, line
        pytest.fail("the answers differ, but only if all lines are given together")


def test_stacks_are_as_stated(library, compiler, tmp_path):
    """Each call uses less stack than the header says. Built without sanitizers, which use more."""
    program = build(library, compiler, "stacks", tmp_path, "-Wl,-z,now")
    used = dict(line.split() for line in run(*library.runner, program).splitlines())
    assert set(used) == set(re.findall(r" T (\w+)$", run("nm", "-g", library.archive), re.M))
    words = " ".join(read(HEADER).replace("\n *", " ").split())
    (sentence,) = re.findall(r"and less than \d+ KB of stack, except for [^.]*", words)
    larger = dict(re.findall(r"(\w+), which uses less than (\d+) KB", sentence))
    for name, most in used.items():
        assert int(most) < 1024 * int(larger.get(name) or re.search(r"\d+", sentence)[0]), name
