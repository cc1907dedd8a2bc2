"""Tests of what the package is made of: the declared calls, the libraries that it refuses, and its wheel."""

import copy
import glob
import importlib.util
import inspect
import os
import pickle
import re
import shutil
import subprocess
import sys
import tempfile
import unittest
import zipfile

from support import BUILD, PACKETS, ROOT, capture, ethernet, write

import wolfaren
from wolfaren import Statistics
from wolfaren._library import ffi, file_of, lib
from wolfaren._statistics import _Field
from wolfaren.distributed import Counted

DISSECT = "import wolfaren; print(wolfaren.dissect(bytes.fromhex('%s')).payload_number)" % ("60" + "00" * 5 + "11" + "00" * 33)
LIBRARY, PCAP_LIBRARY = file_of("libwolfaren", "wolfaren.h"), file_of("libwolfaren-pcap", "wolfaren-pcap.h")
COUNT = "import wolfaren; wolfaren.statistics_of('/nonexistent')"


def run(words, **environment):
    """Runs a command and returns its status and all its output."""
    ran = subprocess.run(words, env={**os.environ, **environment}, stdout=subprocess.PIPE, stderr=subprocess.STDOUT,
                         text=True, check=False)
    return ran.returncode, ran.stdout


class Declarations(unittest.TestCase):
    def test_calls_and_structs(self):
        _, lines = run([f"{ROOT}/scripts/abi"])
        calls = [it.split("(")[0].split()[-1] for it in lines.splitlines() if "(" in it]
        self.assertGreater(len(calls), 20)
        for name in calls:
            getattr(lib, name)
        structs = [it.split() for it in lines.splitlines() if it.startswith("struct ")]
        self.assertGreater(len(structs), 9)
        for _, name, size, _ in structs:
            self.assertEqual(ffi.sizeof(f"struct {name.rstrip(':')}"), int(size), name)

    def test_writing_calls(self):
        """The C header names each call that writes statistics: each that takes them by a pointer not to `const`."""
        with open(f"{ROOT}/include/wolfaren.h", encoding="utf-8") as it:
            header = it.read()
        comment = re.search(r"These calls write statistics.*?\.", header, re.S)[0]
        calls = re.findall(r"^\w+ (wolfaren_\w+)\((.*?)\)", header, re.M | re.S)
        writing = {name for name, types in calls if re.search(r"(?<!const )struct wolfaren_statistics \*", types)}
        self.assertEqual({*re.findall(r"wolfaren_\w+", comment)}, writing)

    def test_named_counts(self):
        named = [name for name, it in vars(Statistics).items() if isinstance(it, _Field)]
        self.assertEqual(named, [name for name, _ in ffi.typeof("struct wolfaren_statistics").fields[2:]])


class Types(unittest.TestCase):
    def test_types(self):
        package = f"{ROOT}/bindings/python"
        with tempfile.TemporaryDirectory() as folder:
            said = run(["mypy", "--config-file", f"{package}/pyproject.toml", "--cache-dir", folder, f"{package}/src/wolfaren"])
        self.assertEqual(said[0], 0, said[1])

    def test_users_types(self):
        """A program that uses the package is checked: each count has its type, and there are no others."""
        wanted = {"counts.packets": "builtins.int", "counts.headers": "typing.Mapping[builtins.int, builtins.int]",
                  "counts.faults": "typing.Mapping[builtins.str, builtins.int]",
                  "sum([counts])": "Union[wolfaren._statistics.Statistics, Literal[0]]",
                  "parts.src": "Union[ipaddress.IPv4Address, ipaddress.IPv6Address, None]",
                  "parts.headers[0].more_fragments": "Union[builtins.bool, None]",
                  "packet.time_ns": "Union[builtins.int, None]", "packet.bytes": "builtins.bytes",
                  "packet.time": "Union[datetime.datetime, None]",
                  "wolfaren.Filter('fault').write('one', 'other').written": "builtins.int",
                  "wolfaren.remove_header(b'', index=0).packet": "builtins.bytes",
                  "wolfaren.dissect(mmap.mmap(-1, 9)).version": "builtins.int",
                  "wolfaren.Filter('fault').matches(array.array('B'))": "builtins.bool",
                  "wolfaren.Defragmenter().add(packet.bytes, packet.time_ns)": "Union[builtins.bytes, None]",
                  "error.statistics": "Union[wolfaren._statistics.Statistics, None]",
                  "error.written": "Union[Tuple[builtins.int, builtins.int, fallback=wolfaren._captures.Written], None]"}
        lines = ["import array, mmap", "import wolfaren", "error = wolfaren.CaptureError('', '')",
                 "counts, parts = wolfaren.Statistics(), wolfaren.dissect(b'')", "counts.packet",
                 "packet = next(wolfaren.packets(''))"]
        with tempfile.TemporaryDirectory() as folder:
            program = write(folder, "program.py", "\n".join(lines + [f"reveal_type({it})" for it in wanted]).encode())
            status, said = run(["mypy", "--strict", "--ignore-missing-imports", "--cache-dir", f"{folder}/cache", program],
                               MYPYPATH=f"{ROOT}/bindings/python/src")
        self.assertEqual(status, 1)
        self.assertEqual(re.findall(r'Revealed type is "(.*)"', said), [*wanted.values()], said)
        self.assertEqual(re.findall(r"error: (.*?);", said), ['"Statistics" has no attribute "packet"'], said)


class Documentation(unittest.TestCase):
    def test_sharing(self):
        """The documentation of each class says what threads, a fork and pickling do to its objects, and the README says so too."""
        named = {it: getattr(wolfaren, it) for it in wolfaren.__all__} | {"distributed.Counted": Counted}
        classes = {name: it for name, it in named.items() if inspect.isclass(it)}
        self.assertGreater(len(classes), 23)
        with open(f"{ROOT}/bindings/python/README.md", encoding="utf-8") as it:
            (table,) = re.findall(r"^\| Objects \| Shared by threads \| After a fork \| Pickled, copied \|\n((?:\|.*\n)+)", it.read(), re.M)
        self.assertEqual(sorted(re.findall(r"`(\w*\.?[A-Z]\w*)`", table)), sorted(classes))
        for name, it in classes.items():
            self.assertRegex(it.__doc__, r"(?s)\b[Tt]hreads\b.*\bfork\b.*\bpickled\b.*\bcopied\b", name)

    def test_no_length(self):
        """The documentation of each call that dissects names the field that says whether the packet states its length."""
        with open(f"{ROOT}/include/wolfaren.h", encoding="utf-8") as it:
            comments = re.findall(r"/\*\n((?: \*.*\n)+?) \*/\n(?:WOLFAREN_USE_RESULT\n)?\w+ (\w+)\(", it.read())
        with open(f"{ROOT}/rust/src/lib.rs", encoding="utf-8") as it:
            rust = re.search(r"((?:^///.*\n)+)^pub mod dissect\b", it.read(), re.M)[1]
        said = {name: comment for comment, name in comments}
        fields = [(said["wolfaren_dissect"], "`stated_len`"), (said["wolfaren_parse_packet"], "`packet->len_source`"),
                  (said["wolfaren_find_payload"], "`payload->len_source`"), (rust, "`stated_len`")]
        fields += [(inspect.getdoc(it), "`stated_len`") for it in [wolfaren.dissect, wolfaren.dissect_many, wolfaren.table]]
        for text, field in fields:
            text = re.sub(r"\s+(?:\*|///)?\s*", " ", text)
            self.assertRegex(text, "states? no length|no length is stated")
            self.assertRegex(text, r"\btests? (?:its )?" + re.escape(field))


class Errors(unittest.TestCase):
    def test_errors(self):
        """`repr` of an error shows what it was made of, and so does that of a copy."""
        errors = [(wolfaren.FilterError("headers", 7, "a number"), "FilterError('headers', 7, 'a number')"),
                  (wolfaren.RewriteError(wolfaren.Refusal.MISSING), "RewriteError(<Refusal.MISSING: 2>)"),
                  (wolfaren.SpanError(3, 40, 8, 44), "SpanError(3, 40, 8, 44)"),
                  (wolfaren.CaptureError("one.pcap", "cut"), "CaptureError('one.pcap', 'cut')"),
                  (wolfaren.CaptureWarning("cut"), "CaptureWarning('cut')")]
        for error, shown in errors:
            for it in [error, copy.copy(error), copy.deepcopy(error), pickle.loads(pickle.dumps(error))]:
                self.assertEqual((repr(it), str(it), vars(it)), (shown, str(error), vars(error)))


class Libraries(unittest.TestCase):
    def test_missing(self):
        self.assertRegex(LIBRARY, r"^libwolfaren\.so\.0\.[0-9a-f]{8}$")
        status, said = run([sys.executable, "-c", DISSECT], WOLFAREN_LIB_DIR="/nonexistent")
        self.assertEqual(status, 1)
        self.assertIn(f"install {LIBRARY}, or set WOLFAREN_LIB_DIR", said)

    def test_optional_packages(self):
        """The import needs none of the packages that only some calls need."""
        names = ["numpy", "pandas", "dask", "distributed", "matplotlib"]
        blocked = f"import sys; sys.modules.update(dict.fromkeys({names})); import wolfaren.distributed; "
        self.assertEqual(run([sys.executable, "-c", blocked + DISSECT]), (0, "17\n"))
        for call, needs in [("wolfaren.dissect_many(b'', [], [])", "wolfaren.dissect_many needs numpy (Debian: python3-numpy)"),
                            ("wolfaren.table('')", "wolfaren.table needs pandas (Debian: python3-pandas)"),
                            ("wolfaren.distributed.table([])", "wolfaren.distributed.table needs pandas (Debian: python3-pandas)")]:
            status, said = run([sys.executable, "-c", blocked + call])
            self.assertEqual((status, said.splitlines()[-1]), (1, f"ImportError: {needs}"))
        blocked = blocked.replace("'numpy', 'pandas', ", "")
        if importlib.util.find_spec("pandas"):
            said = run([sys.executable, "-c", blocked + "wolfaren.distributed.table([])"])[1]
            self.assertIn("ImportError: wolfaren.distributed.table needs dask (Debian: python3-dask)", said)

    def refusal_of(self, source):
        """Returns the last line of the message with which a library made of this source is refused."""
        with tempfile.TemporaryDirectory() as folder:
            subprocess.run(["cc", "-shared", "-fPIC", "-x", "c", "-", "-o", f"{folder}/{LIBRARY}"], input=source, text=True,
                           check=True)
            status, said = run([sys.executable, "-c", DISSECT], WOLFAREN_LIB_DIR=folder)
        self.assertEqual(status, 1)
        return said.splitlines()[-1]

    def test_other_version(self):
        numbers = "unsigned wolfaren_version(void) { return 100; } unsigned wolfaren_abi(void) { return 1; }"
        said = self.refusal_of(numbers + " _Bool wolfaren_cpu_is_supported(void) { return 1; }")
        self.assertRegex(said, rf"^ImportError: {LIBRARY} has version 100 and checksum 0x00000001, but the package needs version "
                               r"\d+ and checksum 0x[0-9a-f]{8}$")
        self.assertEqual(self.refusal_of(numbers), f"ImportError: {LIBRARY} is of an earlier version than the package")

    def test_unsupported_processor(self):
        """No call but the one about the processor is made: the others would end the interpreter."""
        numbers = "unsigned wolfaren_version(void) { __builtin_trap(); } unsigned wolfaren_abi(void) { __builtin_trap(); }"
        said = self.refusal_of(numbers + " _Bool wolfaren_cpu_is_supported(void) { return 0; }")
        self.assertEqual(said, f"ImportError: {LIBRARY} can't run here: this processor lacks instructions of x86-64-v2, such as "
                               "SSE4.2")

    def test_without_capture_library(self):
        with tempfile.TemporaryDirectory() as folder:
            shutil.copy(f"{BUILD}/{LIBRARY}", folder)
            self.assertEqual(run([sys.executable, "-c", DISSECT], WOLFAREN_LIB_DIR=folder), (0, "17\n"))
            status, said = run([sys.executable, "-c", COUNT], WOLFAREN_LIB_DIR=folder)
        self.assertEqual(status, 1)
        self.assertIn(f"install {PCAP_LIBRARY}, or set WOLFAREN_LIB_DIR", said)

    def test_other_capture_library(self):
        """A library that has only some of the calls is refused, with the names of the others."""
        with tempfile.TemporaryDirectory() as folder:
            shutil.copy(f"{BUILD}/{LIBRARY}", folder)
            source = "void wolfaren_pcap_count(void) {} void wolfaren_pcap_free(void) {} void wolfaren_pcap_open(void) {}"
            subprocess.run(["cc", "-shared", "-fPIC", "-x", "c", "-", "-o", f"{folder}/{PCAP_LIBRARY}"], input=source,
                           text=True, check=True)
            status, said = run([sys.executable, "-c", COUNT], WOLFAREN_LIB_DIR=folder)
        self.assertEqual(status, 1)
        self.assertIn(f"ImportError: {PCAP_LIBRARY} is of another version than the package: it has no "
                      "wolfaren_pcap_close, wolfaren_pcap_filter, wolfaren_pcap_link_layer_name, wolfaren_pcap_read", said)


class ReadMe(unittest.TestCase):
    def test_example(self):
        with open(f"{ROOT}/bindings/python/README.md", encoding="utf-8") as it:
            (code,) = re.findall(r"^```python\n(.*?)^```$", it.read(), re.M | re.S)
        with tempfile.TemporaryDirectory() as folder:
            for name in ["one.pcap", "other.pcap"]:
                write(folder, name, capture([ethernet(it) for it in PACKETS[:4]]))
            code = f"packet = {PACKETS[0]!r}\n{code}print(statistics.packets)"
            ran = subprocess.run([sys.executable, "-c", code], cwd=folder, capture_output=True, text=True, check=False)
            self.assertEqual((ran.returncode, ran.stdout), (0, "9\n"), ran.stderr)
            self.assertTrue(os.path.getsize(f"{folder}/packets.png"))


class Wheel(unittest.TestCase):
    def test_no_headers(self):
        with tempfile.TemporaryDirectory() as folder:
            shutil.copytree(f"{ROOT}/bindings/python", f"{folder}/source")
            status, said = run([sys.executable, "-m", "pip", "wheel", "--no-build-isolation", "--no-deps", "--no-index", "-w",
                                folder, f"{folder}/source"])
        self.assertEqual(status, 1, said)
        self.assertIn("wolfaren.h, wolfaren-pcap.h missing: run `make wheel`", said)

    def test_wheel(self):
        """A wheel with the libraries is packed, its path is printed, and it is used where nothing else is found."""
        with tempfile.TemporaryDirectory() as folder:
            pip = [sys.executable, "-m", "pip", "--disable-pip-version-check"]
            write(folder, f"wolfaren-{wolfaren.__version__}-py3-none-manylinux_2_1_x86_64.whl", b"of another build")
            status, said = run([f"{ROOT}/scripts/wheel", folder, BUILD])
            wheel = said.splitlines()[0]
            self.assertEqual((status, os.listdir(folder)), (0, [os.path.basename(wheel)]), said)
            self.assertRegex(wheel, rf"^{folder}/wolfaren-{wolfaren.__version__}-py3-none-(many)?linux_[0-9_]*x86_64\.whl$")
            self.assertIn("PEP 668", said)
            self.assertIn(f"python3 -m venv wolfaren-python && wolfaren-python/bin/pip install {wheel}\n", said)
            status, said = run([*pip, "install", "--no-deps", "--no-index", "--target", f"{folder}/target", wheel])
            self.assertEqual(status, 0, said)
            with open(glob.glob(f"{folder}/target/wolfaren-*.dist-info/METADATA")[0], encoding="utf-8") as it:
                self.assertNotIn("](..", it.read())
            for name in ["py.typed", "wolfaren.h", LIBRARY, PCAP_LIBRARY]:
                self.assertTrue(os.path.isfile(f"{folder}/target/wolfaren/{name}"), name)
            used = ["env", "-u", "WOLFAREN_LIB_DIR", f"PYTHONPATH={folder}/target", sys.executable, "-c"]
            self.assertEqual(run([*used, DISSECT]), (0, "17\n"))
            self.assertIn("CaptureOSError: /nonexistent: No such file", run([*used, COUNT])[1])

    def test_tags(self):
        """The tag names the glibc that the libraries need, unless they need another library, or a version without a number."""
        calls = "int pthread_create(void); int other(void); int f(void) { return %s; }"
        for call, tag in [("0", "manylinux_2_17"), ("pthread_create()", "manylinux_2_34"), ("other()", "linux")]:
            with tempfile.TemporaryDirectory() as folder:
                build = ["cc", "-shared", "-nostartfiles", "-x", "c", "-", "-o"]
                subprocess.run([*build, f"{folder}/libother.so", "-Wl,-soname,libother.so.1"], input="int other(void) { return 1; }",
                               text=True, check=True)
                needs = [f"-L{folder}", "-Wl,--as-needed", "-lother"]
                for name, content in [(LIBRARY, calls % "0"), (PCAP_LIBRARY, calls % call)]:
                    subprocess.run([*build, f"{folder}/{name}", *needs], input=content, text=True, check=True)
                _, said = run([f"{ROOT}/scripts/wheel", f"{folder}/wheels", folder])
                self.assertRegex(said, rf"^{folder}/wheels/wolfaren-[\d.]*-py3-none-{tag}_x86_64\.whl\n")

    def test_plain_wheel(self):
        """A wheel without the libraries is for any machine."""
        with tempfile.TemporaryDirectory() as folder:
            wheel = f"{folder}/wolfaren-{wolfaren.__version__}-py3-none-any.whl"
            self.assertEqual(run([f"{ROOT}/scripts/wheel", folder]), (0, f"{wheel}\n"))
            self.assertNotIn(".so", "".join(zipfile.ZipFile(wheel).namelist()))
            self.assertEqual(run([f"{ROOT}/scripts/wheel", folder, folder])[0], 1)


if __name__ == "__main__":
    unittest.main()
