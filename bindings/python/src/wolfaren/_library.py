"""Loads the shared libraries. Their C headers, which `scripts/copy-python` puts beside this file, declare their calls."""

import functools
import importlib.resources
import os
import re
import threading
from typing import TYPE_CHECKING, Any

import cffi

# Any object with the buffer protocol, such as bytes, a mapped file or a numpy array.
if TYPE_CHECKING:
    from _typeshed import ReadableBuffer

    Buffer = ReadableBuffer
else:
    Buffer = "Buffer"

_FOLDER = importlib.resources.files(__package__)


def _text_of(header: str) -> str:
    return (_FOLDER / header).read_text(encoding="utf-8")


def _declarations(text: str) -> str:
    """Returns what cffi reads of a header: structs, codes, calls, and the constants among its macros."""
    text = re.sub(r"/\*.*?\*/", "", text, flags=re.S).replace("\\\n", " ")
    text = re.sub(r"^static inline [^\n]*\n\{.*?^\}$", "", text, flags=re.S | re.M)
    text = re.sub(r'^#(?!define \w+ \d\w*$).*$|^extern "C" \{$|^\}$', "", text, flags=re.M)
    text = re.sub(r"^(?:extern|static) const .*;$", "", text, flags=re.M)  # the symbol that only linked programs refer to
    return re.sub(r"WOLFAREN_(NONNULL\([^)]*\)|USE_RESULT|LAYOUT\([^)]*\);)", "", text)


def file_of(name: str, header: str) -> str:
    """Returns the file name of a library, which is its soname and ends in the checksum in its header."""
    found = re.search(r"^#define \w+_ABI 0x([0-9a-f]{8})u$", _text_of(header), re.M)
    assert found, f"{header} has no checksum"
    return f"{name}.so.0.{found[1]}"


def _open(ffi: cffi.FFI, name: str) -> Any:
    """Opens a library: in the directory WOLFAREN_LIB_DIR if that is set, otherwise in this package, if it was built
    with the libraries, otherwise where the system's loader finds it."""
    folder = os.environ.get("WOLFAREN_LIB_DIR")
    own = _FOLDER / name
    path = os.path.join(folder, name) if folder else str(own) if own.is_file() else name
    try:
        return ffi.dlopen(path)
    except OSError as error:
        raise ImportError(f"{error}: install {name}, or set WOLFAREN_LIB_DIR to its directory") from None


def _check(library: Any, name: str) -> None:
    """Refuses a processor without the library's instructions, and a library that was built with another header than this
    package."""
    if not hasattr(library, "wolfaren_cpu_is_supported"):
        raise ImportError(f"{name} is of an earlier version than the package")
    if not library.wolfaren_cpu_is_supported():
        raise ImportError(f"{name} can't run here: this processor lacks instructions of x86-64-v2, such as SSE4.2")
    wanted = (10000 * library.WOLFAREN_VERSION_MAJOR + 100 * library.WOLFAREN_VERSION_MINOR
              + library.WOLFAREN_VERSION_PATCH, library.WOLFAREN_ABI)
    stated = (library.wolfaren_version(), library.wolfaren_abi())
    if stated != wanted:
        raise ImportError("%s has version %d and checksum 0x%08x, but the package needs version %d and checksum 0x%08x"
                          % (name, *stated, *wanted))


def _load() -> tuple[cffi.FFI, Any]:
    ffi = cffi.FFI()
    ffi.cdef(_declarations(_text_of("wolfaren.h")))
    name = file_of("libwolfaren", "wolfaren.h")
    library = _open(ffi, name)
    _check(library, name)
    return ffi, library


ffi, lib = _load()


@functools.cache
def captures() -> tuple[cffi.FFI, Any]:
    """Returns the library that reads captures, which needs libpcap. It is loaded when it is first needed."""
    own = cffi.FFI()
    own.cdef(_declarations(_text_of("wolfaren-pcap.h")))
    name = file_of("libwolfaren-pcap", "wolfaren-pcap.h")
    library = _open(own, name)
    missing = [it for it in dir(library) if not hasattr(library, it)]
    if missing:
        raise ImportError(f"{name} is of another version than the package: it has no {', '.join(missing)}")
    library.wolfaren_pcap_stop_waiting_if(_is_stopped(own))
    return own, library


_of_thread = threading.local()


def _keep(kind: type[BaseException], error: BaseException, traceback: Any) -> bool:
    """Keeps what the handler of a signal has raised. Returns that the call which waits fails."""
    _of_thread.raised = error
    return True


@functools.cache
def _is_stopped(own: cffi.FFI) -> Any:
    """Returns what the library calls if a signal arrives while it waits for a file: Python runs the handlers of signals in
    it, as in any function, and unless one of them raises, the library waits on. Where the system forbids such functions,
    returns null."""
    try:
        return own.callback("bool(void)", lambda: False, onerror=_keep)
    except MemoryError:
        return own.NULL


def raise_kept() -> None:
    """Raises what the handler of a signal has raised in this thread's last call, if anything. Follows each call that reads
    a file."""
    raised = _of_thread.__dict__.pop("raised", None)
    if raised:
        raise raised


def path_for_c(path: str | os.PathLike[str]) -> bytes:
    """Returns a path as C takes it. Raises `ValueError` if it has a null byte, at which it would end in C."""
    if b"\0" in os.fsencode(path):  # which `abspath` of some versions of Python removes, with what follows it
        raise ValueError("embedded null byte")
    return os.fsencode(os.path.abspath(path))


def name_of(find: Any, code: int) -> str:
    """Returns the library's name of a code, by the call that finds it."""
    name = ffi.new("struct wolfaren_name *")
    find(code, name)
    return bytes(ffi.buffer(name.text, name.size - 1)).decode("ascii")


def text_of(call: Any, subject: Any) -> str:
    """Returns what a call of the library formats as text, such as a fault, or the code of a refusal."""
    text = ffi.new("char[]", lib.WOLFAREN_TEXT_ROOM)
    size = call(subject, text, lib.WOLFAREN_TEXT_ROOM)
    return bytes(ffi.buffer(text, size)).decode("ascii")
