"""Programs of classic BPF, which Linux runs on packets."""

from __future__ import annotations

import socket
import struct
from collections.abc import Iterator
from typing import Any, Literal

from ._library import ffi, lib

_SO_ATTACH_FILTER = 26  # Linux, include/uapi/asm-generic/socket.h


class BpfProgram:
    """A program of classic BPF for packets that begin with an IP header, made by `Filter.to_bpf`.

    Its text is what `tcpdump -ddd` prints: the number of instructions, and a line for each with code, jt, jf and k. No call
    changes a program: threads may share it, it is the same after a fork, and it can be pickled and copied.
    """

    __slots__ = ("_instructions",)

    def __init__(self, instructions: Any) -> None:
        self._instructions = tuple(tuple(map(int, it)) for it in instructions)

    @property
    def instructions(self) -> tuple[tuple[int, ...], ...]:
        """The instructions, each of which is code, jt, jf and k, as in Linux's `struct sock_filter`."""
        return self._instructions

    def attach(self, sock: socket.socket) -> None:
        """Makes the program the filter of a socket, on Linux: the socket receives only the packets that it accepts.

        The packets of the socket have to begin with an IP header, as those of a raw IPv4 socket do, and those of a packet socket
        of type `SOCK_DGRAM`. Raises `OSError` if Linux refuses it, as for lack of memory.
        """
        code = ffi.new("uint8_t[]", b"".join(struct.pack("=HBBI", *it) for it in self._instructions))
        program = struct.pack("@HP", len(self._instructions), int(ffi.cast("uintptr_t", code)))
        sock.setsockopt(socket.SOL_SOCKET, _SO_ATTACH_FILTER, program)

    def __iter__(self) -> Iterator[tuple[int, ...]]:
        return iter(self._instructions)

    def __len__(self) -> int:
        return len(self._instructions)

    def __eq__(self, other: object) -> bool:
        if not isinstance(other, BpfProgram):
            return NotImplemented
        return self._instructions == other._instructions

    def __hash__(self) -> int:
        return hash(self._instructions)

    def __str__(self) -> str:
        lines = [str(len(self)), *(" ".join(map(str, it)) for it in self)]
        return "\n".join(lines)

    def __repr__(self) -> str:
        return f"BpfProgram({self._instructions!r})"

    def __reduce__(self) -> tuple[Any, tuple[Any]]:
        return BpfProgram, (self._instructions,)


def _compiled(filter_made: Any, keeps_undecided: bool) -> BpfProgram:
    count = ffi.new("size_t *")
    room = lib.WOLFAREN_BPF_INSTRUCTIONS
    instructions = ffi.new("struct wolfaren_bpf_instruction[]", room)
    if not lib.wolfaren_compile_filter(filter_made, keeps_undecided, instructions, room, count):
        raise ValueError(f"the program has {count[0]} instructions, and Linux accepts {room}")
    return BpfProgram((it.code, it.jt, it.jf, it.k) for it in instructions[0:count[0]])


def compile_filter(filter_made: Any, undecided: Literal["keep", "drop"] | None) -> BpfProgram:
    """Compiles a filter of the library, as `Filter.to_bpf` does."""
    if undecided not in ("keep", "drop", None):
        raise ValueError(f"undecided is 'keep', 'drop' or None, not {undecided!r}")
    program = _compiled(filter_made, undecided != "drop")
    if undecided is None and program != _compiled(filter_made, False):
        raise ValueError("the program can't decide each packet: undecided='keep' accepts the others, undecided='drop' refuses them")
    return program
