"""Locks of objects that threads share. A process is forked while no other thread holds one, so that its child finds each of
them free, and what it protects as a whole call has left it."""

import os
import threading
import weakref
from typing import Any

_locks: weakref.WeakSet[Any] = weakref.WeakSet()
_guard = threading.RLock()  # of that set

_forking = threading.RLock()
_held: list[Any] = []


def new_lock() -> Any:
    """Returns a lock. The thread that holds it may take it again, as a signal's handler does."""
    lock = threading.RLock()
    with _guard:
        _locks.add(lock)
    return lock


def _begin_fork() -> None:
    """Takes all locks. Meanwhile, their holders may make further locks."""
    _forking.acquire()
    while True:
        _guard.acquire()
        held = {id(it) for it in _held}
        missing = [it for it in _locks if id(it) not in held]
        if not missing:
            break
        _guard.release()
        for lock in missing:
            lock.acquire()
            _held.append(lock)


def _end_fork() -> None:
    """Releases all locks, in the parent and in the child."""
    while _held:
        _held.pop().release()
    _guard.release()
    _forking.release()


os.register_at_fork(before=_begin_fork, after_in_parent=_end_fork, after_in_child=_end_fork)
