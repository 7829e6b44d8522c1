"""Calls need up to 204 KiB of stack, which not every thread has: what one has left, and a thread with more."""
from __future__ import annotations

import _thread
import contextlib
import ctypes
import errno
import os
import platform
import sys
import threading
from typing import Any, Callable, Dict, Iterator, List, Optional, Tuple

# What is there for the frames between the one that asks and the call, and for a guard that is counted in.
_MARGIN = 16 << 10
# What a thread of our own has beside what its call needs: Python runs on it first.
_BESIDE = 256 << 10
# Where getcontext writes the stack pointer, in words of 8 bytes (ucontext_t of the C library).
_POINTER_AT = {"x86_64": 20, "aarch64": 54}
# More words than a ucontext_t has, and than a pthread_attr_t.
_CONTEXT, _ATTRIBUTES = 1024, 32

# These run with the interpreter locked, since they return at once.
_quick = ctypes.PyDLL(None)
_words = ctypes.POINTER(ctypes.c_uint64)


def _declared(library: ctypes.CDLL, name: str, *arguments: Any, result: Any = ctypes.c_int) -> Any:
    """A function of the C library, if it has that."""
    function = getattr(library, name, None)
    if function is not None:
        function.argtypes, function.restype = list(arguments), result
    return function


_place_of = _declared(_quick, "pthread_getattr_np", ctypes.c_ulong, _words)
_stack_of = _declared(_quick, "pthread_attr_getstack", _words, _words, ctypes.POINTER(ctypes.c_size_t))
_guard_of = _declared(_quick, "pthread_attr_getguardsize", _words, ctypes.POINTER(ctypes.c_size_t))
_destroy = _declared(_quick, "pthread_attr_destroy", _words)
_init = _declared(_quick, "pthread_attr_init", _words)
_size_of = _declared(_quick, "pthread_attr_getstacksize", _words, ctypes.POINTER(ctypes.c_size_t))
_context_of = _declared(_quick, "getcontext", _words)
_self = _declared(_quick, "pthread_self", result=ctypes.c_ulong)

_POINTER = _POINTER_AT.get(platform.machine(), 0)
_known = _POINTER > 0 and None not in (_place_of, _stack_of, _guard_of, _destroy, _context_of, _self)


class _Own(threading.local):
    """Of a thread: from where to where its stack goes, and room for a context."""

    def __init__(self) -> None:
        self.place, self.room = _place(), (ctypes.c_uint64 * _CONTEXT)()


def _place() -> Tuple[int, int]:
    """From where to where this thread's stack goes; nowhere where that can't be known."""
    attributes, low = (ctypes.c_uint64 * _ATTRIBUTES)(), (ctypes.c_uint64 * 1)()
    size, guard = ctypes.c_size_t(), ctypes.c_size_t()
    if not _known or _place_of(_self(), attributes):
        return 0, 0
    failed = _stack_of(attributes, low, ctypes.byref(size)) or _guard_of(attributes, ctypes.byref(guard))
    _destroy(attributes)
    return (0, 0) if failed else (low[0] + guard.value, low[0] + size.value)


def _default() -> int:
    """The stack of a thread for which no size was asked; 0 where that can't be known."""
    attributes, size = (ctypes.c_uint64 * _ATTRIBUTES)(), ctypes.c_size_t()
    if None in (_init, _size_of, _destroy) or _init(attributes):
        return 0
    failed = _size_of(attributes, ctypes.byref(size))
    _destroy(attributes)
    return 0 if failed else size.value


_own, _DEFAULT = _Own(), _default()


def left() -> int:
    """How many bytes of stack a call of this thread may use; 0 where that can't be known, as over musl."""
    if not _known:
        return 0
    low, high = _own.place
    if _context_of(_own.room):
        return 0
    pointer: int = _own.room[_POINTER]
    return max(pointer - low - _MARGIN, 0) if low < pointer <= high else 0


class _Job:
    """A call that another thread makes. That thread then releases the lock `ended`."""

    __slots__ = ("function", "words", "ended", "is_done", "answer", "error")

    def __init__(self, function: Callable[..., Any], words: List[Any]) -> None:
        self.function, self.words = function, words
        self.ended, self.is_done = _thread.allocate_lock(), False
        self.answer: Any = None
        self.error: Optional[BaseException] = None
        self.ended.acquire()

    def run(self) -> None:
        """Makes the call. The waiting thread raises its error."""
        try:
            self.answer = self.function(*self.words)
        except BaseException as error:
            self.error = error
        self.is_done = True
        self.ended.release()


class _Waiting(threading.local):
    """The jobs that a thread waits for: more than one if a signal handler signs meanwhile."""

    def __init__(self) -> None:
        self.jobs: List[_Job] = []


_waiting = _Waiting()
# Python has one stack size for all new threads. It is changed only under this lock, and a fork waits for the lock, so
# that no child gets the changed size. It is an RLock, because a signal handler may sign or fork in between.
_sizing = threading.RLock()


def _forked() -> None:
    """Wakes the only thread of a child if a signal handler forked while it waited: the other threads are gone, so it
    begins its jobs again."""
    for job in _waiting.jobs:
        if job.ended.locked():
            job.ended.release()
    _sizing.release()


os.register_at_fork(before=_sizing.acquire, after_in_parent=_sizing.release, after_in_child=_forked)


@contextlib.contextmanager
def _stacks_of(size: int) -> Iterator[None]:
    """Lets new threads have at least this much stack, and then puts the program's own size back."""
    # Only a call that sets the size returns it. This one sets the larger, so that no other thread gets too little.
    before = threading.stack_size(max(size, _DEFAULT))
    meanwhile = size if (before or _DEFAULT) < size else before
    threading.stack_size(meanwhile)
    try:
        yield
    finally:
        after = threading.stack_size(before)
        if after != meanwhile:  # Another thread has set it.
            threading.stack_size(after)


# Once its first thread has ended, Python 3.12 itself starts no thread, although others may go on. Its C API still does.
_foreign: Dict[int, _Job] = {}
_ROUTINE = ctypes.CFUNCTYPE(None, ctypes.c_void_p)
_routine = _ROUTINE(lambda number: _foreign.pop(number).run())
_begin_foreign = _declared(ctypes.pythonapi, "PyThread_start_new_thread", _ROUTINE, ctypes.c_void_p,
                           result=ctypes.c_ulong)
_NONE = ctypes.c_ulong(-1).value


def _begin_thread(job: _Job) -> None:
    """Starts a thread for a job. RuntimeError if that fails."""
    try:
        _thread.start_new_thread(job.run, ())
    except RuntimeError:
        if sys.version_info[:2] != (3, 12):
            raise
        _foreign[id(job)] = job
        if _begin_foreign(_routine, id(job)) == _NONE:
            del _foreign[id(job)]
            raise


def _start(job: _Job, size: int) -> None:
    """Starts a thread for a job, with at least this much stack. OSError if that fails."""
    try:
        if sys.is_finalizing():
            raise RuntimeError("a new thread would not run while Python ends")
        with _sizing, _stacks_of(size):
            _begin_thread(job)
    except (RuntimeError, ValueError) as error:
        raise OSError(errno.EAGAIN, f"too little stack, and no thread with {size} bytes could be started") from error


def on_own_thread(needed: int, function: Callable[..., Any], words: List[Any]) -> Any:
    """The result of a function, which runs on a thread of its own with this much stack and enough for Python.

    Python has to start this thread. A thread of another library that calls into Python can crash while Python ends.
    """
    job = _Job(function, words)
    _waiting.jobs.append(job)
    try:
        while not job.is_done:
            _start(job, needed + _BESIDE)
            job.ended.acquire()
    finally:
        _waiting.jobs.remove(job)
    if job.error is not None:
        raise job.error
    return job.answer
