"""What lists of whole numbers have in common, and sets of them, by the library librhset, which is proved.

    >>> import rhset
    >>> rhset.intersect([4, 9, 16, 25, 36, 1], [2, 4, 8, 16, 32])
    [4, 16]

`./install --prefix DIR --library` makes the library, and puts it into DIR/lib and this file into DIR/share/rhset/python. It is looked
for in the folder that the variable RHSET_LIBRARY names, beside this file or in DIR/lib, and where the system looks for libraries.

`Set` is a set of such numbers, with all that a set of Python can; its snapshot can be kept in a file, which `rhset check` reads:

    >>> squares = rhset.Set(number * number for number in range(4))
    >>> 9 in squares, len(squares), list(squares)
    (True, 4, [0, 1, 4, 9])
    >>> rhset.Set.from_snapshot(squares.snapshot()) == squares
    True

Each of the other calls takes two lists of numbers from 0 to MAX_KEY, in any order, with repeats, and gives the rising numbers that come of
them, each once. An array.array of type 'Q', and an array of numpy of type uint64 that lies in one piece, are read where they
stand; anything else is copied. The answer is of the first list's kind: an array for an array, else a list.

ValueError says which number of which list is none; MemoryError comes where memory was refused. While a call works, other
threads of Python go on: none of them may change the lists.
"""
import array
import collections.abc
import ctypes
import operator
import os
import threading

MAX_KEY = 4611686018427387902
_DONE, _BAD_KEY, _NO_ROOM, _NO_MEMORY, _FULL = range(5)

# What restoring a snapshot answers, beside _DONE and _NO_MEMORY.
_NO_SNAPSHOT = {
    5: "not a snapshot",
    6: "snapshot ends early",
    7: "bits out of range",
    8: "seal does not match",
    9: "cells are not a layout",
    10: "snapshot goes on after its seal",
}


class _Detail(ctypes.Structure):
    _fields_ = [("list", ctypes.c_uint64), ("number", ctypes.c_uint64)]


def _library():
    beside = os.path.dirname(os.path.abspath(__file__))
    folders = [os.environ.get("RHSET_LIBRARY"), beside]
    # where `install` puts this file
    if beside.endswith("/share/rhset/python"):
        folders.append(beside.removesuffix("share/rhset/python") + "lib")
    for folder in folders:
        if folder and os.path.exists(f"{folder}/librhset.so"):
            return ctypes.CDLL(f"{folder}/librhset.so")
    return ctypes.CDLL("librhset.so")


def _call(name):
    call = getattr(_LIBRARY, name)
    list_of_numbers = [ctypes.c_void_p, ctypes.c_size_t]
    call.argtypes = 3 * list_of_numbers + [ctypes.POINTER(_Detail)]
    call.restype = ctypes.c_uint32
    return call


_LIBRARY = _library()


def _is_numpy(numbers):
    return type(numbers).__module__ == "numpy" and hasattr(numbers, "dtype")


def _copied(numbers, which):
    copy = array.array("Q")
    for place, number in enumerate(numbers):
        try:
            copy.append(number)
        except (OverflowError, TypeError) as why:
            raise ValueError(f"number {place} of list {which}: {number!r} is no number from 0 to {MAX_KEY}") from why
    return copy


def _placed(numbers, which):
    """Something that keeps the numbers where they are, their address, and how many they are."""
    if _is_numpy(numbers) and numbers.dtype == "uint64" and numbers.ndim == 1 and numbers.flags.c_contiguous:
        return numbers, numbers.ctypes.data, len(numbers)
    if not (isinstance(numbers, array.array) and numbers.typecode == "Q"):
        numbers = _copied(numbers, which)
    return numbers, *numbers.buffer_info()


# The address of no number: not null, and aligned.
_NOWHERE = ctypes.addressof(_NOTHING := ctypes.c_uint64())


def _combined(call, first, second, most):
    kept_first, first_at, firsts = _placed(first, 0)
    kept_second, second_at, seconds = _placed(second, 1)
    into = array.array("Q", bytes(8 * most(firsts, seconds)))
    into_at, room = into.buffer_info()
    detail = _Detail()
    status = call(first_at if firsts else _NOWHERE, firsts, second_at if seconds else _NOWHERE, seconds, into_at if room else _NOWHERE, room, detail)
    if status == _BAD_KEY:
        number = (kept_first, kept_second)[detail.list][detail.number]
        raise ValueError(f"number {detail.number} of list {detail.list}: {number} is no number from 0 to {MAX_KEY}")
    if status == _NO_MEMORY:
        raise MemoryError
    assert status == _DONE, status
    del into[detail.number:]
    return _of_kind(first, into)


def _of_kind(numbers, came):
    """What came, as an array where the numbers are one."""
    if _is_numpy(numbers):
        import numpy

        return numpy.frombuffer(came, dtype="uint64") if came else numpy.empty(0, dtype="uint64")
    return came if isinstance(numbers, array.array) else came.tolist()


_WITHIN = _LIBRARY.rhset_within
_WITHIN.argtypes = [ctypes.c_void_p, ctypes.c_size_t, ctypes.c_uint64, ctypes.c_uint64, ctypes.c_void_p, ctypes.c_size_t, ctypes.POINTER(_Detail)]
_WITHIN.restype = ctypes.c_uint32
_INTERSECT, _UNION, _SUBTRACT, _XOR = map(_call, ("rhset_intersect", "rhset_union", "rhset_subtract", "rhset_xor"))


def within(numbers, least, past):
    """The numbers of a list that are `least` or more and less than `past`, in its order, with repeats.

    So threads can share the work on two lists: what the parts of both in ranges that follow one another come to, one behind the
    other, is what the lists come to.
    """
    kept, at, many = _placed(numbers, 0)
    into = array.array("Q", bytes(8 * many))
    detail = _Detail()
    address = into.buffer_info()[0] if many else _NOWHERE
    status = _WITHIN(at if many else _NOWHERE, many, least, past, address, many, detail)
    assert status == _DONE, status
    del into[detail.number:]
    return _of_kind(numbers, into)


def version():
    """The version of the library, as in 0.1.0."""
    number = _LIBRARY.rhset_version()
    return f"{number // 10000}.{number // 100 % 100}.{number % 100}"


def intersect(first, second):
    """The numbers that stand in both lists."""
    return _combined(_INTERSECT, first, second, min)


def union(first, second):
    """The numbers that stand in one list or in both."""
    return _combined(_UNION, first, second, int.__add__)


def subtract(first, second):
    """The numbers that stand in the first list alone."""
    return _combined(_SUBTRACT, first, second, lambda firsts, seconds: firsts)


def xor(first, second):
    """The numbers that stand in one of the lists alone."""
    return _combined(_XOR, first, second, int.__add__)


class _Held(ctypes.Structure):
    _fields_ = [("held", ctypes.c_void_p)]


def _set_call(name, answer, *rest):
    call = getattr(_LIBRARY, "rhset_set_" + name)
    call.argtypes = [ctypes.POINTER(_Held), *rest]
    call.restype = answer
    return call


_INSERT = _set_call("insert", ctypes.c_uint32, ctypes.c_uint64, ctypes.POINTER(_Detail))
_REMOVE = _set_call("remove", ctypes.c_bool, ctypes.c_uint64)
_CONTAINS = _set_call("contains", ctypes.c_bool, ctypes.c_uint64)
_LENGTH = _set_call("length", ctypes.c_size_t)
_LIST = _set_call("list", ctypes.c_uint32, ctypes.c_void_p, ctypes.c_size_t, ctypes.POINTER(_Detail))
_SNAPSHOT = _set_call("snapshot", ctypes.c_uint32, ctypes.c_void_p, ctypes.c_size_t, ctypes.POINTER(_Detail))
_RESTORE = _set_call("restore", ctypes.c_uint32, ctypes.c_char_p, ctypes.c_size_t)
_FREE = _set_call("free", None)


def _key(number):
    """The number, if it is one from 0 to MAX_KEY, and else None."""
    try:
        number = operator.index(number)
    except TypeError:
        return None
    return number if 0 <= number <= MAX_KEY else None


class Set(collections.abc.MutableSet):
    """A set of numbers from 0 to MAX_KEY, in one table of the library, which is freed with it.

    ValueError comes where such a number is wanted and another thing is given, OverflowError where a number is added to a set of
    196,608 or more, and MemoryError where memory was refused; the set is as it was then. Threads may share a set: one call at a
    time has it. To go over a set goes over the numbers that it has at the beginning, in rising order.
    """

    __slots__ = ("_held", "_lock")

    def __init__(self, numbers=()):
        self._held = _Held()
        self._lock = threading.RLock()
        for number in numbers:
            self.add(number)

    @classmethod
    def from_snapshot(cls, snapshot):
        """The set of a snapshot; ValueError tells the first fault in its bytes."""
        snapshot, made = bytes(snapshot), cls()
        status = _RESTORE(made._held, snapshot, len(snapshot))
        if status in _NO_SNAPSHOT:
            raise ValueError(_NO_SNAPSHOT[status])
        _test(status)
        return made

    def snapshot(self):
        """The bytes of a snapshot, sealed by their SHA-256."""
        room = 0
        while True:
            into = ctypes.create_string_buffer(room) if room else ctypes.c_uint8()
            detail = _Detail()
            with self._lock:
                status = _SNAPSHOT(self._held, ctypes.byref(into), room, detail)
            if status != _NO_ROOM:
                _test(status)
                return into.raw[: detail.number]
            room = detail.number

    def __contains__(self, number):
        number = _key(number)
        if number is None:
            return False
        with self._lock:
            return _CONTAINS(self._held, number)

    def __len__(self):
        with self._lock:
            return _LENGTH(self._held)

    def __iter__(self):
        detail = _Detail()
        with self._lock:
            into = array.array("Q", bytes(8 * len(self)))
            address, room = into.buffer_info()
            _test(_LIST(self._held, address if room else _NOWHERE, room, detail))
        return iter(into)

    def add(self, number):
        key = _key(number)
        if key is None:
            raise ValueError(f"{number!r} is no number from 0 to {MAX_KEY}")
        with self._lock:
            status = _INSERT(self._held, key, _Detail())
        if status == _FULL:
            raise OverflowError("a set of 196608 numbers or more takes no more")
        _test(status)

    def discard(self, number):
        number = _key(number)
        if number is not None:
            with self._lock:
                _REMOVE(self._held, number)

    def clear(self):
        with self._lock:
            _FREE(self._held)

    def __reduce__(self):
        # A copy of the struct would be freed twice.
        return type(self).from_snapshot, (self.snapshot(),)

    def __repr__(self):
        return f"{type(self).__name__}({list(self)})"

    def __del__(self, free=_FREE):
        # No lock: nobody else has the set now. It has no table where `__init__` did not begin.
        held = getattr(self, "_held", None)
        if held is not None:
            free(held)


def _test(status):
    if status == _NO_MEMORY:
        raise MemoryError
    assert status == _DONE, status
