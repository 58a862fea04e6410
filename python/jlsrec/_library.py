"""libjlsrec by ctypes: its calls as jlsrec.h declares them, and its statuses as exceptions."""

from __future__ import annotations

import ctypes
import ctypes.util
import filecmp
import functools
import os
from collections.abc import Iterator
from pathlib import Path

OK = 0
NO_MEMORY = 1
NO_ROOM = 2
BAD_SIZE = 4
BAD_MAXVAL = 6
BAD_PRESET = (10, 11, 12, 13)
SAMPLE_TOO_LARGE = 9
NOT_STRICT = 15
TRUNCATED = 20
TOO_LARGE = 39
# Of JPEG-LS that isn't decoded, and isn't damaged for that: UNSUPPORTED_MARKER to LSE_ID, and an LSE segment of a later scan.
UNSUPPORTED = range(23, 33)

_SONAME = "libjlsrec.so.0"
_RELEASED = "libjlsrec.so.0.1.0"

# The levels of processors that libraries are compiled for, and what the second adds, as the system names it.
_V2, _V3 = "x86-64-v2", "x86-64-v3"
_V3_FLAGS = frozenset("avx avx2 bmi1 bmi2 f16c fma abm movbe xsave".split())


class Form(ctypes.Structure):
    """What a codestream says of its picture. Of t1 to reset a 0 stands for T.87's default."""

    _fields_ = [
        (name, ctypes.c_uint32)
        for name in ("components", "width", "height", "maxval", "t1", "t2", "t3", "reset")
    ]


class Fault(ctypes.Structure):
    """The details of a codestream's fault."""

    _fields_ = [(name, ctypes.c_uint32) for name in ("component", "marker", "number")]


class JlsrecError(ValueError):
    """A picture that can't be encoded, or bytes that can't be decoded. Its text says why.

    status: the status that the library returned, as jlsrec.h lists them. component, marker, number: the details of a
    codestream's fault, as its jlsrec_fault has them; 0 where they don't apply.
    """

    def __init__(self, status: int, fault: Fault) -> None:
        super().__init__(text_of(status, fault))
        self.fault = fault
        self.status = status
        self.component = int(fault.component)
        self.marker = int(fault.marker)
        self.number = int(fault.number)

    def __reduce__(self) -> tuple[object, ...]:
        """So that it can be pickled, as one that is raised in another process is, and copied."""
        return _error_again, (type(self), self.args, self.__dict__)

    def naming(self, fault: object) -> JlsrecError:
        """The same error, whose text ends with what is at fault, as a number."""
        self.args = (f"{self}: {fault}",)
        return self

    def of_frame(self, number: int) -> JlsrecError:
        """The same error, whose text begins with the frame's number."""
        error = JlsrecError(self.status, self.fault)
        error.args = (f"frame {number}: {self}",)
        return error


def _error_again(kind: type[JlsrecError], args: tuple[str, ...], values: dict[str, object]) -> JlsrecError:
    """An error of this kind with this text and these values."""
    error = kind.__new__(kind, *args)
    error.__dict__.update(values)
    return error


def _has_v3() -> bool:
    """Whether the processor has what x86-64-v3 adds to x86-64-v2, by the same names as the command jlsrec looks for."""
    try:
        with open("/proc/cpuinfo", encoding="utf-8", errors="replace") as lines:
            for line in lines:
                if line.startswith("flags"):
                    return _V3_FLAGS <= set(line.partition(":")[2].split())
    except OSError:
        pass
    return False


def _levels() -> tuple[str, ...]:
    """The levels of processors whose libraries are for this one, the best first; or as JLSREC_CPU says."""
    named = os.environ.get("JLSREC_CPU") or (_V3 if _has_v3() else _V2)
    if named not in (_V2, _V3):
        raise ImportError(f"JLSREC_CPU is to be {_V2} or {_V3}, or not set, and it is {named}")
    return (_V3, _V2) if named == _V3 else (_V2,)


def _places() -> Iterator[Path]:
    """Where the library may be, in the order in which it is looked for."""
    levels = _levels()
    here = Path(__file__).resolve().parent
    # In the package, of a wheel.
    for level in levels:
        yield here / level / _RELEASED
    # Below the same prefix: ./install puts it into lib, and Debian's package into a folder there.
    if here.parent.name in ("site-packages", "dist-packages"):
        lib = here.parent.parent.parent
        for folder in (lib, lib / "x86_64-linux-gnu"):
            if _V3 in levels:
                yield folder / "glibc-hwcaps" / _V3 / _SONAME
            yield folder / _SONAME
        return
    # In the checkout, built there or of its release. What library/build leaves of the release isn't built there, and is
    # for x86-64-v2 alone.
    checkout = here.parent.parent
    built, released = checkout / "out" / "library" / _SONAME, checkout / "release"
    if not _is_same(built, released / _V2 / _RELEASED):
        yield built
    for level in levels:
        yield released / level / _RELEASED


def _is_same(one: Path, other: Path) -> bool:
    """Whether both files exist and hold the same bytes."""
    return one.exists() and other.exists() and filecmp.cmp(one, other, shallow=False)


def _load() -> ctypes.CDLL:
    """The library that JLSREC_LIBRARY names; the package's own; the one below the same prefix; the checkout's, built
    there or released; or the system's. Where there are two it is the one for this processor."""
    named = os.environ.get("JLSREC_LIBRARY")
    if named:
        return ctypes.CDLL(named)
    for path in _places():
        if path.exists():
            return ctypes.CDLL(str(path))
    found = ctypes.util.find_library("jlsrec")
    if found:
        return ctypes.CDLL(found)
    raise ImportError(
        "libjlsrec isn't there: library/build makes it, ./install installs it, and JLSREC_LIBRARY names one elsewhere"
    )


_address = ctypes.c_void_p
_size = ctypes.c_size_t
_form = ctypes.POINTER(Form)
_fault = ctypes.POINTER(Fault)
_count = ctypes.POINTER(ctypes.c_size_t)
_number = ctypes.c_uint32

# Each call's result and arguments.
_CALLS = {
    "jlsrec_bound": (ctypes.c_uint64, _number, _number, _number, _number),
    "jlsrec_encode_8": (_number, _form, _address, _size, _size, _address, _size, _count),
    "jlsrec_encode_16": (_number, _form, _address, _size, _size, _address, _size, _count),
    "jlsrec_decode_8": (_number, _address, _size, _address, _size, _form, _count, _fault),
    "jlsrec_decode_16": (_number, _address, _size, _address, _size, _form, _count, _fault),
    "jlsrec_read_form": (_number, _address, _size, _form, _fault),
    "jlsrec_extent": (_number, _address, _size, _count),
    "jlsrec_strict": (_number, _address, _size, _count, _fault),
    "jlsrec_extents": (_number, _address, _size, _address, _size, _count, _fault),
    "jlsrec_text": (_size, _number, _fault, _address, _size),
    "jlsrec_version": (_number,),
}


@functools.lru_cache(maxsize=None)
def library() -> ctypes.CDLL:
    """The library, loaded by the first call, so that what needs no codec works without it. Raises ImportError."""
    try:
        loaded = _load()
        for name, (result, *arguments) in _CALLS.items():
            call = getattr(loaded, name)
            call.restype, call.argtypes = result, arguments
    except (OSError, AttributeError) as error:
        raise ImportError(f"libjlsrec can't be loaded: {error}") from error
    return loaded


def text_of(status: int, fault: Fault) -> str:
    """What the library says of a status."""
    room = ctypes.create_string_buffer(256)
    library().jlsrec_text(status, ctypes.byref(fault), room, len(room))
    return room.value.decode()


def check(status: int, fault: Fault | None = None) -> None:
    """Raises what a status stands for: MemoryError, JlsrecError, or nothing."""
    if status == OK:
        return
    if status == NO_MEMORY:
        raise MemoryError("libjlsrec: no memory")
    raise JlsrecError(status, fault if fault is not None else Fault())
