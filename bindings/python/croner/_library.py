"""The C library, by ctypes: its structs, its functions, its numbers. croner.h says what each of them is."""
import ctypes
from ctypes import POINTER, Structure, c_char_p, c_int32, c_int64, c_size_t, c_uint32, c_void_p
from pathlib import Path

SONAME = "libcroner.so.1"
MAJOR = 1  # of the interface that is written down here

OK, REFUSED, LIMIT, OUT_OF_MEMORY, OUTSIDE, NOT_CALM, BAD_ZONE, TOO_SMALL, BAD_ARGUMENT = range(9)

FIRST_SECOND, LAST_SECOND = -377610508800, 253307692799
MOST_ZONE_BYTES = 1_000_000


class Change(Structure):
    _fields_ = [("second", c_int64), ("ahead", c_int32), ("reserved", c_int32)]


class Clock(Structure):
    _fields_ = [
        ("size", c_size_t),
        ("first", c_int64),
        ("last", c_int64),
        ("changes", POINTER(Change)),
        ("count", c_size_t),
        ("ahead", c_int32),
        ("reserved", c_int32),
    ]


class Fault(Structure):
    _fields_ = [
        ("size", c_size_t),
        ("begin", c_size_t),
        ("end", c_size_t),
        ("character", c_size_t),
        ("field", c_int32),
        ("kind", c_int32),
    ]


class Line(Structure):
    _fields_ = [
        ("size", c_size_t),
        ("schedule_begin", c_size_t),
        ("schedule_end", c_size_t),
        ("user_begin", c_size_t),
        ("user_end", c_size_t),
        ("command_begin", c_size_t),
        ("command_end", c_size_t),
        ("fault_begin", c_size_t),
        ("fault_end", c_size_t),
        ("kind", c_int32),
        ("fault", c_int32),
    ]


class Start(Structure):
    _fields_ = [("second", c_int64), ("times", c_uint32), ("reserved", c_uint32)]


def opened():
    """The library of this folder, if one lies here; else the one that the system's loader finds by its name."""
    beside = Path(__file__).resolve().parent / SONAME
    try:
        library = ctypes.CDLL(str(beside) if beside.exists() else SONAME)
    except OSError as error:
        raise ImportError(f"{error}: install {SONAME} where the system's loader finds it, or put it at {beside}") from error
    library.croner_version.argtypes, library.croner_version.restype = [], c_uint32
    version = library.croner_version()
    if version >> 16 != MAJOR:
        raise ImportError(f"{SONAME} has version {version:#x}, and not {MAJOR}")
    return library


_library = opened()


def _function(name, *arguments):
    function = getattr(_library, name)
    function.argtypes, function.restype = arguments, c_int32
    return function


_PATTERN = (c_char_p, c_size_t, c_uint32)
_CLOCK, _SECOND, _SIZE = POINTER(Clock), POINTER(c_int64), POINTER(c_size_t)
# (an array of any length is passed, as an address)
_WINDOW = (c_int64, c_int64, c_void_p, c_size_t, POINTER(c_int32), _SIZE)

clock_of_tzif = _function("croner_clock_of_tzif", c_char_p, c_size_t, *_WINDOW)
find_next = _function("croner_next", *_PATTERN, _CLOCK, c_int64, c_int32, _SECOND)
find_previous = _function("croner_previous", *_PATTERN, _CLOCK, c_int64, c_int32, _SECOND)
find_runs = _function("croner_runs", *_PATTERN, _CLOCK, c_int64, c_int32, c_int64, c_void_p, c_size_t, _SIZE)
matches = _function("croner_matches", *_PATTERN, _CLOCK, c_int64, POINTER(c_int32))
describe = _function("croner_describe", *_PATTERN, c_uint32, c_void_p, c_size_t, _SIZE)
explain = _function("croner_explain", *_PATTERN, POINTER(Fault), c_void_p, c_size_t, _SIZE)
crontab_line = _function("croner_crontab_line", c_char_p, c_size_t, c_uint32, POINTER(Line))
crontab_starts = _function(
    "croner_crontab_starts", c_char_p, c_size_t, c_uint32, _CLOCK, c_int64, c_int64, c_void_p, c_size_t, _SIZE
)


def fail(status):
    """Raises what a status means that no caller expects."""
    if status == OUT_OF_MEMORY:
        raise MemoryError
    raise SystemError(f"{SONAME} answered {status}")


def text_of(call, wanted):
    """The text that a call writes, which is handed an array, its length and where to put the text's length; None where its status is OK
    and another one is wanted."""
    room = 512
    while True:
        written, length = ctypes.create_string_buffer(room), c_size_t()
        status = call(written, room, length)
        if status != wanted:
            return None if status == OK else fail(status)
        if length.value <= room:
            return written.raw[: length.value].decode()
        room = length.value
