"""A Tardis TSO fabric for a simulator that writes journals: checks them, plays them, counts their traffic, converts them.

    import fabric
    print(fabric.listing("fabric=1 cores=1 lines=1 width=1 lease=10\\nop=fence core=0\\n"))

The functions are those of libfabric (include/fabric.h), which are proved. This module is tested, not proved: it calls the library's shared
object with ctypes, and needs nothing but Python's standard library.

A journal or a line is given as str, bytes, bytearray or memoryview; of str its UTF-8 bytes are taken. Text that comes back is str. What is
refused raises fabric.Refused, which carries the number.

The functions may be called from any number of threads at once, which do not wait for each other. A call takes up to 512 KiB of the
thread's stack, which it has unless threading.stack_size was told so little.

The library is the file that the environment variable FABRIC_LIBRARY names, where it is set. Else it is the first of these that can be
loaded and has the functions: the one that `make build` makes in a clone, the one that is installed with this file, and the one that the
loader finds by its name, libfabric.so.1.
"""

import ctypes
import os

__all__ = ["Refused", "check_line", "check", "listing", "tally", "to1", "to2"]

# Of each number that refuses a line or a journal: what does not fit.
_SENTENCES = {
    7: "cores, lines, width, lease or cap of the first line outside the limits",
    10: "a line over 200 bytes, or a last line without newline",
    11: "not a line of the journal's form, or an empty journal",
    12: "a number without digits, with another byte, with a leading zero, or above 4294967295",
    13: "data that are empty, odd in count, or have a byte other than 0-9 a-f",
    14: "a journal over 65536 bytes, or one whose conversion is",
    32: "it can't be said in fabric=1: cap is not lines, a victim step, or a step that answers 30",
}

_BYTES = ctypes.c_char_p
_OUT = ctypes.POINTER(ctypes.c_char)
_SIZE = ctypes.c_size_t
_SIZE_OUT = ctypes.POINTER(ctypes.c_size_t)
_NUMBER = ctypes.c_uint32

# Of each function of the library: what it returns, and what it takes.
_FUNCTIONS = {
    "fabric_check_line": (_NUMBER, [_BYTES, _SIZE]),
    "fabric_check": (_NUMBER, [_BYTES, _SIZE, _SIZE_OUT]),
    "fabric_list": (_SIZE, [_BYTES, _SIZE, _OUT, _SIZE]),
    "fabric_tally": (_SIZE, [_BYTES, _SIZE, _OUT, _SIZE]),
    "fabric_to1": (_NUMBER, [_BYTES, _SIZE, _OUT, _SIZE, _SIZE_OUT]),
    "fabric_to2": (_NUMBER, [_BYTES, _SIZE, _OUT, _SIZE, _SIZE_OUT]),
}

# What fabric_list and fabric_tally return where the buffer is too short.
_NO_ROOM = ctypes.c_size_t(-1).value

# The bytes of the first buffer for a listing, which most fit, and for a tally; and of the one for a conversion, which all fit.
_FIRST_LISTING = 65536
_FIRST_TALLY = 191
_MOST_RESULT = 65536


class Refused(Exception):
    """A line or a journal is refused.

    number  the refusal: 7, 10 to 14 or 32
    line    the number of the line of text that is refused, counted from 1 (for a journal with 14 it is 1), or None where none is known
    output  what there is in spite of the refusal: of listing the listing, of tally the dict, else None
    """

    def __init__(self, number, line=None, output=None):
        super().__init__(number, line, output)
        self.number = number
        self.line = line
        self.output = output

    def __str__(self):
        where = "" if self.line is None else f" at line {self.line}"
        return f"refused with {self.number}{where}: {_SENTENCES.get(self.number, 'a number that this module does not know')}"


def _load(path):
    """The library at a path, with the types of its functions set. OSError with the path and the reason where it can't be used."""
    library = ctypes.CDLL(path)
    for name, (returns, takes) in _FUNCTIONS.items():
        try:
            function = getattr(library, name)
        except AttributeError:
            why = "an older version, or another library: that of OpenFabrics has the same name"
            raise OSError(f"{path}: it has no function {name} ({why})") from None
        function.restype = returns
        function.argtypes = takes
    return library


def _places():
    """The paths where the library is looked for, in order."""
    named = os.environ.get("FABRIC_LIBRARY")
    if named:
        return [os.path.abspath(named)]
    here = os.path.dirname(os.path.realpath(__file__))
    clone = os.path.join(here, "..", "target", "lib", "libfabric.so.1")
    installed = os.path.join(here, "..", "..", "..", "lib", "libfabric.so.1")
    return [os.path.normpath(clone), os.path.normpath(installed), "libfabric.so.1"]


def _find():
    """The first library that can be used. ImportError with all that was tried where there is none."""
    tried = []
    for path in _places():
        try:
            return _load(path)
        except OSError as error:
            tried.append(f"\n  {error}")
    hint = "`make build` makes one in a clone, and FABRIC_LIBRARY may name one"
    raise ImportError(f"no libfabric.so.1 that can be used ({hint}). Tried:{''.join(tried)}")


_library = _find()


def _bytes(text):
    """The bytes of a journal or a line. There are some for every str: half a surrogate pair is encoded as if it were a character."""
    if isinstance(text, bytes):
        return text
    if isinstance(text, str):
        return text.encode("utf-8", "surrogatepass")
    if isinstance(text, (bytearray, memoryview)):
        return bytes(text)
    raise TypeError(f"a journal or a line is str, bytes, bytearray or memoryview, not {type(text).__name__}")


def _check(journal):
    """What fabric_check says of a journal's bytes: the number, and how many lines there are or which line is refused."""
    line = ctypes.c_size_t()
    number = _library.fabric_check(journal, len(journal), ctypes.byref(line))
    return number, line.value


def _written(function, journal, room):
    """The text that a function writes to a buffer, which has room bytes at first and twice as many each time that the text does not fit."""
    while True:
        out = ctypes.create_string_buffer(room)
        length = function(journal, len(journal), out, room)
        if length != _NO_ROOM:
            return out[:length].decode("ascii")
        room *= 2


def _played(journal, output):
    """What came of playing a journal; Refused with that and with what fabric_check says where it refuses the journal."""
    number, line = _check(journal)
    if number:
        raise Refused(number, line, output)
    return output


def _converted(function, journal, form):
    """What a function that converts journals of a form makes of a journal."""
    out = ctypes.create_string_buffer(_MOST_RESULT)
    length = ctypes.c_size_t()
    number = function(journal, len(journal), out, _MOST_RESULT, ctypes.byref(length))
    if number:
        raise Refused(number, _refused_line(number, journal, form))
    return out[:length.value].decode("ascii")


def _refused_line(number, journal, form):
    """The line for which converting a journal of a form is refused with a number: the first where that is not of the form, which is 11;
    else the one that fabric_check refuses with this number; else None."""
    if number == 11 and not journal.startswith(b"fabric=%d " % form):
        return 1
    checked, line = _check(journal)
    return line if checked == number else None


def check_line(line):
    """Checks a step line of a fabric=1 journal, without its newline. Refused with 10 to 13."""
    line = _bytes(line)
    number = _library.fabric_check_line(line, len(line))
    if number:
        raise Refused(number)


def check(journal):
    """Checks a journal without playing it, and gives the number of its lines. Refused with 7 or 10 to 14, and the line."""
    number, line = _check(_bytes(journal))
    if number:
        raise Refused(number, line)
    return line


def listing(journal):
    """The listing of a journal, just what steps(1) prints. Refused with 7 or 10 to 14, the line, and the listing up to it."""
    journal = _bytes(journal)
    return _played(journal, _written(_library.fabric_list, journal, _FIRST_LISTING))


def tally(journal):
    """A journal's counts by name, in the order of tally(1). Refused with 7 or 10 to 14, the line, and the counts up to it."""
    journal = _bytes(journal)
    words = _written(_library.fabric_tally, journal, _FIRST_TALLY).split()
    counts = dict(word.split("=") for word in words)
    return _played(journal, {name: int(count) for name, count in counts.items()})


def to1(journal):
    """The journal of fabric=1 that does what one of fabric=2 does. Refused with 7, 10 to 14 or 32, and the line where one is known."""
    return _converted(_library.fabric_to1, _bytes(journal), 2)


def to2(journal):
    """The journal of fabric=2 that does what one of fabric=1 does. Refused with 7 or 10 to 14, and the line where one is known."""
    return _converted(_library.fabric_to2, _bytes(journal), 1)
