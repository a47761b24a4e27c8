"""From addresses to functions, files and lines, over libaddr2line.so.

    import addr2line
    with addr2line.open_file(path) as f:
        for frame in f.frames(0x1234):
            print(frame.function, frame.file, frame.line, frame.column)

The library is looked for in this package's folder and beside it, then where the system looks; the environment variable
ADDR2LINE_LIBRARY names another. A file is used by one call at a time, on the thread that opened it. It is closed by
`with`, by `close`, or when nothing holds it; what it gave stays.
"""
from __future__ import annotations

import ctypes
import ctypes.util
import errno
import glob
import mmap
import os
import stat
import threading
import warnings
from types import TracebackType
from typing import Any, Iterator, List, NamedTuple, Optional, Type, Union

OK, TOO_SMALL, WAITS, NOTHING, CLOSED, OTHER_UNIT, BAD_FLAGS, NO_PLACE, OUT_OF_MEMORY = 0, 1, 2, 3, 4, 5, 6, 7, 16
NOT_ELF, COMPRESSED_SECTION = 18, 20
DECOMPRESS = 1
DEMANGLE, DEMANGLE_RUST = 1, 2
# A path, as Python's own calls take it.
_Path = Union[str, bytes, "os.PathLike[Any]"]
# The flags of a lookup by what its argument `demangle` is.
_STYLES = {False: 0, True: DEMANGLE, "rust": DEMANGLE_RUST}


class Location(NamedTuple):
    """A location in a source file; lines and columns count from 1, and column 0 is the left edge."""

    file: Optional[str]
    line: Optional[int]
    column: Optional[int]


class Frame(NamedTuple):
    """A function at an address with its location there, or a location without a function."""

    function: Optional[str]
    file: Optional[str]
    line: Optional[int]
    column: Optional[int]
    entry: Optional[int]


class Span(NamedTuple):
    """A row of line information, with how many addresses it describes."""

    address: int
    length: int
    file: Optional[str]
    line: Optional[int]
    column: Optional[int]


class Symbol(NamedTuple):
    """A symbol, with the address at which it begins."""

    address: int
    name: Optional[str]


class Refused(Exception):
    """A refusal, with its number in `status`."""

    def __init__(self, status: int) -> None:
        super().__init__(status_text(status))
        self.status = status


class _Handle(ctypes.Structure):
    _fields_ = [("at", ctypes.c_void_p)]


class _Text(ctypes.Structure):
    _fields_ = [("offset", ctypes.c_size_t), ("length", ctypes.c_size_t), ("is_there", ctypes.c_uint32)]


class _Number(ctypes.Structure):
    _fields_ = [("value", ctypes.c_uint32), ("is_there", ctypes.c_uint32)]


class _Offset(ctypes.Structure):
    _fields_ = [("value", ctypes.c_uint64), ("is_there", ctypes.c_uint32)]


class _Location(ctypes.Structure):
    _fields_ = [("file", _Text), ("line", _Number), ("column", _Number)]


class _Frame(ctypes.Structure):
    _fields_ = [("entry", _Offset), ("function", _Text), ("location", _Location)]


class _Span(ctypes.Structure):
    _fields_ = [
        ("address", ctypes.c_uint64),
        ("length", ctypes.c_uint64),
        ("location", _Location),
        ("status", ctypes.c_uint32),
    ]


class _Symbol(ctypes.Structure):
    _fields_ = [("address", ctypes.c_uint64), ("name", _Text)]


class _Load(ctypes.Structure):
    _fields_ = [("token", ctypes.c_uint64), ("dwo_id", ctypes.c_uint64), ("directory", _Text), ("path", _Text)]


def _library_name() -> str:
    name = os.environ.get("ADDR2LINE_LIBRARY")
    if name is not None:
        return name
    package = os.path.dirname(os.path.abspath(__file__))
    for folder in (package, os.path.dirname(package)):
        # Of a name without a number and those with one the first is without.
        found = sorted(glob.glob(os.path.join(glob.escape(folder), "libaddr2line.so*")))
        if found:
            return found[0]
    return ctypes.util.find_library("addr2line") or "libaddr2line.so"


def _load_library() -> ctypes.CDLL:
    library = ctypes.CDLL(_library_name())
    handle, size = ctypes.POINTER(_Handle), ctypes.c_size_t
    out = [ctypes.c_void_p, size, ctypes.POINTER(size)]
    address = ctypes.c_uint64
    calls = {
        "version": [],
        "status_text": [ctypes.c_uint32] + out,
        "open_with": [ctypes.c_void_p, size, ctypes.c_void_p, size, ctypes.c_uint32, handle],
        "find_location": [handle, address, ctypes.POINTER(_Location)] + out,
        "find_frames": [handle, address, ctypes.c_uint32, ctypes.POINTER(_Frame), size, ctypes.POINTER(size)] + out,
        "get_load": [handle, ctypes.POINTER(_Load)] + out,
        "answer_load": [handle, address, ctypes.c_void_p, size],
        "forget": [handle, address],
        "preload": [handle, address],
        "parse_all": [handle],
        "locations": [handle, address, address, address, ctypes.POINTER(_Span), size, ctypes.POINTER(size)] + out,
        "find_symbol": [handle, address, ctypes.POINTER(_Symbol)] + out,
        "section_range": [handle, ctypes.c_char_p, size, ctypes.POINTER(address), ctypes.POINTER(address)],
    }
    for call, arguments in calls.items():
        function = getattr(library, "addr2line_" + call)
        function.argtypes, function.restype = arguments, ctypes.c_uint32
    library.addr2line_close.argtypes, library.addr2line_close.restype = [handle], None
    return library


_library = _load_library()


def version() -> int:
    """The number of what may be called."""
    return int(_library.addr2line_version())


def status_text(status: int) -> str:
    """What a status says."""
    text, needed = ctypes.create_string_buffer(80), ctypes.c_size_t()
    if _library.addr2line_status_text(status, text, len(text), ctypes.byref(needed)) != OK:
        return "unknown status %d" % status
    return text.value.decode()


class _Bytes:
    """Bytes that stay where they are until they are released."""

    def __init__(self, path: _Path) -> None:
        # Opening a named pipe would wait for its writer, and debug information chooses the paths of split files.
        number = os.open(path, os.O_RDONLY | os.O_NONBLOCK | os.O_CLOEXEC)
        try:
            about = os.fstat(number)
            if not stat.S_ISREG(about.st_mode):
                raise OSError(errno.EINVAL, "not a regular file", path)
            self.size = about.st_size
            # A private mapping may be written, which ctypes asks for; nothing writes it.
            self.map = mmap.mmap(number, 0, access=mmap.ACCESS_COPY) if self.size else None
        finally:
            os.close(number)
        self.view: Optional[ctypes.Array[ctypes.c_char]] = None
        self.at: Optional[int] = None
        if self.map is not None:
            self.view = (ctypes.c_char * self.size).from_buffer(self.map)
            self.at = ctypes.addressof(self.view)

    def release(self) -> None:
        self.view = None
        if self.map is not None:
            self.map.close()


class File:
    """An open file."""

    def __init__(self, path: _Path, sup: Optional[_Path] = None, decompress: bool = False) -> None:
        self._path = path
        self._thread = threading.get_ident()
        self._handle = _Handle(None)
        self._bytes: List[_Bytes] = []
        self._bytes.append(_Bytes(path))
        if sup is not None:
            self._bytes.append(_Bytes(sup))
            if not self._bytes[-1].size:
                self.close()
                raise Refused(NOT_ELF)
        main = self._bytes[0]
        more = self._bytes[-1] if sup is not None else None
        self._text = ctypes.create_string_buffer(4096)
        self._frames = (_Frame * 32)()
        flags = DECOMPRESS if decompress else 0
        status = _library.addr2line_open_with(
            main.at, main.size, more.at if more else None, more.size if more else 0, flags, ctypes.byref(self._handle)
        )
        if status != OK:
            self.close()
            raise Refused(status)

    def __enter__(self) -> File:
        return self

    def __exit__(
        self, kind: Optional[Type[BaseException]], failure: Optional[BaseException], trace: Optional[TracebackType]
    ) -> None:
        self.close()

    def __del__(self) -> None:
        if getattr(self, "_handle", None) is None or not self._handle.at:
            return
        warnings.warn("unclosed file %r" % (self._path,), ResourceWarning, source=self)
        # What collects it may run on any thread, and a handle stays on its own: then its memory stays taken.
        if self._thread == threading.get_ident():
            self.close()

    def close(self) -> None:
        """Closes the file; from then on its calls are refused."""
        _library.addr2line_close(ctypes.byref(self._handle))
        for held in self._bytes:
            held.release()
        self._bytes = []

    def _call(self, name: str, *arguments: Any) -> int:
        """A call with the text's buffer, which grows as is needed; the status."""
        needed = ctypes.c_size_t()
        call = getattr(_library, "addr2line_" + name)
        while True:
            status: int = call(
                ctypes.byref(self._handle), *arguments, self._text, len(self._text), ctypes.byref(needed)
            )
            if status != TOO_SMALL or needed.value <= len(self._text):
                return status
            self._text = ctypes.create_string_buffer(2 * needed.value)

    def _text_of(self, part: Any) -> Optional[str]:
        if not part.is_there:
            return None
        return ctypes.string_at(ctypes.addressof(self._text) + part.offset, part.length).decode("utf-8", "replace")

    def _location(self, part: Any) -> Location:
        return Location(
            self._text_of(part.file),
            part.line.value if part.line.is_there else None,
            part.column.value if part.column.is_there else None,
        )

    def _frame(self, part: Any) -> Frame:
        return Frame(
            self._text_of(part.function), *self._location(part.location), part.entry.value if part.entry.is_there else None
        )

    def location(self, address: int) -> Optional[Location]:
        """The location of an address, None where there is none."""
        found = _Location()
        status = self._call("find_location", address, ctypes.byref(found))
        if status == NOTHING:
            return None
        if status != OK:
            raise Refused(status)
        return self._location(found)

    def frames(self, address: int, demangle: Union[bool, str] = False) -> List[Frame]:
        """The frames at an address, the innermost first; split files are read as they are asked for.

        `demangle` is whether legacy names of Rust stand as in the source, or "rust" for v0 names too.
        """
        count = ctypes.c_size_t()
        while True:
            flags = _STYLES[demangle]
            frames = self._frames
            status = self._call("find_frames", address, flags, frames, len(frames), ctypes.byref(count))
            if status == OK:
                return [self._frame(frames[i]) for i in range(count.value)]
            if status == WAITS:
                self.answer_loads()
            elif status == TOO_SMALL:
                self._frames = (_Frame * (2 * count.value))()
            else:
                raise Refused(status)

    def preload(self, address: int) -> bool:
        """Asks for the split files of an address; whether there are some, for answer_loads."""
        status = _library.addr2line_preload(ctypes.byref(self._handle), address)
        if status not in (OK, WAITS):
            raise Refused(status)
        return bool(status == WAITS)

    def forget(self, token: int) -> None:
        """Takes the answer to a load back: what needs it next asks again. Tokens count from 0."""
        status = _library.addr2line_forget(ctypes.byref(self._handle), token)
        if status != OK:
            raise Refused(status)

    def answer_loads(self) -> None:
        """Answers each load that waits by the file that it names, by none where there is none."""
        load = _Load()
        while self._call("get_load", ctypes.byref(load)) == OK:
            held = self._split_file(self._text_of(load.directory), self._text_of(load.path))
            status = _library.addr2line_answer_load(
                ctypes.byref(self._handle), load.token, held.at if held else None, held.size if held else 0
            )
            if status == OUT_OF_MEMORY:
                raise Refused(status)

    def _split_file(self, directory: Optional[str], path: Optional[str]) -> Optional[_Bytes]:
        if path is None:
            return None
        try:
            held = _Bytes(os.path.join(directory or "", path))
        except OSError:
            return None
        self._bytes.append(held)
        return held

    def parse_all(self) -> None:
        """Reads the lines and functions of all units."""
        status = _library.addr2line_parse_all(ctypes.byref(self._handle))
        if status != OK:
            raise Refused(status)

    def locations(self, low: int, high: int) -> Iterator[Span]:
        """The rows that the addresses from low up to high meet; a fault is raised in its place.

        The walk holds the file, and where that is closed meanwhile the next row is refused.
        """
        first, count, capacity = 0, ctypes.c_size_t(), 256
        while True:
            spans = (_Span * capacity)()
            status = self._call("locations", low, high, first, spans, capacity, ctypes.byref(count))
            if status != OK:
                raise Refused(status)
            # The caller may make other calls between two rows, which use the same text.
            for span in [self._span(span) for span in spans[: count.value]]:
                if not self._handle.at:
                    raise Refused(CLOSED)
                if isinstance(span, Refused):
                    raise span
                yield span
            if count.value < capacity:
                return
            first += capacity
            capacity *= 2

    def _span(self, part: Any) -> Union[Span, Refused]:
        if part.status != OK:
            return Refused(part.status)
        return Span(part.address, part.length, *self._location(part.location))

    def symbol(self, address: int) -> Optional[Symbol]:
        """The symbol of an address, None where there is none."""
        symbol = _Symbol()
        status = self._call("find_symbol", address, ctypes.byref(symbol))
        if status == NOTHING:
            return None
        if status != OK:
            raise Refused(status)
        return Symbol(symbol.address, self._text_of(symbol.name))

    def section(self, name: str) -> Optional[range]:
        """The addresses of a section, as a range; None where there is none."""
        begin, end = ctypes.c_uint64(), ctypes.c_uint64()
        encoded = name.encode()
        status = _library.addr2line_section_range(
            ctypes.byref(self._handle), encoded, len(encoded), ctypes.byref(begin), ctypes.byref(end)
        )
        if status == NOTHING:
            return None
        if status != OK:
            raise Refused(status)
        return range(begin.value, end.value)


def open_file(path: _Path, sup: Optional[_Path] = None, decompress: bool = False) -> File:
    """Opens the ELF file at a path, with its supplementary file if there is one.

    With `decompress` sections that are compressed by zlib are read too, those of split files as well.
    """
    return File(path, sup, decompress)
