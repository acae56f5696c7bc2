"""Records of Linux performance events, perf_event_open(2), read by a proved library.

    import perf_event_data as ped

    data = open("recording.stream", "rb").read()    # or an mmap, an array, a memoryview
    config, length = ped.read_attribute(data)
    frames = ped.Frames(data, config, length)
    for frame in frames:
        print(frame.name, frame.time, frame.fields)
    names = frames.column("comm.comm")              # a list, None where the field is absent
    event = ped.identifier(data[length:], True)     # which event wrote a frame, before it is read
    table = frames.numpy()                          # an array, if numpy is installed

    recording = ped.open("perf.data")               # a file that `perf record` wrote
    for frame in recording.frames("time"):          # in order of time, each under its own event
        print(frame.at, frame.event, frame.name, frame.fields)

The input is not copied. Its bytes must not change while `Frames` or a `Recording` is in use.
The shared object is the one that PERF_EVENT_DATA_SO names, else the one in the folder of this file,
else the one that the system finds.
"""

from __future__ import annotations

import builtins
import ctypes
import functools
import itertools
import mmap
import os
import struct
import sys
from array import array
from collections.abc import Callable, Iterator, Sequence
from typing import TYPE_CHECKING, Any, overload

if TYPE_CHECKING:
    from numpy import ndarray

__all__ = ["BIG", "ENDS", "FIELDS", "FLAGS", "FILE_KINDS", "KINDS", "LITTLE", "STRUCT_VERSION", "TYPES", "Config",
           "Error", "Event", "FileFrames", "Frame", "Frames", "Recording", "RefusedAttribute", "RefusedFile",
           "identifier", "open", "read_attribute"]

# The types of the tables below.
TYPES: list[str]
KINDS: dict[int, str]
FILE_KINDS: dict[int, str]
ENDS: tuple[str, ...]
FIELDS: dict[str, list[list[str]]]
FLAGS: dict[str, int]

__version__ = "0.1.8"
STRUCT_VERSION = 1  # PED_VERSION of the header
LITTLE, BIG = 0, 1

KINDS = {1: "Eof", 2: "InvalidRecord", 3: "UnsupportedConfig", 4: "UnsupportedData"}
ENDS = "limit", "done", "cut header"
_TEXTS = {1: "unexpected EOF during parsing", 2: "invalid record", 3: "unsupported config",
          4: "unsupported serialized data"}
_REASONS = {
    1: "header size was too small to be valid",
    2: "config has sample_id_all bit set but record does not have enough data to store the sample_id",
    3: "build_id had invalid length", 4: "stack dyn_size was greater than the record size",
    5: "attempted to parse a SingleRead with a config that has GROUP set in read_format",
    6: "attempted to parse a GroupRead with a config that does not have GROUP set in read_format",
    7: "read_format contains unsupported flags",
    8: "number of elements in group read was too large for data type"}

# Why a file is refused: the kind, and what ped_file_message of the C header has.
_FILE_REFUSALS = {
    1: ("NotPerfData", "this is no perf.data file: pass a file that `perf record` has written"),
    2: ("OldFormat", "this file has the format that perf wrote before 2010: record again with a newer perf"),
    3: ("BadHead", "the head of the file is cut off, or has an unknown size: copy the file again, or record again"),
    5: ("Directory", "this is one of several files of `perf record --threads`: record again without that option"),
    6: ("Compressed",
        "the frames are compressed: run `perf inject -i perf.data -o plain.data`, or record without `-z`"),
    7: ("CutAttributes", "the attributes end beyond the file, so it is cut off: copy it again, or record again"),
    8: ("CutFrames", "the frames end beyond the file, so it is cut off: copy it again, or record again"),
    9: ("CutIds", "the ids of an event end beyond the file, so it is cut off: copy it again, or record again"),
    10: ("BadEntry", "the attributes are not whole entries, so the file is damaged: copy it again, or record again"),
    11: ("NoEvent", "the file has no event, so it is damaged: copy it again, or record again"),
    12: ("BadAttribute", "the attribute of an event is damaged: copy the file again, or record again"),
    13: ("NewAttribute",
         "an event has fields of a newer kernel than this library knows: use a newer version of it"),
    14: ("BadIds",
         "the ids of an event are not whole numbers, so the file is damaged: copy it again, or record again"),
    15: ("Overlap", "two parts of the file share bytes, so it is damaged: copy it again, or record again"),
    16: ("NoIdPlace",
         "the events have their ids at different places: record all of them with one `perf record`"),
    17: ("SharedId", "two events have one id, so the file is damaged: copy it again, or record again"),
    19: ("OtherCount", "an array does not have as many elements as it needs"),
    21: ("CutFeature", "the feature ends beyond the file, so it is cut off: copy it again, or record again")}
_NO_FEATURE = 20
_SHORT = "the feature is damaged: copy the file again, or record again"
_NO_EVENT = {2: "its id is that of no event of the file", 3: "it is too short for an id"}
FILE_KINDS = {number: kind for number, (kind, _) in _FILE_REFUSALS.items()}
_MAGICS = b"PERFILE2", b"2ELIFREP", b"PERFFILE"
_NO_STREAM = ("this is a file of `perf record`, not a stream: open it by perf_event_data.open, or print it by the"
              " program perf_data")

# The fields of each record by the names of the C header: numbers, and after the semicolon spans. A span of a
# list ends in `*` and how many numbers an item has; those of `values` depend on the read format. After `/`
# are the flags of which the record has one, if it has the field, and the forms that it has all.
_FIELDS = {name: [[field.split("/") for field in part.split()] for part in text.split(";")] for name, text in {
    # made of bindings/fields.txt by bindings/fields.py
    "unknown": "; data", "mmap": "pid tid addr len pgoff ; filename", "lost": "id lost ;", "comm": "pid tid ; comm",
    "exit": "pid ppid tid ptid time ;", "throttle": "time id stream_id ;", "unthrottle": "time id stream_id ;",
    "fork": "pid ppid tid ptid time ;",
    "read": "pid tid value time_enabled//enabled time_running//running id//id lost//lost ;",
    "sample": "ip/IP addr/ADDR period/PERIOD weight/WEIGHT|WEIGHT_STRUCT data_src/DATA_SRC transaction/TRANSACTION"
    " phys_addr/PHYS_ADDR cgroup/CGROUP data_page_size/DATA_PAGE_SIZE code_page_size/CODE_PAGE_SIZE"
    " lbr_hw_index/LBR_HW_INDEX regs_user_abi/REGS_USER regs_intr_abi/REGS_INTR time_enabled/READ/enabled"
    " time_running/READ/running count/READ value/READ/single value_id/READ/single&id value_lost/READ/single&lost ;"
    " callchain*1/CALLCHAIN lbr*3/BRANCH_STACK values*0/READ/group regs_user*1/REGS_USER regs_intr*1/REGS_INTR"
    " raw/RAW stack_user/STACK_USER aux/AUX",
    "mmap2": "pid tid addr len pgoff prot flags maj//inode min//inode ino//inode ino_generation//inode ; filename"
    " build_id//build_id", "aux": "aux_offset aux_size flags ;", "itrace_start": "pid tid ;", "lost_samples": "lost ;",
    "switch": ";", "switch_cpu_wide": "pid tid out ;", "namespaces": "pid tid count ; namespaces*2",
    "ksymbol": "addr len ksym_type flags ; name", "bpf_event": "ty flags id ; tag", "cgroup": "id ; path",
    "text_poke": "addr ; old_bytes new_bytes", "aux_output_hw_id": "hw_id ;",
    # up to here
}.items()}
FIELDS = {name: [[field[0] for field in part] for part in parts] for name, parts in _FIELDS.items()}
TYPES = list(FIELDS)

# PERF_SAMPLE_* by name, and the bit of `present` for lbr_hw_index.
FLAGS = {name: 1 << bit for bit, name in enumerate((
    "IP TID TIME ADDR READ CALLCHAIN ID CPU PERIOD STREAM_ID RAW BRANCH_STACK REGS_USER STACK_USER WEIGHT"
    " DATA_SRC IDENTIFIER TRANSACTION REGS_INTR PHYS_ADDR AUX CGROUP DATA_PAGE_SIZE CODE_PAGE_SIZE"
    " WEIGHT_STRUCT").split())}
FLAGS["LBR_HW_INDEX"] = 1 << 32
# PERF_FORMAT_*, and whether there is no group, and a build id in place of an inode.
_FORMS = {"enabled": 1, "running": 2, "id": 4, "group": 8, "lost": 16, "single": 32, "build_id": 64, "inode": 128}
_BUILD_ID = 0x4000  # PERF_RECORD_MISC_MMAP_BUILD_ID

# A flat frame: 14 numbers, the 24 numbers of its record, and the offset and length of 8 spans.
_ROW = struct.Struct("=IHHIHHQIIQQQII24Q16I")
_OWN = {"type": ("I", 0, 0), "misc": ("H", 4, 0), "size": ("H", 6, 0), "read": ("I", 8, 0),
        "refusal": ("H", 12, 0), "reason": ("H", 14, 0), "present": ("Q", 16, 0),
        "pid": ("I", 24, FLAGS["TID"]), "tid": ("I", 28, FLAGS["TID"]), "time": ("Q", 32, FLAGS["TIME"]),
        "id": ("Q", 40, FLAGS["ID"] | FLAGS["IDENTIFIER"]), "stream_id": ("Q", 48, FLAGS["STREAM_ID"]),
        "cpu": ("I", 56, FLAGS["CPU"]), "read_format": ("I", 60, 0)}
_PLACES = {name: (place, own[2]) for place, (name, own) in enumerate(_OWN.items())}


class Error(ValueError):
    """What this module raises for bytes, or a configuration, that it does not read."""


class RefusedAttribute(Error):
    """Why an attribute is refused: `kind`, one of `KINDS`."""

    kind: str

    def __init__(self, kind: str, message: str) -> None:
        super().__init__(message)
        self.kind = kind


class RefusedFile(Error):
    """Why a file is refused, and what to do: `kind`, one of `FILE_KINDS`."""

    kind: str

    def __init__(self, kind: str, message: str) -> None:
        super().__init__(message)
        self.kind = kind


class Config(ctypes.Structure):
    """How records are to be read: fields of their event's attribute, `struct perf_event_attr`, and the order."""

    _fields_ = [("version", ctypes.c_uint32), ("order", ctypes.c_uint32)] + [
        (name, ctypes.c_uint64) for name in ("sample_type", "read_format", "flags", "branch_sample_type",
                                             "sample_regs_user", "sample_regs_intr")]

    version: int
    order: int
    sample_type: int
    read_format: int
    flags: int
    branch_sample_type: int
    sample_regs_user: int
    sample_regs_intr: int

    def __init__(self, order: int = LITTLE, **fields: int) -> None:
        super().__init__(STRUCT_VERSION, order, **fields)

    @property
    def sample_id_all(self) -> bool:
        """Whether each record but a sample ends with a sample id: bit 18 of `flags`."""
        return bool(self.flags & 1 << 18)

    def __repr__(self) -> str:
        numbers = [f"{name}={getattr(self, name):#x}" for name, _ in self._fields_[2:] if getattr(self, name)]
        return f"Config({', '.join(['BIG'] * (self.order == BIG) + numbers)})"


class _Ended(ctypes.Structure):
    _fields_ = [("count", ctypes.c_size_t), ("taken", ctypes.c_size_t), ("how", ctypes.c_uint32)]


class _Part(ctypes.Structure):
    _fields_ = [("at", ctypes.c_uint64), ("size", ctypes.c_uint64)]


class _File(ctypes.Structure):
    _fields_ = [("order", ctypes.c_uint32), ("is_closed", ctypes.c_uint32), ("frames", _Part),
                ("events", ctypes.c_uint64), ("ids", ctypes.c_uint64)]


class _FileEvent(ctypes.Structure):
    _fields_ = [("config", Config), ("type", ctypes.c_uint32), ("event", ctypes.c_uint64),
                ("ids_at", ctypes.c_uint64), ("ids", ctypes.c_uint64), ("name", _Part)]


_ENTRY = struct.Struct("=QQQII")  # an entry: time, offset, number and owner, and four bytes that are not used
_EVENT, _PERF, _UNKNOWN = range(3)  # of enum ped_owner


_ABSENT = """the library of perf_event_data is absent: {why}
Install one of: the wheel, which contains it; the Debian package libperf-event-data1; what `make -C bindings
install` writes. Or set PERF_EVENT_DATA_SO to the path of {name}, which `make -C bindings shared` makes."""


def _load() -> ctypes.PyDLL:
    """Returns the library. Its calls keep the interpreter's lock, so no thread of Python changes the bytes."""
    beside = os.path.join(os.path.dirname(os.path.abspath(__file__)), "libperf_event_data.so")
    name = f"libperf_event_data.so.{STRUCT_VERSION}"
    try:
        library = ctypes.PyDLL(os.environ.get("PERF_EVENT_DATA_SO") or (beside if os.path.exists(beside) else name))
    except OSError as why:
        raise ImportError(_ABSENT.format(why=why, name=name)) from None
    pointer, size = ctypes.c_void_p, ctypes.c_size_t
    library.ped_read_many.argtypes = [ctypes.POINTER(Config), pointer, size, pointer, size]
    library.ped_read_many.restype = _Ended
    library.ped_read_attr.argtypes = [pointer, size, ctypes.c_uint32, ctypes.POINTER(Config), ctypes.POINTER(size)]
    library.ped_read_attr.restype = ctypes.c_uint32
    library.ped_identifier.argtypes = [pointer, size, ctypes.c_uint32, ctypes.c_uint32, ctypes.POINTER(ctypes.c_uint64)]
    library.ped_identifier.restype = ctypes.c_uint32
    file, place = ctypes.POINTER(_File), ctypes.c_void_p
    library.ped_file_open.argtypes = [pointer, size, file]
    library.ped_file_events.argtypes = [pointer, size, place, size, place, size, place, size]
    library.ped_file_names.argtypes = [pointer, size, place, size, place, size, place, size]
    library.ped_file_feature.argtypes = [pointer, size, ctypes.c_uint8, place]
    library.ped_event_name.argtypes = [place, pointer, size, place, size]
    library.ped_event_name.restype = size
    library.ped_file_sort.argtypes, library.ped_file_sort.restype = [place, size], None
    library.ped_file_read.argtypes = [file, pointer, size, place, size, place, size, place, size]
    library.ped_file_read.restype = size
    return library


_library = _load()


def _address(view: memoryview) -> int:
    """Returns where the bytes of a view are, read-only or not; they stay there while the view exists."""
    buffer = (ctypes.c_void_p * 16)()  # more than a Py_buffer needs, of which the first field is the address
    ctypes.pythonapi.PyObject_GetBuffer(ctypes.py_object(view), buffer, 0)
    address = buffer[0] or 0
    ctypes.pythonapi.PyBuffer_Release(buffer)
    return address


def _bytes_view(data: Any) -> memoryview:
    """Returns the bytes of any object that has some, in one piece."""
    view = memoryview(data)
    return view if view.format == "B" and view.ndim == 1 and view.contiguous else view.cast("B")


def read_attribute(data: Any, order: int = LITTLE) -> tuple[Config, int]:
    """Returns the configuration of the event attribute at the front of `data`, and its length in bytes.

    Raises RefusedAttribute if it is refused."""
    view, config, taken = _bytes_view(data), Config(), ctypes.c_size_t()
    kind = _library.ped_read_attr(_address(view), len(view), order, config, taken)
    if kind:
        raise RefusedAttribute(KINDS[kind], _NO_STREAM if bytes(view[:8]) in _MAGICS else KINDS[kind])
    return config, taken.value


def identifier(data: Any, sample_id_all: bool, order: int = LITTLE) -> int | None:
    """Returns the kernel's number of the event that wrote the frame at the front of `data`; None if it has none.

    It is for frames of several events, before the configuration of a frame is known: all of them must have
    PERF_SAMPLE_IDENTIFIER, and `sample_id_all` is whether they have that too."""
    view, number = _bytes_view(data), ctypes.c_uint64()
    found = _library.ped_identifier(_address(view), len(view), order, bool(sample_id_all), number)
    return number.value if found else None


def _is_present(present: int, forms: int, _name: str, flags: str = "", needed: str = "") -> bool:
    """Returns whether a record has a field, by what it has and what the field needs."""
    has_flag = not flags or any(present & FLAGS[flag] for flag in flags.split("|"))
    return has_flag and all(forms & _FORMS[form] for form in needed.split("&") if form)


@functools.lru_cache(maxsize=None)
def _fields(read: int, present: int, read_format: int, misc: int) -> tuple[Any, ...]:
    """Returns the names and places of the numbers that a record has, and of its spans, with their items."""
    forms = read_format | (0 if read_format & 8 else 32) | (64 if misc & _BUILD_ID else 128)
    numbers, spans = ([(place, field[0]) for place, field in enumerate(part) if _is_present(present, forms, *field)]
                      for part in _FIELDS[TYPES[read]])
    entry = 1 + bool(read_format & 4) + bool(read_format & 16)
    found = []
    for place, text in spans:
        name, star, each = text.partition("*")
        found.append((name, 38 + 2 * place, (int(each) or entry) if star else 0))
    return [(name, 14 + place) for place, name in numbers], found


class Frame:
    """A frame: its numbers, and the record in it or why there is none.

    It has the attributes type, misc and size of its header; read, the number of the type that was read, or
    0; refusal and reason, numbers; present and read_format, sets of PERF_SAMPLE_* and PERF_FORMAT_*; and
    pid, tid, time, id, stream_id and cpu, of the sample or of the sample id, each None if it is absent."""

    __slots__ = "_row", "_data", "_start", "_order", "_owner"
    type: int
    misc: int
    size: int
    read: int
    refusal: int
    reason: int
    present: int
    read_format: int
    pid: int | None
    tid: int | None
    time: int | None
    id: int | None
    stream_id: int | None
    cpu: int | None

    def __init__(self, row: tuple[int, ...], data: memoryview, start: int, order: int,
                 owner: tuple[list[Event], int, int] | None = None) -> None:
        self._row, self._data, self._start, self._order, self._owner = row, data, start, order, owner

    def __repr__(self) -> str:
        return f"<Frame {self.name} at {self.at}, {self.length} bytes>"

    def __getattr__(self, name: str) -> Any:
        if name not in _PLACES:
            raise AttributeError(name)
        place, flag = _PLACES[name]
        return self._row[place] if not flag or self._row[6] & flag else None

    @property
    def bytes(self) -> memoryview:
        """Its bytes in the input, with the header; as many as are left if it is cut short."""
        return self._data[self._start:self._start + max(self._row[2], 8)]

    @property
    def at(self) -> int:
        """The offset in the input at which its header begins."""
        return self._start

    @property
    def length(self) -> int:
        """How many bytes of the input it takes: its size, at least a header, and no more than are left."""
        return min(max(self._row[2], 8), len(self._data) - self._start)

    @property
    def event(self) -> Event | None:
        """The event of a file that wrote it; None if perf wrote it for itself, or the event is not known."""
        events, owner, number = self._owner or ([], _PERF, 0)
        return events[number] if owner == _EVENT else None

    @property
    def unknown_id(self) -> int | None:
        """The id by which it names an event that the file does not have; None for other frames."""
        return self._owner[2] if self._owner and self._owner[1] == _UNKNOWN else None

    @property
    def name(self) -> str:
        """The name of the record's type, as "comm"; "refused" if there is no record."""
        return "refused" if self._row[4] else TYPES[self._row[3]]

    @property
    def message(self) -> str:
        """Why there is no record; "" if there is one."""
        if self._row[4] == 3 and self._owner and self._owner[1] != _EVENT:
            return _NO_EVENT[self._owner[1]]
        reason = _REASONS.get(self._row[5])
        return _TEXTS.get(self._row[4], "") if reason is None else reason

    @property
    def fields(self) -> dict[str, Any]:
        """The record's fields that are present, by the names of the C header.

        A byte string is a memoryview of the input. A list contains numbers, or tuples: of `lbr` from, to and
        the word of the branch, of `namespaces` device and inode, of `values` what the read format has."""
        row = self._row
        if row[4]:
            return {}
        numbers, spans = _fields(row[3], row[6], row[13], row[1] & _BUILD_ID)
        fields = {name: row[place] for name, place in numbers}
        for name, place, each in spans:
            start = self._start + row[place]
            span = self._data[start:start + row[place + 1]]
            fields[name] = self._items(span, each) if each else span
        return fields

    def _items(self, span: memoryview, each: int) -> list[Any]:
        words = array("Q", span.tobytes())
        if (self._order == BIG) != (sys.byteorder == "big"):
            words.byteswap()
        if each == 1:
            return words.tolist()
        return list(zip(*[iter(words)] * each))


class Frames(Sequence[Frame]):
    """The frames of bytes, one after another: a sequence of `Frame`.

    `end` is how reading ended: "done", "cut header" if one to seven bytes are left, or "limit". `taken` is
    how many bytes were taken, from the start of `data`; with a limit, reading can go on there."""

    _CHUNK = 1024
    data: memoryview
    order: int
    rows: bytearray
    starts: array[int]
    taken: int
    end: str

    def __init__(self, data: Any, config: Config | None = None, start: int = 0, limit: int = sys.maxsize) -> None:
        """Reads at most `limit` frames, from the byte `start` on. The configuration is that of the event that
        wrote them; without one, records have no sample id and samples have no fields. Raises Error for a start
        outside the bytes, a configuration that the library does not read, or a file of `perf record`."""
        config = config or Config()
        self.data, self.order, self.rows, how = _bytes_view(data), config.order, bytearray(), 0
        if not 0 <= start <= len(self.data):
            raise Error("the start is outside the bytes")
        if start == 0 and bytes(self.data[:8]) in _MAGICS:
            raise Error(_NO_STREAM)
        self.taken, address = start, _address(self.data)
        room = max(min(self._CHUNK, limit, (len(self.data) - start) // 8), 1)
        chunk = ctypes.create_string_buffer(_ROW.size * room)
        count = 0
        while how == 0 and count < limit:
            ended = _library.ped_read_many(config, address + self.taken, len(self.data) - self.taken,
                                           chunk, min(room, limit - count))
            how, count = ended.how, count + ended.count
            self.rows += memoryview(chunk)[:_ROW.size * ended.count]
            self.taken += ended.taken
        if how > 2:
            raise Error("the configuration is of another version, or has no such order")
        self.end = ENDS[how]
        larger: Callable[[int, int], int] = max
        lengths = map(larger, _numbers(self.rows, "H", 6), itertools.repeat(8))
        self.starts = array("Q", itertools.accumulate(itertools.chain([start], lengths)))

    def __repr__(self) -> str:
        return f"<{type(self).__name__}: {len(self)}, end {self.end!r}>"

    def __len__(self) -> int:
        return len(self.rows) // _ROW.size

    def _batches(self) -> Iterator[tuple[int, bytearray | memoryview]]:
        """Returns the flat frames, some at a time, and how many come before them."""
        yield 0, self.rows

    def _row(self, index: int) -> tuple[int, ...]:
        return _ROW.unpack_from(self.rows, _ROW.size * index)

    def _frame(self, index: int, row: tuple[int, ...]) -> Frame:
        return Frame(row, self.data, self.starts[index], self.order)

    @overload
    def __getitem__(self, index: int) -> Frame: ...

    @overload
    def __getitem__(self, index: slice) -> list[Frame]: ...

    def __getitem__(self, index: int | slice) -> Frame | list[Frame]:
        if isinstance(index, slice):
            return [self[place] for place in range(*index.indices(len(self)))]
        if not -len(self) <= index < len(self):
            raise IndexError(index)
        index %= len(self)
        return self._frame(index, self._row(index))

    def __iter__(self) -> Iterator[Frame]:
        for first, rows in self._batches():
            for index, row in enumerate(_ROW.iter_unpack(rows), first):
                yield self._frame(index, row)

    def column(self, name: str) -> list[Any]:
        """Returns one field of all frames, None for each frame where it is absent.

        The name is that of an attribute of `Frame`, as "time", or a record and its field, as "sample.ip"."""
        record, dot, field = name.rpartition(".")
        if not dot:
            code, at, flag = _OWN[name]
            found: list[Any] = []
            for _, rows in self._batches():
                numbers = _numbers(rows, code, at)
                found += [number if present & flag else None for number, present in zip(
                    numbers, _numbers(rows, "Q", 16))] if flag else numbers
            return found
        if field not in {text.partition("*")[0] for texts in FIELDS[record] for text in texts}:
            raise KeyError(name)
        return [frame.fields.get(field) if frame.name == record else None for frame in self]

    def numpy(self, name: str | None = None) -> ndarray[Any, Any]:
        """Returns a structured array over the flat frames, a row each, or of one number of theirs alone.

        Its fields are those of the C header's `struct ped_frame`: `numbers` has 24 numbers for each frame, in
        the order of `FIELDS`, and `spans` has 8 times `at` and `len`. What a record does not have is 0. With the
        name of an attribute of `Frame`, as "time", it is a plain array of that number. The structured array of
        `Frames` copies nothing, that of `FileFrames` has 320 bytes for each frame."""
        import numpy
        if name is not None:
            code, at, _ = _OWN[name]
            found, width = numpy.empty(len(self), f"=u{struct.calcsize('=' + code)}"), struct.calcsize("=" + code)
            for first, rows in self._batches():
                some = numpy.frombuffer(rows, found.dtype)[at // width::_ROW.size // width]
                found[first:first + len(some)] = some
            return found
        kinds: list[Any] = [(name, f"=u{struct.calcsize('=' + own[0])}") for name, own in _OWN.items()]
        kinds += [("numbers", "=u8", 24), ("spans", [("at", "=u4"), ("len", "=u4")], 8)]
        return numpy.frombuffer(self.rows, kinds)


def _numbers(rows: bytearray | memoryview, code: str, at: int) -> list[int]:
    """Returns a number of each flat frame: of the type that `code` names, at that offset."""
    width = struct.calcsize("=" + code)
    return memoryview(rows).cast(code)[at // width::_ROW.size // width].tolist() if rows else []


class FileFrames(Frames):
    """Frames of a file of `perf record`: a sequence of `Frame`, each read under its own event.

    It keeps 32 bytes for each frame, and reads the frames some at a time when they are asked for."""

    def __init__(self, recording: Recording, entries: bytearray) -> None:
        """Takes the entries of the frames; `Recording.frames` and `Event.frames` make it."""
        self._recording, self._entries = recording, entries
        self.data, self.order, self.end, self.taken = recording.data, recording.order, recording.end, recording._taken

    def __len__(self) -> int:
        return len(self._entries) // _ENTRY.size

    @property
    def rows(self) -> bytearray:  # type: ignore[override]
        """The flat frames, of 320 bytes each: made when they are asked for."""
        return bytearray().join(rows for _, rows in self._batches())

    @property
    def starts(self) -> array[int]:  # type: ignore[override]
        """The offset of each frame in the file."""
        return array("Q", memoryview(self._entries).cast("Q")[1::4].tolist())

    def column(self, name: str) -> list[Any]:
        """Returns one field of all frames, as that of `Frames`; also of "at", and of "event", its number."""
        if name == "at":
            return self.starts.tolist()
        if name == "event":
            return [None if owner else number for _, _, number, owner, _ in _ENTRY.iter_unpack(self._entries)]
        return super().column(name)

    def _batches(self) -> Iterator[tuple[int, bytearray | memoryview]]:
        chunk = bytearray(_ROW.size * min(self._CHUNK, len(self)))
        for first in range(0, len(self), self._CHUNK):
            count = min(self._CHUNK, len(self) - first)
            self._recording._read(self._entries, first, count, chunk)
            yield first, memoryview(chunk)[:_ROW.size * count]

    def _row(self, index: int) -> tuple[int, ...]:
        row = bytearray(_ROW.size)
        self._recording._read(self._entries, index, 1, row)
        return _ROW.unpack(row)

    def _frame(self, index: int, row: tuple[int, ...]) -> Frame:
        _, at, number, owner, _ = _ENTRY.unpack_from(self._entries, _ENTRY.size * index)
        return Frame(row, self.data, at, self.order, (self._recording.events, owner, number))


class Event:
    """An event of a file: its place among them, its name as `perf_data events` prints it, its configuration, the type
    (PERF_TYPE_*) and the number of what it counts (`config` of its attribute), and the ids by which frames name it."""

    __slots__ = "_recording", "number", "name", "config", "type", "event", "ids"
    number: int
    name: str
    config: Config
    type: int
    event: int
    ids: tuple[int, ...]

    def __init__(self, recording: Recording, number: int, name: str, config: Config, type: int, event: int,
                 ids: tuple[int, ...]) -> None:
        self._recording, self.number, self.name, self.config = recording, number, name, config
        self.type, self.event, self.ids = type, event, ids

    def __repr__(self) -> str:
        return f"<Event {self.number}: {self.name}, {len(self.ids)} ids>"

    @property
    def frames(self) -> FileFrames:
        """Its frames, in order of time. Those of tasks and mappings are of the first event of the file."""
        return FileFrames(self._recording, self._recording._entries_of(self.number))


class Recording:
    """A file of `perf record`, or what `perf record -o -` writes to a pipe, all of whose bytes are in memory.

    `events` are its events, `order` is that of its numbers, and `is_closed` whether perf ended regularly;
    otherwise the frames extend to the end of the file. `end` is how reading ended: "done" or "cut header"."""

    data: memoryview
    order: int
    is_closed: bool
    events: list[Event]
    end: str

    def __init__(self, data: Any) -> None:
        """Takes the bytes of the file, which are not copied. Raises RefusedFile if it is refused."""
        self.data = _bytes_view(data)
        self._bytes, self._file = (_address(self.data), len(self.data)), _File()
        self._accept(_library.ped_file_open(*self._bytes, self._file))
        counts = events, parts, ids = self._file.events, self._file.events + 3, self._file.ids
        # a pointer may not be null
        self._events, rooms = (_FileEvent * max(events, 1))(), [ctypes.create_string_buffer(16 * max(it, 1))
                                                                for it in counts[1:]]
        self._ids = rooms[1]
        self._accept(_library.ped_file_events(*self._bytes, self._events, events, rooms[0], parts, self._ids, ids))
        names = ctypes.create_string_buffer(32 * max(events, 1))
        self._accept(_library.ped_file_names(*self._bytes, self._events, events, self._ids, ids, names, events))
        self.order, self.is_closed = self._file.order, bool(self._file.is_closed)
        self.events = [self._event(number, event) for number, event in enumerate(self._events[:events])]
        self._entries, how, self._taken = self._read_entries()
        self.end = ENDS[how]

    def __repr__(self) -> str:
        return f"<Recording: {len(self.events)} events, {len(self._entries) // _ENTRY.size} frames>"

    def frames(self, order: str = "time") -> FileFrames:
        """Returns all frames, in order of "time" or in that of the "file". Frames without a time come first, and
        frames of the same time are in the order of the file."""
        if order not in ("time", "file"):
            raise Error('the order is "time" or "file"')
        return FileFrames(self, self._by_time if order == "time" else self._entries)

    @functools.cached_property
    def _by_time(self) -> bytearray:
        entries = bytearray(self._entries)
        _library.ped_file_sort(_address(memoryview(entries)), len(entries) // _ENTRY.size)
        return entries

    def feature(self, number: int) -> memoryview | None:
        """Returns the bytes of a feature, by the number that perf gives it (`HEADER_*` of its `util/header.h`), or None
        if the file does not have it. Raises RefusedFile if it ends beyond the file."""
        if not 0 <= number < 256:
            raise Error("the number of a feature is below 256")
        place = (ctypes.c_uint64 * 2)()
        found = _library.ped_file_feature(*self._bytes, number, place)
        if found == _NO_FEATURE:
            return None
        self._accept(found)
        return self.data[place[0]:place[0] + place[1]]

    @property
    def hostname(self) -> str | None:
        """The name of the machine on which was recorded."""
        return self._text(3)

    @property
    def os_release(self) -> str | None:
        """The release of the kernel that ran there."""
        return self._text(4)

    @property
    def command_line(self) -> list[str] | None:
        """The words of the command that recorded, of which the first is the path of perf."""
        found = self.feature(11)
        if found is None:
            return None
        count, left = self._number(found), found[4:]
        words = []
        for _ in range(count):
            word, left = self._first_text(left)
            words.append(word)
        return words

    def _text(self, feature: int) -> str | None:
        found = self.feature(feature)
        return None if found is None else self._first_text(found)[0]

    def _number(self, data: memoryview) -> int:
        if len(data) < 4:
            raise RefusedFile("Short", _SHORT)
        return int.from_bytes(data[:4], ("little", "big")[self.order])

    def _first_text(self, data: memoryview) -> tuple[str, memoryview]:
        """Returns the text at the front, before a zero, and the bytes after it. Its length comes first."""
        end = 4 + self._number(data)
        if len(data) < end:
            raise RefusedFile("Short", _SHORT)
        return bytes(data[4:end]).partition(b"\0")[0].decode(errors="backslashreplace"), data[end:]

    @staticmethod
    def _accept(refusal: int) -> None:
        if refusal:
            raise RefusedFile(*_FILE_REFUSALS[refusal])

    def _event(self, number: int, event: _FileEvent) -> Event:
        ids = array("Q", self.data[event.ids_at:event.ids_at + 8 * event.ids].tobytes())
        if (self.order == BIG) != (sys.byteorder == "big"):
            ids.byteswap()
        name = ctypes.create_string_buffer(4 * event.name.size + 64)  # four for a byte of it, or two numbers
        length = _library.ped_event_name(ctypes.addressof(event), *self._bytes, name, len(name))
        return Event(self, number, name.raw[:length].decode("ascii"), Config.from_buffer_copy(event.config), event.type,
                     event.event, tuple(ids))

    def _read_entries(self) -> tuple[bytearray, int, int]:
        """Returns the entries of all frames in the order of the file, how that ended, and where."""
        entries, at, chunk = bytearray(), ctypes.c_uint64(), ctypes.create_string_buffer(_ENTRY.size * 1024)
        first = ctypes.addressof(chunk)
        # values of ctypes are passed as they are, by a function without types of its own, in half the time
        places = [ctypes.c_void_p(it) for it in range(first, first + len(chunk), _ENTRY.size)]
        size, (address, length) = ctypes.c_size_t, self._bytes
        call = functools.partial(_library["ped_file_next"], ctypes.byref(self._file), ctypes.c_void_p(address),
                                 size(length), self._events, size(self._file.events), self._ids, size(self._file.ids),
                                 ctypes.byref(at))
        how = 0
        while how == 0:
            count = 0
            for how in map(call, places):
                if how:
                    break
                count += 1
            entries += memoryview(chunk)[:_ENTRY.size * count]
        if how > 2:
            raise Error("the bytes of the file have changed")
        return entries, how, at.value or self._file.frames.at

    def _entries_of(self, event: int) -> bytearray:
        size, entries = _ENTRY.size, self._by_time
        return bytearray().join(entries[size * index:size * (index + 1)] for index, (_, _, number, owner, _)
                                in enumerate(_ENTRY.iter_unpack(entries)) if (number, owner) == (event, _EVENT))

    def _read(self, entries: bytearray, first: int, count: int, rows: bytearray) -> None:
        """Reads the frames of some entries to the front of `rows`."""
        _library.ped_file_read(self._file, *self._bytes, self._events, self._file.events,
                               _address(memoryview(entries)) + _ENTRY.size * first, count,
                               _address(memoryview(rows)), count)
        owners = memoryview(entries).cast("I")[8 * first + 6:8 * (first + count):8].tolist()
        for index in itertools.compress(range(count), owners):
            at = _ENTRY.unpack_from(entries, _ENTRY.size * (first + index))[1]
            _ROW.pack_into(rows, _ROW.size * index, *self._row_of_no_event(at, owners[index]))

    def _row_of_no_event(self, at: int, owner: int) -> list[int]:
        """Returns the flat frame of a frame without an event. One of perf itself has its body as a span."""
        type, misc, size = struct.unpack_from(("<IHH", ">IHH")[self.order], self.data, at)
        end = self._file.frames.at + self._file.frames.size
        payload = _payload_length(self.data[at + 8:at + size], type, self.order)
        refusal = 2 if size < 8 else 1 if at + size + payload > end else 3 if owner != _PERF else 0
        span = [0, 0] if refusal else [8, size - 8]
        return [type, misc, size, 0, refusal, 1 if refusal == 2 else 0, *[0] * 32, *span, *[0] * 14]


def _payload_length(body: memoryview, type: int, order: int) -> int:
    """Returns how many bytes that are no frames a frame announces: AUXTRACE and TRACING_DATA do."""
    width = {71: 8, 66: 4}.get(type, 0)
    number = int.from_bytes(body[:width], ("little", "big")[order]) if len(body) >= width else 0
    return number + -number % 8 if width == 4 else number


def open(path: str | os.PathLike[str]) -> Recording:
    """Opens a file that `perf record` wrote, also by way of a pipe, by mapping it. It must not change while it is in use.

    Raises RefusedFile if it is refused, and OSError if it cannot be read. `Recording` takes bytes in memory."""
    with builtins.open(path, "rb") as file:
        try:
            data: Any = mmap.mmap(file.fileno(), 0, access=mmap.ACCESS_READ)
        except (ValueError, OSError):  # it is empty, or cannot be mapped
            data = file.read()
    return Recording(data)
