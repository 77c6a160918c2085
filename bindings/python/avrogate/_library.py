"""The calls of libavrogate, its numbers, and the errors that they become. avrogate.h says what each asks and tells."""
import ctypes
import os
from enum import IntEnum


class Status(IntEnum):
    """What a call comes to."""

    OK = 0
    ROOM_TOO_SMALL = 1
    MISMATCH = 2
    MALFORMED = 3
    OUTPUT_TOO_LARGE = 4
    PAYLOAD_TOO_LARGE = 5
    NO_MEMORY = 6
    CLOSED = 7
    BAD_WRITER = 8
    BAD_READER = 9
    PROGRAM_TOO_LARGE = 10
    CANNOT_READ = 11
    BAD_ENVELOPE = 12
    OTHER_WRITER = 13
    OUT_OF_RANGE = 14


class MismatchKind(IntEnum):
    """Why the reader has no place for a datum of the writer's."""

    NO_MATCH = 1
    NO_BRANCH = 2
    NO_SYMBOL = 3
    NO_DEFAULT = 4
    BYTES_NOT_TEXT = 5


class MalformedKind(IntEnum):
    """What is wrong with a payload that is no datum of the writer's schema."""

    BAD_NUMBER = 1
    BAD_BOOLEAN = 2
    BAD_LENGTH = 3
    BAD_TEXT = 4
    BAD_ENUM = 5
    BAD_BRANCH = 6
    BAD_BLOCK = 7
    TOO_DEEP = 8
    TOO_MANY = 9
    TRUNCATED = 10
    TRAILING = 11


class Fault(IntEnum):
    """The first fault of a text that is no schema."""

    SCHEMA_TOO_LARGE = 1
    SCHEMA_NOT_JSON = 2
    SCHEMA_BAD_NUMBER = 3
    SCHEMA_UNKNOWN = 4
    SCHEMA_OUT_OF_PROFILE = 5
    SCHEMA_BAD_NAME = 6
    SCHEMA_REDEFINED = 7
    SCHEMA_BAD_UNION = 8
    SCHEMA_BAD_SYMBOLS = 9
    SCHEMA_BAD_DEFAULT = 10
    SCHEMA_NOT_UTF8 = 12


class Held(ctypes.Structure):
    """A transcoder, as the library has it."""

    _fields_ = [("held", ctypes.c_void_p), ("is_open", ctypes.c_bool)]


class Report(ctypes.Structure):
    """What is reported of a payload or a message."""

    _fields_ = [
        ("status", ctypes.c_uint32),
        ("kind", ctypes.c_uint32),
        ("length", ctypes.c_size_t),
        ("offset", ctypes.c_size_t),
        ("writer_node", ctypes.c_size_t),
        ("reader_node", ctypes.c_size_t),
        ("writer_id", ctypes.c_uint32),
    ]


class Item(ctypes.Structure):
    """An item of a batch."""

    _fields_ = [
        ("payload_offset", ctypes.c_size_t),
        ("payload_length", ctypes.c_size_t),
        ("output_offset", ctypes.c_size_t),
        ("report", Report),
    ]


def _load() -> ctypes.CDLL:
    library = ctypes.CDLL(os.environ.get("AVROGATE_LIBRARY", "libavrogate.so"))
    held, report, fault = ctypes.POINTER(Held), ctypes.POINTER(Report), ctypes.POINTER(ctypes.c_uint32)
    # (a `bytes` goes as char *, and so does every room)
    sized = [ctypes.c_char_p, ctypes.c_size_t]
    room = [ctypes.c_void_p, ctypes.c_size_t]
    number = ctypes.c_uint32
    for name, result, words in (
        ("open", number, [held, *sized, *sized, fault]),
        ("close", None, [held]),
        ("transcode", number, [held, *sized, *room, report]),
        ("transcode_message", number, [held, number, number, *sized, *room, report]),
        ("transcode_batch", number, [held, *sized, *room, ctypes.POINTER(Item), ctypes.c_size_t]),
        ("can_read", number, [*sized, *sized, fault]),
        ("status_text", ctypes.c_size_t, [number, *room]),
        ("version", number, []),
    ):
        call = getattr(library, "avrogate_" + name)
        call.restype, call.argtypes = result, words
    return library


LIBRARY = _load()


def words_of(status: int) -> str:
    """Returns the library's words for a status."""
    room = ctypes.create_string_buffer(64)
    LIBRARY.avrogate_status_text(status, room, len(room))
    return room.value.decode()


def library_version() -> str:
    """Returns the version of the library that was loaded."""
    number = LIBRARY.avrogate_version()
    return "%d.%d.%d" % (number // 10000, number // 100 % 100, number % 100)


class AvrogateError(Exception):
    """Why a call has no answer. `status` says which kind of reason it is."""

    def __init__(self, status: int, more: str = "") -> None:
        self.status = Status(status)
        super().__init__(words_of(status) + (": " + more if more else ""))


class BadSchema(AvrogateError):
    """A text is no schema: the writer's or the reader's, by `status`, with its first `fault`."""

    def __init__(self, status: int, fault: int) -> None:
        self.fault = Fault(fault)
        super().__init__(status, self.fault.name)


class Malformed(AvrogateError):
    """The payload is no datum of the writer's schema: its first fault, of this `kind`, at this `offset`."""

    def __init__(self, report: Report) -> None:
        self.kind, self.offset = MalformedKind(report.kind), report.offset
        super().__init__(report.status, "%s at %d" % (self.kind.name, self.offset))


class Mismatch(AvrogateError):
    """The reader has no place for the datum, by these two types of the schemas."""

    def __init__(self, report: Report) -> None:
        self.kind = MismatchKind(report.kind)
        self.writer_node, self.reader_node = report.writer_node, report.reader_node
        super().__init__(report.status, "%s, types %d and %d" % (self.kind.name, self.writer_node, self.reader_node))


class BadEnvelope(AvrogateError):
    """The bytes are no message in the registry's wire format."""


class OtherWriter(AvrogateError):
    """The message has the id of another writer's schema, `writer_id`."""

    def __init__(self, report: Report) -> None:
        self.writer_id = report.writer_id
        super().__init__(report.status, str(self.writer_id))


class TooLarge(AvrogateError):
    """The payload, the output or the program of the pair passes a limit."""


class NoMemory(AvrogateError, MemoryError):
    """There was no memory for the call."""


class Closed(AvrogateError):
    """The transcoder has been closed."""


def error_of(report: Report) -> AvrogateError:
    """Returns the error that a report stands for."""
    by_report = {Status.MALFORMED: Malformed, Status.MISMATCH: Mismatch, Status.OTHER_WRITER: OtherWriter}
    if report.status in by_report:
        return by_report[Status(report.status)](report)
    return error_of_status(report.status)


def error_of_status(status: int, fault: int = 0) -> AvrogateError:
    """Returns the error that a status stands for, with the fault of a text."""
    if status in (Status.BAD_WRITER, Status.BAD_READER):
        return BadSchema(status, fault)
    by_status = {Status.NO_MEMORY: NoMemory, Status.CLOSED: Closed, Status.BAD_ENVELOPE: BadEnvelope}
    too_large = (Status.OUTPUT_TOO_LARGE, Status.PAYLOAD_TOO_LARGE, Status.PROGRAM_TOO_LARGE)
    by_status.update({it: TooLarge for it in too_large})
    return by_status.get(Status(status), AvrogateError)(status)
