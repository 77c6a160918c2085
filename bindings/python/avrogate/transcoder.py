"""Transcoders of one pair of schemas each."""
import ctypes
import threading
from dataclasses import dataclass
from types import TracebackType
from typing import List, Optional, Sequence, Type, Union

from ._library import LIBRARY, AvrogateError, Closed, Held, Item, Report, Status, error_of, error_of_status

Schema = Union[str, bytes]


def _bytes_of(text: Schema) -> bytes:
    return text.encode() if isinstance(text, str) else text


def can_read(writer: Schema, reader: Schema) -> bool:
    """Returns whether the reader can read all data of the writer, but for bytes that are no UTF-8."""
    writer, reader, fault = _bytes_of(writer), _bytes_of(reader), ctypes.c_uint32()
    status = LIBRARY.avrogate_can_read(writer, len(writer), reader, len(reader), ctypes.byref(fault))
    if status not in (Status.OK, Status.CANNOT_READ):
        raise error_of_status(status, fault.value)
    return status == Status.OK


@dataclass(frozen=True)
class BatchItem:
    """What became of one payload of a batch: its output, or why there is none."""

    output: Optional[bytes]
    error: Optional[AvrogateError]


class Transcoder:
    """The program of one pair of schemas.

    Threads may share one: its calls take turns. Close it, or let it be collected.
    """

    def __init__(self, writer: Schema, reader: Schema) -> None:
        self._held, self._lock = Held(), threading.Lock()
        self._room = ctypes.create_string_buffer(4096)
        writer, reader, fault = _bytes_of(writer), _bytes_of(reader), ctypes.c_uint32()
        status = LIBRARY.avrogate_open(
            ctypes.byref(self._held), writer, len(writer), reader, len(reader), ctypes.byref(fault)
        )
        if status != Status.OK:
            raise error_of_status(status, fault.value)

    def close(self) -> None:
        """Gives its memory back. A call after this raises Closed."""
        with self._lock:
            LIBRARY.avrogate_close(ctypes.byref(self._held))

    def __enter__(self) -> "Transcoder":
        return self

    def __exit__(
        self, kind: Optional[Type[BaseException]], error: Optional[BaseException], trace: Optional[TracebackType]
    ) -> None:
        self.close()

    def __del__(self) -> None:
        if hasattr(self, "_held"):
            LIBRARY.avrogate_close(ctypes.byref(self._held))

    def transcode(self, payload: bytes) -> bytes:
        """Returns the reader's encoding of a payload."""
        with self._lock:
            report = Report()
            call = LIBRARY.avrogate_transcode
            held, told = ctypes.byref(self._held), ctypes.byref(report)
            while call(held, payload, len(payload), self._room, len(self._room), told) == Status.ROOM_TOO_SMALL:
                self._room = ctypes.create_string_buffer(report.length)
            return self._output(report)

    def transcode_message(self, writer_id: int, reader_id: int, message: bytes) -> bytes:
        """Returns the reader's message of a writer's, in the wire format of Confluent's registry."""
        with self._lock:
            report = Report()
            call = LIBRARY.avrogate_transcode_message
            held, told, ids = ctypes.byref(self._held), ctypes.byref(report), (writer_id, reader_id)
            while call(held, *ids, message, len(message), self._room, len(self._room), told) == Status.ROOM_TOO_SMALL:
                self._room = ctypes.create_string_buffer(report.length)
            return self._output(report)

    def transcode_batch(self, payloads: Sequence[bytes]) -> List[BatchItem]:
        """Returns what becomes of each payload, by as few calls of the library as the room for their outputs allows."""
        found: List[Optional[BatchItem]] = [None] * len(payloads)
        waiting = list(range(len(payloads)))
        with self._lock:
            need = 2 * sum(map(len, payloads)) + 64
            while waiting:
                waiting, need = self._batch(payloads, waiting, need, found)
        return [item for item in found if item is not None]

    def _batch(
        self, payloads: Sequence[bytes], waiting: List[int], need: int, found: List[Optional[BatchItem]]
    ) -> "tuple[List[int], int]":
        """Finds what it can by one call. Returns which payloads still wait, and how much room they need."""
        buffer = b"".join([payloads[index] for index in waiting])
        items, at = (Item * len(waiting))(), 0
        for item, index in zip(items, waiting):
            item.payload_offset, item.payload_length = at, len(payloads[index])
            at += item.payload_length
        if len(self._room) < need:
            self._room = ctypes.create_string_buffer(need)
        status = LIBRARY.avrogate_transcode_batch(
            ctypes.byref(self._held), buffer, len(buffer), self._room, len(self._room), items, len(items)
        )
        if status != Status.OK:
            raise Closed(status)
        still, more = [], 0
        outputs = memoryview(self._room)
        for item, index in zip(items, waiting):
            report = item.report
            if report.status == Status.OK:
                output = outputs[item.output_offset : item.output_offset + report.length].tobytes()
                found[index] = BatchItem(output, None)
            elif report.status == Status.ROOM_TOO_SMALL:
                still.append(index)
                more += report.length
            else:
                found[index] = BatchItem(None, error_of(report))
        return still, more

    def _output(self, report: Report) -> bytes:
        if report.status != Status.OK:
            raise error_of(report)
        return ctypes.string_at(self._room, report.length)
