"""For confluent-kafka: a deserializer by which a DeserializingConsumer has each message as the reader's schema has it.

    consumer = DeserializingConsumer({..., "value.deserializer": Upgrading(reader, reader_id, writer_of)})

`writer_of(id)` returns the text of an id's schema: of a registry's client, `client.get_schema(id).schema_str`.
"""
from typing import Any, Callable, Dict, Optional

from .transcoder import Schema, Transcoder
from ._library import BadEnvelope, Status

ENVELOPE = 5


class Upgrading:
    """Rewrites messages of whatever writers into messages of one reader's schema.

    With `then` it hands these on, as to an AvroDeserializer.
    """

    def __init__(
        self,
        reader: Schema,
        reader_id: int,
        writer_of: Callable[[int], Schema],
        then: Optional[Callable[[bytes, Any], Any]] = None,
    ) -> None:
        self.reader, self.reader_id, self.writer_of, self.then = reader, reader_id, writer_of, then
        self._transcoders: Dict[int, Transcoder] = {}

    def __call__(self, value: Optional[bytes], ctx: Any = None) -> Any:
        """Returns the reader's message of a message, or what `then` makes of it; None for None, a tombstone."""
        if value is None:
            return None
        if len(value) < ENVELOPE or value[0] != 0:
            raise BadEnvelope(Status.BAD_ENVELOPE)
        writer_id = int.from_bytes(value[1:ENVELOPE], "big")
        message = self._transcoder(writer_id).transcode_message(writer_id, self.reader_id, value)
        return message if self.then is None else self.then(message, ctx)

    def close(self) -> None:
        """Gives the memory of its transcoders back."""
        while self._transcoders:
            self._transcoders.popitem()[1].close()

    def _transcoder(self, writer_id: int) -> Transcoder:
        if writer_id not in self._transcoders:
            self._transcoders[writer_id] = Transcoder(self.writer_of(writer_id), self.reader)
        return self._transcoders[writer_id]
