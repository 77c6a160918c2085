"""Avro messages, rewritten from their writer's schema into a reader's.

    with Transcoder(writer, reader) as transcoder:
        output = transcoder.transcode(payload)

The library is found by the environment's AVROGATE_LIBRARY, or as libavrogate.so where the loader looks.
"""
from ._library import (
    AvrogateError,
    BadEnvelope,
    BadSchema,
    Closed,
    Fault,
    Malformed,
    MalformedKind,
    Mismatch,
    MismatchKind,
    NoMemory,
    OtherWriter,
    Status,
    TooLarge,
    library_version,
)
from .transcoder import BatchItem, Transcoder, can_read

__all__ = [
    "AvrogateError",
    "BadEnvelope",
    "BadSchema",
    "BatchItem",
    "Closed",
    "Fault",
    "Malformed",
    "MalformedKind",
    "Mismatch",
    "MismatchKind",
    "NoMemory",
    "OtherWriter",
    "Status",
    "TooLarge",
    "Transcoder",
    "can_read",
    "library_version",
]
