/* avrogate.h: Avro messages, rewritten from their writer's schema into a reader's.
 *
 *     avrogate_transcoder transcoder = AVROGATE_TRANSCODER_INIT;
 *     uint32_t fault;
 *     if (avrogate_open(&transcoder, writer, writer_length, reader, reader_length, &fault) == AVROGATE_OK) {
 *         avrogate_report report;
 *         avrogate_transcode(&transcoder, payload, payload_length, room, room_length, &report);
 *     }
 *     avrogate_close(&transcoder);
 *
 * A transcoder holds the program of one pair of schemas, and the memory that its calls use again: make as many as there
 * are pairs. What each call tells is proved of the code that it calls, for callers that keep these conditions, which
 * nothing checks:
 *
 *  - A transcoder is first made by its holder, as AVROGATE_TRANSCODER_INIT or of bytes that are all 0, and from then on
 *    only these functions write it. It is not copied, nor forgotten, while it is open; it may be moved by whoever alone
 *    uses it. A closed one may be closed again.
 *  - Threads: one call at a time uses a transcoder. Another thread may use it next where the holder orders the two
 *    calls, as by a lock or by joining a thread. Calls on different transcoders, and those that take none, need no order.
 *  - A pointer with a length leads to so many bytes (or items), which nothing else writes during the call. Where the
 *    length is 0 it may be NULL. No length in bytes is above PTRDIFF_MAX. No other pointer is NULL.
 *  - What a call writes (transcoder, room, report, items, fault) overlaps nothing else that it is passed. So a payload
 *    is not rewritten in its own place.
 *  - malloc, realloc and free come from one allocator, which aligns a block to each power of two up to 16 that divides
 *    its size. No call is made from a signal handler, nor in the forked child of a process with threads.
 *  - The stack has room for a call: 256 KiB for avrogate_open and avrogate_can_read, 512 KiB for the others.
 *    (Measured with what nests deepest: no proof speaks of the stack. A thread of musl has 128 KiB unless it is told
 *    otherwise.)
 */
#ifndef AVROGATE_H
#define AVROGATE_H

#include <stdbool.h>
#include <stddef.h>
#include <stdint.h>

#ifdef __cplusplus
extern "C" {
#endif

/* The version of this header. avrogate_version tells that of the library: major * 10000 + minor * 100 + patch. */
#define AVROGATE_VERSION_MAJOR 0
#define AVROGATE_VERSION_MINOR 1
#define AVROGATE_VERSION_PATCH 0
#define AVROGATE_VERSION \
    (AVROGATE_VERSION_MAJOR * 10000 + AVROGATE_VERSION_MINOR * 100 + AVROGATE_VERSION_PATCH)

/* The limits, in bytes: of a schema's text, of a payload, of an output without its envelope. */
#define AVROGATE_MOST_TEXT 262144
#define AVROGATE_MOST_PAYLOAD 16777216
#define AVROGATE_MOST_OUTPUT 67108864

/* What comes before the payload in a message: a byte 0, and the id of the writer's schema in four, highest first. */
#define AVROGATE_ENVELOPE_LENGTH 5

/* What a call comes to. */
typedef enum avrogate_status {
    AVROGATE_OK = 0,
    AVROGATE_ROOM_TOO_SMALL = 1,     /* report.length is the length that the output needs */
    AVROGATE_MISMATCH = 2,           /* report.kind is an avrogate_mismatch; report.writer_node, report.reader_node */
    AVROGATE_MALFORMED = 3,          /* report.kind is an avrogate_malformed; report.offset, in the payload */
    AVROGATE_OUTPUT_TOO_LARGE = 4,   /* the output would have more than AVROGATE_MOST_OUTPUT bytes */
    AVROGATE_PAYLOAD_TOO_LARGE = 5,  /* the payload has more than AVROGATE_MOST_PAYLOAD bytes */
    AVROGATE_NO_MEMORY = 6,          /* the same call may be made again */
    AVROGATE_CLOSED = 7,             /* the transcoder is open on no pair */
    AVROGATE_BAD_WRITER = 8,         /* *fault is an avrogate_fault of the writer's text */
    AVROGATE_BAD_READER = 9,         /* *fault is an avrogate_fault of the reader's text */
    AVROGATE_PROGRAM_TOO_LARGE = 10, /* the program of the pair would pass a limit */
    AVROGATE_CANNOT_READ = 11,       /* the reader cannot read all data of the writer */
    AVROGATE_BAD_ENVELOPE = 12,      /* report.kind is an avrogate_envelope: the bytes are no message */
    AVROGATE_OTHER_WRITER = 13,      /* report.writer_id is the id that the message has, which is not the one given */
    AVROGATE_OUT_OF_RANGE = 14       /* the item's payload does not lie within the buffer */
} avrogate_status;

/* Why the reader has no place for a datum of the writer's. */
typedef enum avrogate_mismatch {
    AVROGATE_NO_MATCH = 1,      /* the types do not match */
    AVROGATE_NO_BRANCH = 2,     /* no branch of the reader's union matches */
    AVROGATE_NO_SYMBOL = 3,     /* the reader lacks the symbol, and has no default for it */
    AVROGATE_NO_DEFAULT = 4,    /* the reader has a field that the writer lacks, and no default for it */
    AVROGATE_BYTES_NOT_TEXT = 5 /* bytes that the reader has as a string are no UTF-8 */
} avrogate_mismatch;

/* What is wrong with a payload that is no datum of the writer's schema. */
typedef enum avrogate_malformed {
    AVROGATE_BAD_NUMBER = 1,
    AVROGATE_BAD_BOOLEAN = 2,
    AVROGATE_BAD_LENGTH = 3,
    AVROGATE_BAD_TEXT = 4,
    AVROGATE_BAD_ENUM = 5,
    AVROGATE_BAD_BRANCH = 6,
    AVROGATE_BAD_BLOCK = 7,
    AVROGATE_TOO_DEEP = 8,
    AVROGATE_TOO_MANY = 9,
    AVROGATE_TRUNCATED = 10,
    AVROGATE_TRAILING = 11
} avrogate_malformed;

/* Why bytes are no message. */
typedef enum avrogate_envelope {
    AVROGATE_SHORT_ENVELOPE = 1, /* there are fewer than AVROGATE_ENVELOPE_LENGTH */
    AVROGATE_BAD_MAGIC = 2       /* the first byte is not 0 */
} avrogate_envelope;

/* The first fault of a text that is no schema. */
typedef enum avrogate_fault {
    AVROGATE_SCHEMA_TOO_LARGE = 1,
    AVROGATE_SCHEMA_NOT_JSON = 2,
    AVROGATE_SCHEMA_BAD_NUMBER = 3,
    AVROGATE_SCHEMA_UNKNOWN = 4,
    AVROGATE_SCHEMA_OUT_OF_PROFILE = 5,
    AVROGATE_SCHEMA_BAD_NAME = 6,
    AVROGATE_SCHEMA_REDEFINED = 7,
    AVROGATE_SCHEMA_BAD_UNION = 8,
    AVROGATE_SCHEMA_BAD_SYMBOLS = 9,
    AVROGATE_SCHEMA_BAD_DEFAULT = 10,
    AVROGATE_SCHEMA_NOT_UTF8 = 12
} avrogate_fault;

/* A pair of schemas that is open for transcoding, or none. Its members are the library's own. */
typedef struct avrogate_transcoder {
    void *held;
    bool is_open;
} avrogate_transcoder;

#define AVROGATE_TRANSCODER_INIT {0, false}

/* What is reported of a payload or a message. A part that the status does not speak of is 0. */
typedef struct avrogate_report {
    uint32_t status;    /* an avrogate_status */
    uint32_t kind;      /* why, for some statuses */
    size_t length;      /* how long the output is */
    size_t offset;      /* where in the payload its first fault is */
    size_t writer_node; /* numbers of types, in the order in which they appear in the texts, from 0 */
    size_t reader_node;
    uint32_t writer_id; /* the id of another writer */
} avrogate_report;

/* An item of a batch: its caller writes where the payload lies, and the call the rest. */
typedef struct avrogate_item {
    size_t payload_offset;
    size_t payload_length;
    size_t output_offset;
    avrogate_report report;
} avrogate_item;

/* Opens a transcoder on the pair that two schemas' texts declare, and first closes it. It is open just where this tells
 * AVROGATE_OK. Else: BAD_WRITER, BAD_READER, PROGRAM_TOO_LARGE, NO_MEMORY. *fault is the fault of the text that is told
 * to be bad, and else 0. */
uint32_t avrogate_open(avrogate_transcoder *transcoder,
                       const char *writer, size_t writer_length,
                       const char *reader, size_t reader_length,
                       uint32_t *fault);

/* Closes a transcoder, and gives its memory back. */
void avrogate_close(avrogate_transcoder *transcoder);

/* Writes to the room's front the reader's encoding of the datum that the payload spells by the writer's schema, where
 * the room has place for all of it, and what is reported to *report. Returns report->status: OK, ROOM_TOO_SMALL,
 * MISMATCH, MALFORMED, OUTPUT_TOO_LARGE, PAYLOAD_TOO_LARGE, NO_MEMORY, CLOSED. The transcoder stays open on its pair
 * whatever is told. What the room holds behind the output, or where there is none, is not said. */
uint32_t avrogate_transcode(avrogate_transcoder *transcoder,
                            const uint8_t *payload, size_t payload_length,
                            uint8_t *room, size_t room_length,
                            avrogate_report *report);

/* The same of a message in the wire format of Confluent's registry. It has to have the writer's id that is given; the
 * output is a message with the reader's. Lengths count the envelopes, and offsets do not. Besides what
 * avrogate_transcode tells: BAD_ENVELOPE, OTHER_WRITER. */
uint32_t avrogate_transcode_message(avrogate_transcoder *transcoder,
                                    uint32_t writer_id, uint32_t reader_id,
                                    const uint8_t *message, size_t message_length,
                                    uint8_t *room, size_t room_length,
                                    avrogate_report *report);

/* The same of many payloads that lie in one buffer. Outputs lie in the room one after another: items[i].output_offset
 * is where that of item i begins, or would, and items[i].report is what avrogate_transcode reports with the room from
 * there on. An output that does not fit takes no place, and a later one may: report.length tells how much room it needs.
 * An item whose payload does not lie within the buffer is told OUT_OF_RANGE. Returns OK, or CLOSED, and then the items
 * are as they were. */
uint32_t avrogate_transcode_batch(avrogate_transcoder *transcoder,
                                  const uint8_t *payloads, size_t payloads_length,
                                  uint8_t *room, size_t room_length,
                                  avrogate_item *items, size_t item_count);

/* Whether the reader of the second text can read all data of the writer of the first, but for bytes that are no UTF-8
 * where the reader has a string: OK or CANNOT_READ. Else: BAD_WRITER, BAD_READER, NO_MEMORY, and *fault as of
 * avrogate_open. */
uint32_t avrogate_can_read(const char *writer, size_t writer_length,
                           const char *reader, size_t reader_length,
                           uint32_t *fault);

/* Writes the words of a status, in English, and a byte 0 to the room's front, where both fit. Returns how long the
 * words are, without that byte: 0 where the number is no status's. 64 bytes are enough for any. */
size_t avrogate_status_text(uint32_t status, char *room, size_t room_length);

/* Returns the version of the library, as AVROGATE_VERSION is that of the header. */
uint32_t avrogate_version(void);

#ifdef __cplusplus
}
#endif

#endif
