/* Transcodes one message so often, in this process, by libavrogate (`ours`, `batch` by 64 at a time) or by avro-c
 * (`avro`), and compares the last output. avro-c reads the payload through a resolved writer into a value, and writes
 * that again. Usage: embedding ours|batch|avro same|evolved COUNT; prints the nanoseconds of processor time that a
 * message took */
#include <avro.h>
#include <avrogate.h>

#include <stdio.h>
#include <stdlib.h>
#include <string.h>
#include <time.h>

#define FIELD(name, type) "{\"name\":\"" name "\",\"type\":\"" type "\"}"
#define RECORD(fields) "{\"type\":\"record\",\"name\":\"User\",\"fields\":[" fields "]}"
static const char writer[] = RECORD(FIELD("id", "long") "," FIELD("name", "string") "," FIELD(
    "email", "string") "," FIELD("age", "int") "," FIELD("active", "boolean") "," FIELD("seen", "long"));
/* the email is dropped, the age promoted, the fields in another order (avro-c fills no defaults, so none is added) */
static const char evolved[] = RECORD(FIELD("name", "string") "," FIELD("age", "long") "," FIELD("id", "long") "," FIELD(
    "active", "boolean") "," FIELD("seen", "long"));

enum { BATCH = 64 };

static size_t put_long(uint8_t *to, int64_t number) {
    uint64_t zig_zag = ((uint64_t)number << 1) ^ (uint64_t)(number >> 63);
    size_t length = 0;
    for (; zig_zag > 127; zig_zag >>= 7) to[length++] = (uint8_t)(zig_zag | 128);
    to[length++] = (uint8_t)zig_zag;
    return length;
}

static size_t put_text(uint8_t *to, const char *text) {
    size_t length = put_long(to, (int64_t)strlen(text));
    memcpy(to + length, text, strlen(text));
    return length + strlen(text);
}

static size_t put_message(uint8_t *to, bool is_evolved) {
    size_t length = 0;
    if (!is_evolved) length += put_long(to + length, 123456789);
    length += put_text(to + length, "Ada Lovelace");
    if (!is_evolved) length += put_text(to + length, "ada@example.org");
    length += put_long(to + length, 36);
    if (is_evolved) length += put_long(to + length, 123456789);
    to[length++] = 1;
    return length + put_long(to + length, 1700000000000);
}

static double now(void) {
    struct timespec time;
    clock_gettime(CLOCK_PROCESS_CPUTIME_ID, &time);
    return (double)time.tv_sec * 1e9 + (double)time.tv_nsec;
}

/* Transcodes a payload so often. Returns how long the output is, or 0 where there is none. */
static size_t by_call(avrogate_transcoder *t, const uint8_t *payload, size_t length, uint8_t *room, long count) {
    avrogate_report report = {0};
    for (; count > 0; count--) {
        if (avrogate_transcode(t, payload, length, room, 256, &report) != AVROGATE_OK) return 0;
    }
    return report.length;
}

static size_t by_batch(avrogate_transcoder *t, const uint8_t *payload, size_t length, uint8_t *room, long count) {
    static avrogate_item items[BATCH];
    static uint8_t payloads[BATCH * 256];
    size_t i;
    for (i = 0; i < BATCH; i++) {
        memcpy(payloads + i * length, payload, length);
        items[i].payload_offset = i * length;
        items[i].payload_length = length;
    }
    for (; count > 0; count -= BATCH) {
        if (avrogate_transcode_batch(t, payloads, BATCH * length, room, BATCH * 256, items, BATCH) != AVROGATE_OK)
            return 0;
    }
    memmove(room, room + items[BATCH - 1].output_offset, items[BATCH - 1].report.length);
    return items[BATCH - 1].report.status == AVROGATE_OK ? items[BATCH - 1].report.length : 0;
}

static size_t by_avro(const char *reader_text, const uint8_t *payload, size_t length, uint8_t *room, long count,
                      double *begin) {
    avro_schema_t w, r;
    avro_value_iface_t *resolver, *kind;
    avro_value_t value, view;
    avro_reader_t from = avro_reader_memory((const char *)payload, (int64_t)length);
    avro_writer_t to = avro_writer_memory((char *)room, 256);
    if (avro_schema_from_json_length(writer, strlen(writer), &w)) return 0;
    if (avro_schema_from_json_length(reader_text, strlen(reader_text), &r)) return 0;
    resolver = avro_resolved_writer_new(w, r);
    kind = avro_generic_class_from_schema(r);
    if (!resolver || !kind || avro_generic_value_new(kind, &value) || avro_resolved_writer_new_value(resolver, &view))
        return 0;
    avro_resolved_writer_set_dest(&view, &value);
    *begin = now();
    for (; count > 0; count--) {
        avro_reader_memory_set_source(from, (const char *)payload, (int64_t)length);
        avro_writer_reset(to);
        if (avro_value_read(from, &view) || avro_value_write(to, &value)) return 0;
    }
    return (size_t)avro_writer_tell(to);
}

int main(int argc, char **argv) {
    bool is_evolved;
    const char *reader;
    uint8_t payload[256], wanted[256];
    static uint8_t room[BATCH * 256];
    size_t length, wanted_length, told;
    double begin = 0, end;
    long count;
    if (argc != 4) return 2;
    is_evolved = !strcmp(argv[2], "evolved");
    reader = is_evolved ? evolved : writer;
    length = put_message(payload, false);
    wanted_length = put_message(wanted, is_evolved);
    count = atol(argv[3]);
    if (!strcmp(argv[1], "avro")) {
        told = by_avro(reader, payload, length, room, count, &begin);
        end = now();
    } else {
        avrogate_transcoder t = AVROGATE_TRANSCODER_INIT;
        uint32_t fault;
        if (avrogate_open(&t, writer, strlen(writer), reader, strlen(reader), &fault) != AVROGATE_OK) return 3;
        begin = now();
        told = (strcmp(argv[1], "ours") ? by_batch : by_call)(&t, payload, length, room, count);
        end = now();
        avrogate_close(&t);
    }
    if (told != wanted_length || memcmp(room, wanted, told)) return 4;
    printf("%.1f\n", (end - begin) / (double)count);
    return 0;
}
