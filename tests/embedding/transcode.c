/* Each call of the library, with each status that data can bring about. */
#include <avrogate.h>

#include <stdio.h>
#include <stdlib.h>
#include <string.h>

static const char writer[] = "{\"type\":\"record\",\"name\":\"T\",\"fields\":[{\"name\":\"a\",\"type\":\"long\"},"
                             "{\"name\":\"b\",\"type\":\"string\"}]}";
static const char reader[] =
    "{\"type\":\"record\",\"name\":\"T\",\"fields\":[{\"name\":\"b\",\"type\":[\"null\",\"string\"]},"
    "{\"name\":\"c\",\"type\":\"int\",\"default\":7}]}";
static const uint8_t message[] = {0, 0, 0, 1, 2, 0x36, 0x06, 'f', 'o', 'o'};
static const uint8_t *const payload = message + AVROGATE_ENVELOPE_LENGTH;

static void show(const avrogate_report *r, const uint8_t *room) {
    char words[64];
    size_t length = avrogate_status_text(r->status, words, sizeof words);
    printf("%u %s (%u) kind %u length %u offset %u nodes %u %u id %u", (unsigned)r->status, words, (unsigned)length,
           (unsigned)r->kind, (unsigned)r->length, (unsigned)r->offset, (unsigned)r->writer_node,
           (unsigned)r->reader_node, (unsigned)r->writer_id);
    if (r->status == AVROGATE_OK) {
        size_t i;
        printf(" bytes ");
        for (i = 0; i < r->length; i++) printf("%02x", (unsigned)room[i]);
    }
    printf("\n");
}

static void transcode(avrogate_transcoder *t, const uint8_t *bytes, size_t length, size_t room_length) {
    uint8_t room[64];
    avrogate_report report;
    uint32_t status = avrogate_transcode(t, bytes, length, room, room_length, &report);
    show(&report, room);
    if (status != report.status) printf("returned %u\n", (unsigned)status);
}

static void rewrite(avrogate_transcoder *t, uint32_t writer_id, const uint8_t *bytes, size_t length,
                    size_t room_length) {
    uint8_t room[64];
    avrogate_report report;
    uint32_t status = avrogate_transcode_message(t, writer_id, 0xfffffffe, bytes, length, room, room_length, &report);
    show(&report, room);
    if (status != report.status) printf("returned %u\n", (unsigned)status);
}

static void open_pair(avrogate_transcoder *t, const char *w, const char *r) {
    uint32_t fault = 99, status = avrogate_open(t, w, w ? strlen(w) : 0, r, r ? strlen(r) : 0, &fault);
    printf("open %u fault %u is %s\n", (unsigned)status, (unsigned)fault, t->is_open ? "open" : "closed");
}

static void batch(avrogate_transcoder *t) {
    static const uint8_t payloads[] = {0x36, 0x06, 'f', 'o', 'o', 0x36, 0x06, 'b', 'a', 'r'};
    static const size_t ranges[][2] = {{0, 5},          {0, 4},          {5, 5}, {5, 6},
                                       {(size_t)-1, 2}, {2, (size_t)-1}, {0, 5}, {10, 0}};
    avrogate_item items[8];
    uint8_t room[14];
    size_t i;
    memset(items, 0, sizeof items);
    for (i = 0; i < 8; i++) items[i].payload_offset = ranges[i][0], items[i].payload_length = ranges[i][1];
    printf("batch %u\n", (unsigned)avrogate_transcode_batch(t, payloads, sizeof payloads, room, sizeof room, items, 8));
    for (i = 0; i < 8; i++) {
        printf("at %u: ", (unsigned)items[i].output_offset);
        show(&items[i].report, room + items[i].output_offset);
    }
    printf("batch of none %u\n", (unsigned)avrogate_transcode_batch(t, NULL, 0, NULL, 0, NULL, 0));
}

int main(void) {
    avrogate_transcoder t = AVROGATE_TRANSCODER_INIT;
    uint8_t *large = calloc(AVROGATE_MOST_PAYLOAD + 1, 1);
    char words[] = "......";
    uint32_t fault;
    printf("version %u of %u\n", (unsigned)avrogate_version(), (unsigned)AVROGATE_VERSION);
    transcode(&t, payload, 5, 64);
    open_pair(&t, writer, "{");
    open_pair(&t, "\xff", reader);
    open_pair(&t, NULL, reader);
    printf("can read %u", (unsigned)avrogate_can_read(writer, strlen(writer), reader, strlen(reader), &fault));
    printf(" %u", (unsigned)avrogate_can_read(reader, strlen(reader), writer, strlen(writer), &fault));
    printf(" %u", (unsigned)avrogate_can_read(reader, strlen(reader), "[[]]", 4, &fault));
    printf(" fault %u\n", (unsigned)fault);
    open_pair(&t, writer, reader);
    transcode(&t, payload, 5, 64);
    transcode(&t, payload, 5, 6);
    transcode(&t, payload, 5, 5);
    transcode(&t, payload, 4, 64);
    transcode(&t, NULL, 0, 0);
    transcode(&t, payload, 5, 64);
    rewrite(&t, 258, message, 10, 64);
    rewrite(&t, 258, message, 10, 11);
    rewrite(&t, 258, message, 10, 10);
    rewrite(&t, 259, message, 10, 64);
    rewrite(&t, 258, message, 4, 64);
    rewrite(&t, 258, payload, 5, 64);
    rewrite(&t, 258, message, 9, 64);
    batch(&t);
    open_pair(&t, "\"bytes\"", "\"string\""); /* another pair, in the same holder */
    transcode(&t, (const uint8_t *)"\x02\xff", 2, 64);
    transcode(&t, (const uint8_t *)"\x02u", 2, 64);
    transcode(&t, large, AVROGATE_MOST_PAYLOAD + 1, 64);
    open_pair(&t, "\"float\"", reader);
    transcode(&t, payload, 5, 64);
    open_pair(&t, writer, reader);
    avrogate_close(&t);
    avrogate_close(&t);
    rewrite(&t, 258, message, 10, 64);
    printf("batch %u\n", (unsigned)avrogate_transcode_batch(&t, payload, 5, NULL, 0, NULL, 0));
    printf("words %u %u", (unsigned)avrogate_status_text(AVROGATE_OK, words, 4),
           (unsigned)avrogate_status_text(99, words, 4));
    printf(" %s", words);
    avrogate_status_text(AVROGATE_OK, words, 5);
    printf(" %s\n", words);
    free(large);
    return 0;
}
