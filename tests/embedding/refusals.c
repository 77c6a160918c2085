/* Refuses each allocation in turn (the linker wraps malloc, realloc and free): each call has the same answer or
 * AVROGATE_NO_MEMORY, a transcoder is open just where AVROGATE_OK was told, it works again when there is memory, and
 * nothing is left. Prints how many allocations there were. */
#include <avrogate.h>

#include <stdio.h>
#include <stdlib.h>
#include <string.h>

void *__real_malloc(size_t size);
void *__real_realloc(void *old, size_t size);
void __real_free(void *block);

static long before_refusal = -1, blocks = 0, refusals = 0;

static bool is_refused(void) { return before_refusal >= 0 && before_refusal-- == 0; }

void *__wrap_malloc(size_t size) {
    void *block = is_refused() ? NULL : __real_malloc(size);
    if (block)
        blocks++;
    else
        refusals++;
    return block;
}

void *__wrap_realloc(void *old, size_t size) {
    void *block = is_refused() ? NULL : __real_realloc(old, size);
    if (block && !old) blocks++;
    if (!block) refusals++;
    return block;
}

void __wrap_free(void *block) {
    if (block) blocks--;
    __real_free(block);
}

static const char writer[] =
    "{\"type\":\"record\",\"name\":\"T\",\"fields\":[{\"name\":\"a\",\"type\":{\"type\":\"array\",\"items\":\"long\"}},"
    "{\"name\":\"b\",\"type\":\"string\"},{\"name\":\"n\",\"type\":[\"null\",\"T\"]}]}";
static const char reader[] = "{\"type\":\"record\",\"name\":\"T\",\"fields\":[{\"name\":\"b\",\"type\":[\"null\","
                             "\"string\"]},{\"name\":\"n\",\"type\":[\"null\",\"T\"]},"
                             "{\"name\":\"c\",\"type\":\"int\",\"default\":7},{\"name\":\"a\",\"type\":{\"type\":"
                             "\"array\",\"items\":\"long\"}}]}";
static const uint8_t message[] = {0, 0, 0, 0, 1, 4, 2, 4, 0, 6, 'f', 'o', 'o', 2, 0, 0, 0};
static const uint8_t wanted[] = {0, 0, 0, 0, 2, 2, 6, 'f', 'o', 'o', 2, 2, 0, 0, 14, 0, 14, 4, 2, 4, 0};
static const char *wrong = NULL;

static void want(bool is_right, const char *what) {
    if (!is_right && !wrong) wrong = what;
}

/* Asks for one payload, whole and cut, as a payload, a message and a batch. */
static void ask(avrogate_transcoder *t) {
    const uint8_t *payload = message + AVROGATE_ENVELOPE_LENGTH;
    const size_t length = sizeof message - AVROGATE_ENVELOPE_LENGTH,
                 wanted_length = sizeof wanted - AVROGATE_ENVELOPE_LENGTH;
    uint8_t room[64];
    avrogate_report report;
    avrogate_item items[2];
    uint32_t status = avrogate_transcode(t, payload, length - 1, room, sizeof room, &report);
    want(status == AVROGATE_NO_MEMORY ||
             (status == AVROGATE_MALFORMED && report.kind == AVROGATE_TRUNCATED && report.offset == length - 1),
         "a payload that is cut");
    status = avrogate_transcode(t, payload, length, room, sizeof room, &report);
    want(status == AVROGATE_NO_MEMORY ||
             (status == AVROGATE_OK && report.length == wanted_length && !memcmp(room, wanted + 5, wanted_length)),
         "a payload");
    status = avrogate_transcode_message(t, 1, 2, message, sizeof message, room, sizeof room, &report);
    want(status == AVROGATE_NO_MEMORY ||
             (status == AVROGATE_OK && report.length == sizeof wanted && !memcmp(room, wanted, sizeof wanted)),
         "a message");
    memset(items, 0, sizeof items);
    items[0].payload_length = length - 1;
    items[1].payload_length = length;
    want(avrogate_transcode_batch(t, payload, length, room, sizeof room, items, 2) == AVROGATE_OK, "a batch");
    status = items[0].report.status;
    want(status == AVROGATE_NO_MEMORY || status == AVROGATE_MALFORMED, "a batch's payload that is cut");
    status = items[1].report.status;
    want(status == AVROGATE_NO_MEMORY ||
             (status == AVROGATE_OK && !memcmp(room + items[1].output_offset, wanted + 5, wanted_length)),
         "a batch's payload");
}

int main(void) {
    long at;
    for (at = 0; !wrong; at++) {
        avrogate_transcoder t = AVROGATE_TRANSCODER_INIT;
        uint32_t fault, status;
        bool is_over;
        refusals = 0;
        before_refusal = at;
        status = avrogate_open(&t, writer, strlen(writer), reader, strlen(reader), &fault);
        want(status == AVROGATE_OK || status == AVROGATE_NO_MEMORY, "the texts");
        want(fault == 0, "a fault");
        want(t.is_open == (status == AVROGATE_OK), "whether it is open");
        if (t.is_open) ask(&t);
        status = avrogate_can_read(writer, strlen(writer), reader, strlen(reader), &fault);
        want(status == AVROGATE_OK || status == AVROGATE_NO_MEMORY, "the safety");
        is_over = refusals == 0;
        before_refusal = -1;
        if (t.is_open) {
            avrogate_report report;
            uint8_t room[64];
            status = avrogate_transcode_message(&t, 1, 2, message, sizeof message, room, sizeof room, &report);
            want(status == AVROGATE_OK && !memcmp(room, wanted, sizeof wanted), "a message when there is memory again");
        }
        avrogate_close(&t);
        want(blocks == 0, "what is left");
        if (is_over) break;
    }
    if (wrong) {
        printf("wrong with allocation %ld refused: %s\n", at, wrong);
        return 1;
    }
    printf("%ld allocations were refused in turn\n", at);
    return at > 100 ? 0 : 1;
}
