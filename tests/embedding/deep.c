/* What nests deepest: `one N`, `copied N` and `turned N` transcode a list of N records, of which each holds the next
 * one: of no other value, of two to themselves, and of two that are turned for the reader; `tree N` a tree of N records
 * to itself, of which each is the left part of the one before it; `sized N` a record of an array of such records, N of
 * them in one another, each array in a block with its size. `schema N` opens and compares N arrays in one
 * another, and `names N` a record of N records, of which each holds the one before it. Prints the statuses. */
#include <avrogate.h>

#include <stdio.h>
#include <stdlib.h>
#include <string.h>

static int transcode(const char *writer, const char *reader, const uint8_t *payload, size_t length) {
    avrogate_transcoder t = AVROGATE_TRANSCODER_INIT;
    uint32_t fault, opened = avrogate_open(&t, writer, strlen(writer), reader, strlen(reader), &fault), status;
    uint8_t *room = malloc(2 * length + 64);
    avrogate_report report;
    status = avrogate_transcode(&t, payload, length, room, 2 * length + 64, &report);
    printf("%u %u\n", (unsigned)opened, (unsigned)status);
    avrogate_close(&t);
    free(room);
    return opened || status;
}

#define RECORD(fields) "{\"type\":\"record\",\"name\":\"R\",\"fields\":[" fields "]}"
#define FIELD(name, type) "{\"name\":\"" name "\",\"type\":" type "}"
#define MAYBE "[\"null\",\"R\"]"

static const char one[] = RECORD(FIELD("next", MAYBE));
static const char one_more[] =
    RECORD(FIELD("next", "[\"R\",\"null\"]") ",{\"name\":\"more\",\"type\":\"int\",\"default\":1}");
static const char two[] = RECORD(FIELD("a", "\"long\"") "," FIELD("b", "\"string\"") "," FIELD("next", MAYBE));
static const char two_turned[] = RECORD(FIELD("next", MAYBE) "," FIELD("b", "\"string\"") "," FIELD("a", "\"long\""));
static const char tree[] = RECORD(FIELD("value", "\"long\"") "," FIELD("left", MAYBE) "," FIELD("right", MAYBE));

/* Transcodes a list of `depth` records, whose values are the bytes at `values`, or a tree where each record has a right
 * part as well, which is null. */
static int data(const char *writer, const char *reader, const char *values, size_t depth, bool is_tree) {
    size_t each = strlen(values), length = 0, at;
    uint8_t *payload = malloc(depth * (each + 2));
    int failed;
    for (at = 0; at < depth; at++) {
        memcpy(payload + length, values, each);
        length += each;
        payload[length++] = at + 1 < depth ? 2 : 0;
    }
    for (at = 0; is_tree && at < depth; at++) payload[length++] = 0;
    failed = transcode(writer, reader, payload, length);
    free(payload);
    return failed;
}

static const char held[] = RECORD(FIELD("r", "{\"type\":\"array\",\"items\":\"R\"}"));

/* Writes a number below 2^20, doubled, seven bits a byte, and returns how many bytes it has. */
static size_t number(uint8_t *to, size_t number) {
    size_t length = 0, rest = 2 * number;
    for (; rest > 127; rest >>= 7) to[length++] = (uint8_t)(rest & 127) | 128;
    to[length++] = (uint8_t)rest;
    return length;
}

/* Transcodes `depth` records in one another, each but the last the only item of the array of the one before it, in a
 * block with its size. */
static int sized(size_t depth) {
    size_t *lengths = malloc(depth * sizeof *lengths), length = 0, at;
    uint8_t *payload = malloc(8 * depth), spelled[8];
    int failed;
    lengths[0] = 1;
    for (at = 1; at < depth; at++) lengths[at] = 2 + number(spelled, lengths[at - 1]) + lengths[at - 1];
    for (at = depth - 1; at > 0; at--) {
        payload[length++] = 1;
        length += number(payload + length, lengths[at - 1]);
    }
    for (at = 0; at < depth; at++) payload[length++] = 0;
    failed = transcode(held, held, payload, length);
    free(payload);
    free(lengths);
    return failed;
}

static size_t arrays(char *text, size_t depth) {
    size_t length = 0, at;
    for (at = 0; at < depth; at++) length += (size_t)sprintf(text + length, "{\"type\":\"array\",\"items\":");
    length += (size_t)sprintf(text + length, "\"int\"");
    for (at = 0; at < depth; at++) text[length++] = '}';
    return length;
}

static size_t records(char *text, size_t depth) {
    size_t length = (size_t)sprintf(text, "{\"type\":\"record\",\"name\":\"R\",\"fields\":["), at;
    for (at = 0; at < depth; at++) {
        length += (size_t)sprintf(text + length,
                                  "%s{\"name\":\"f%u\",\"type\":{\"type\":\"record\",\"name\":\"T%u\",\"fields\":[",
                                  at ? "," : "", (unsigned)at, (unsigned)at);
        if (at) length += (size_t)sprintf(text + length, "{\"name\":\"x\",\"type\":\"T%u\"}", (unsigned)at - 1);
        length += (size_t)sprintf(text + length, "]}}");
    }
    return length + (size_t)sprintf(text + length, "]}");
}

static int schema(size_t (*write)(char *, size_t), size_t depth) {
    char *text = malloc(128 * depth + 128);
    size_t length = write(text, depth);
    avrogate_transcoder t = AVROGATE_TRANSCODER_INIT;
    uint32_t fault, opened, safe;
    opened = avrogate_open(&t, text, length, text, length, &fault);
    safe = avrogate_can_read(text, length, text, length, &fault);
    printf("%u %u\n", (unsigned)opened, (unsigned)safe);
    avrogate_close(&t);
    free(text);
    return opened || safe;
}

int main(int argc, char **argv) {
    const char *what = argc == 3 ? argv[1] : "";
    size_t depth = argc == 3 ? (size_t)atol(argv[2]) : 0;
    if (!strcmp(what, "one")) return data(one, one_more, "", depth, false);
    if (!strcmp(what, "copied")) return data(two, two, "\2\2a", depth, false);
    if (!strcmp(what, "turned")) return data(two, two_turned, "\2\2a", depth, false);
    if (!strcmp(what, "tree")) return data(tree, tree, "\2", depth, true);
    if (!strcmp(what, "sized")) return sized(depth);
    if (!strcmp(what, "schema")) return schema(arrays, depth);
    if (!strcmp(what, "names")) return schema(records, depth);
    return 2;
}
