/* The calls of avrogate.Native, by those of avrogate.h. */
#include <avrogate.h>
#include <jni.h>
#include <stdlib.h>

enum { REPORT = 7, ITEM = 10 };

/* A transcoder, and the room that its calls use again. */
typedef struct {
    avrogate_transcoder transcoder;
    uint8_t *room;
    size_t room_length;
} held;

static void write_report(jlong *numbers, const avrogate_report *report) {
    numbers[0] = report->status;
    numbers[1] = report->kind;
    numbers[2] = (jlong)report->length;
    numbers[3] = (jlong)report->offset;
    numbers[4] = (jlong)report->writer_node;
    numbers[5] = (jlong)report->reader_node;
    numbers[6] = report->writer_id;
}

static void tell(JNIEnv *env, jlongArray told, const avrogate_report *report) {
    jlong numbers[REPORT];
    write_report(numbers, report);
    (*env)->SetLongArrayRegion(env, told, 0, REPORT, numbers);
}

/* Makes the room longer. False where there is no memory, and then it is as it was. */
static bool grow(held *it, size_t length) {
    uint8_t *room = malloc(length);
    if (!room) return false;
    free(it->room);
    it->room = room;
    it->room_length = length;
    return true;
}

JNIEXPORT jlong JNICALL Java_avrogate_Native_open(JNIEnv *env, jclass self, jbyteArray writer, jbyteArray reader,
                                                  jlongArray told) {
    avrogate_report report = {AVROGATE_NO_MEMORY, 0, 0, 0, 0, 0, 0};
    held *it = calloc(1, sizeof *it);
    jbyte *w = (*env)->GetByteArrayElements(env, writer, NULL), *r = (*env)->GetByteArrayElements(env, reader, NULL);
    (void)self;
    if (it && w && r && grow(it, 4096)) {
        report.status = avrogate_open(&it->transcoder, (const char *)w, (size_t)(*env)->GetArrayLength(env, writer),
                                      (const char *)r, (size_t)(*env)->GetArrayLength(env, reader), &report.kind);
    }
    if (w) (*env)->ReleaseByteArrayElements(env, writer, w, JNI_ABORT);
    if (r) (*env)->ReleaseByteArrayElements(env, reader, r, JNI_ABORT);
    if ((*env)->ExceptionCheck(env)) report.status = AVROGATE_NO_MEMORY;
    if (report.status != AVROGATE_OK && it) {
        avrogate_close(&it->transcoder);
        free(it->room);
        free(it);
        it = NULL;
    }
    if (!(*env)->ExceptionCheck(env)) tell(env, told, &report);
    return (jlong)(intptr_t)it;
}

JNIEXPORT void JNICALL Java_avrogate_Native_close(JNIEnv *env, jclass self, jlong at) {
    held *it = (held *)(intptr_t)at;
    (void)env;
    (void)self;
    avrogate_close(&it->transcoder);
    free(it->room);
    free(it);
}

/* Transcodes a payload, or a message where there are ids, into the room, which grows where it is too small. */
static jbyteArray transcode(JNIEnv *env, held *it, const uint32_t *ids, jbyteArray payload, jlongArray told) {
    avrogate_report report;
    size_t length = (size_t)(*env)->GetArrayLength(env, payload);
    jbyteArray output = NULL;
    bool again;
    do {
        uint8_t *bytes = (*env)->GetPrimitiveArrayCritical(env, payload, NULL);
        if (!bytes) return NULL;
        if (ids) {
            avrogate_transcode_message(&it->transcoder, ids[0], ids[1], bytes, length, it->room, it->room_length,
                                       &report);
        } else {
            avrogate_transcode(&it->transcoder, bytes, length, it->room, it->room_length, &report);
        }
        (*env)->ReleasePrimitiveArrayCritical(env, payload, bytes, JNI_ABORT);
        again = report.status == AVROGATE_ROOM_TOO_SMALL && grow(it, report.length);
    } while (again);
    if (report.status == AVROGATE_ROOM_TOO_SMALL) report.status = AVROGATE_NO_MEMORY;
    if (report.status == AVROGATE_OK) {
        output = (*env)->NewByteArray(env, (jsize)report.length);
        if (!output) return NULL;
        (*env)->SetByteArrayRegion(env, output, 0, (jsize)report.length, (const jbyte *)it->room);
    }
    tell(env, told, &report);
    return output;
}

JNIEXPORT jbyteArray JNICALL Java_avrogate_Native_transcode(JNIEnv *env, jclass self, jlong at, jbyteArray payload,
                                                            jlongArray told) {
    (void)self;
    return transcode(env, (held *)(intptr_t)at, NULL, payload, told);
}

JNIEXPORT jbyteArray JNICALL Java_avrogate_Native_transcodeMessage(JNIEnv *env, jclass self, jlong at, jint writer_id,
                                                                   jint reader_id, jbyteArray message,
                                                                   jlongArray told) {
    uint32_t ids[2] = {(uint32_t)writer_id, (uint32_t)reader_id};
    (void)self;
    return transcode(env, (held *)(intptr_t)at, ids, message, told);
}

JNIEXPORT jint JNICALL Java_avrogate_Native_transcodeBatch(JNIEnv *env, jclass self, jlong at, jbyteArray payloads,
                                                           jbyteArray room, jlongArray told) {
    held *it = (held *)(intptr_t)at;
    size_t count = (size_t)(*env)->GetArrayLength(env, told) / ITEM;
    jsize payloads_length = (*env)->GetArrayLength(env, payloads), room_length = (*env)->GetArrayLength(env, room);
    avrogate_item *items = calloc(count ? count : 1, sizeof *items);
    jlong *numbers = (*env)->GetLongArrayElements(env, told, NULL);
    uint32_t status = AVROGATE_NO_MEMORY;
    (void)self;
    if (items && numbers) {
        for (size_t i = 0; i < count; i++) {
            items[i].payload_offset = (size_t)numbers[ITEM * i];
            items[i].payload_length = (size_t)numbers[ITEM * i + 1];
        }
        uint8_t *from = (*env)->GetPrimitiveArrayCritical(env, payloads, NULL);
        uint8_t *to = from ? (*env)->GetPrimitiveArrayCritical(env, room, NULL) : NULL;
        if (to) {
            status = avrogate_transcode_batch(&it->transcoder, from, (size_t)payloads_length, to, (size_t)room_length,
                                              items, count);
            (*env)->ReleasePrimitiveArrayCritical(env, room, to, 0);
        }
        if (from) (*env)->ReleasePrimitiveArrayCritical(env, payloads, from, JNI_ABORT);
        for (size_t i = 0; i < count; i++) {
            if (status == AVROGATE_NO_MEMORY) items[i].report.status = AVROGATE_NO_MEMORY;
            numbers[ITEM * i + 2] = (jlong)items[i].output_offset;
            write_report(numbers + ITEM * i + 3, &items[i].report);
        }
    }
    if (numbers) (*env)->ReleaseLongArrayElements(env, told, numbers, 0);
    free(items);
    return (jint)status;
}

JNIEXPORT jint JNICALL Java_avrogate_Native_canRead(JNIEnv *env, jclass self, jbyteArray writer, jbyteArray reader,
                                                    jlongArray told) {
    avrogate_report report = {AVROGATE_NO_MEMORY, 0, 0, 0, 0, 0, 0};
    jbyte *w = (*env)->GetByteArrayElements(env, writer, NULL), *r = (*env)->GetByteArrayElements(env, reader, NULL);
    (void)self;
    if (w && r) {
        report.status = avrogate_can_read((const char *)w, (size_t)(*env)->GetArrayLength(env, writer), (const char *)r,
                                          (size_t)(*env)->GetArrayLength(env, reader), &report.kind);
    }
    if (w) (*env)->ReleaseByteArrayElements(env, writer, w, JNI_ABORT);
    if (r) (*env)->ReleaseByteArrayElements(env, reader, r, JNI_ABORT);
    if (!(*env)->ExceptionCheck(env)) tell(env, told, &report);
    return (jint)report.status;
}

JNIEXPORT jstring JNICALL Java_avrogate_Native_statusText(JNIEnv *env, jclass self, jint status) {
    char room[64] = "";
    (void)self;
    avrogate_status_text((uint32_t)status, room, sizeof room);
    return (*env)->NewStringUTF(env, room);
}

JNIEXPORT jint JNICALL Java_avrogate_Native_version(JNIEnv *env, jclass self) {
    (void)env;
    (void)self;
    return (jint)avrogate_version();
}
