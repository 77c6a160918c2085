/* Four threads, each with transcoders of its own, and with one that they share under a lock, which one of them closes
 * at the end. */
#include <avrogate.h>

#include <pthread.h>
#include <stdio.h>
#include <string.h>

static const char writer[] = "{\"type\":\"record\",\"name\":\"T\",\"fields\":[{\"name\":\"a\",\"type\":\"long\"},{"
                             "\"name\":\"b\",\"type\":\"string\"}]}";
static const char reader[] =
    "{\"type\":\"record\",\"name\":\"T\",\"fields\":[{\"name\":\"b\",\"type\":[\"null\",\"string\"]},"
    "{\"name\":\"c\",\"type\":\"int\",\"default\":7}]}";
static pthread_mutex_t lock = PTHREAD_MUTEX_INITIALIZER;
static avrogate_transcoder shared = AVROGATE_TRANSCODER_INIT;

static long is_wrong(avrogate_transcoder *t) {
    static const uint8_t payload[] = {0x36, 0x06, 'f', 'o', 'o'}, wanted[] = {0x02, 0x06, 'f', 'o', 'o', 0x0e};
    avrogate_report report;
    uint8_t room[32];
    uint32_t status = avrogate_transcode(t, payload, sizeof payload, room, sizeof room, &report);
    return status != AVROGATE_OK || report.length != sizeof wanted || memcmp(room, wanted, sizeof wanted);
}

static void *work(void *wrong) {
    uint32_t fault;
    int pair, turn;
    for (pair = 0; pair < 20; pair++) {
        avrogate_transcoder own = AVROGATE_TRANSCODER_INIT;
        *(long *)wrong += avrogate_open(&own, writer, strlen(writer), reader, strlen(reader), &fault) != AVROGATE_OK;
        for (turn = 0; turn < 50; turn++) {
            *(long *)wrong += is_wrong(&own);
            pthread_mutex_lock(&lock);
            *(long *)wrong += is_wrong(&shared);
            pthread_mutex_unlock(&lock);
        }
        avrogate_close(&own);
    }
    return NULL;
}

int main(void) {
    pthread_t threads[4];
    long wrong[4] = {0, 0, 0, 0}, all = 0;
    uint32_t fault;
    int at;
    all += avrogate_open(&shared, writer, strlen(writer), reader, strlen(reader), &fault) != AVROGATE_OK;
    for (at = 0; at < 4; at++) all += pthread_create(&threads[at], NULL, work, &wrong[at]) != 0;
    for (at = 0; at < 4; at++) {
        pthread_join(threads[at], NULL);
        all += wrong[at];
    }
    avrogate_close(&shared);
    printf("%ld wrong\n", all);
    return all != 0;
}
