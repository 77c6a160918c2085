package avrogate;

/** The calls of libavrogate_jni, which avrogate_jni.c makes of those of avrogate.h. */
final class Native {
    /** Where the numbers of a report stand in an array, and how many there are. */
    static final int STATUS = 0;
    static final int KIND = 1;
    static final int LENGTH = 2;
    static final int OFFSET = 3;
    static final int WRITER_NODE = 4;
    static final int READER_NODE = 5;
    static final int WRITER_ID = 6;
    static final int REPORT = 7;
    /** An item of a batch: where its payload lies and its output begins, and then its report. */
    static final int PAYLOAD_OFFSET = 0;
    static final int PAYLOAD_LENGTH = 1;
    static final int OUTPUT_OFFSET = 2;
    static final int ITEM_REPORT = 3;
    static final int ITEM = ITEM_REPORT + REPORT;

    static {
        String path = System.getProperty("avrogate.library");
        if (path == null) {
            System.loadLibrary("avrogate_jni");
        } else {
            System.load(path);
        }
    }

    private Native() {}

    /** Returns an open transcoder, or 0; writes the status and the fault of a text, as a report's first two numbers. */
    static native long open(byte[] writer, byte[] reader, long[] report);

    static native void close(long transcoder);

    /** Returns the output, or null; writes the report. */
    static native byte[] transcode(long transcoder, byte[] payload, long[] report);

    static native byte[] transcodeMessage(long transcoder, int writerId, int readerId, byte[] message, long[] report);

    /** Writes outputs into the room, and what is reported to the items. Returns the status. */
    static native int transcodeBatch(long transcoder, byte[] payloads, byte[] room, long[] items);

    /** Returns the status, and writes as `open`. */
    static native int canRead(byte[] writer, byte[] reader, long[] report);

    static native String statusText(int status);

    static native int version();
}
