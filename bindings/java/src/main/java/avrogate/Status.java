package avrogate;

/** What a call comes to, in the order of the numbers of avrogate.h. */
public enum Status {
    OK, ROOM_TOO_SMALL, MISMATCH, MALFORMED, OUTPUT_TOO_LARGE, PAYLOAD_TOO_LARGE, NO_MEMORY, CLOSED, BAD_WRITER,
    BAD_READER, PROGRAM_TOO_LARGE, CANNOT_READ, BAD_ENVELOPE, OTHER_WRITER, OUT_OF_RANGE;

    private static final Status[] ALL = values();

    static Status of(int code) {
        return ALL[code];
    }

    int code() {
        return ordinal();
    }
}
