package avrogate;

/** Why a call has no answer. Which of its parts count says its status. */
public final class AvrogateException extends RuntimeException {
    private static final long serialVersionUID = 1;
    private static final String[] MISMATCHES = {"", "NoMatch", "NoBranch", "NoSymbol", "NoDefault", "BytesNotText"};
    private static final String[] MALFORMED = {"", "BadNumber", "BadBoolean", "BadLength", "BadText", "BadEnum",
        "BadBranch", "BadBlock", "TooDeep", "TooMany", "Truncated", "Trailing"};
    private static final String[] ENVELOPES = {"", "ShortEnvelope", "BadMagic"};
    private static final String[] FAULTS = {"", "TooLarge", "NotJson", "BadNumber", "Unknown", "OutOfProfile", "BadName",
        "Redefined", "BadUnion", "BadSymbols", "BadDefault", "", "NotUtf8"};

    private final Status status;
    private final String kind;
    private final long offset;
    private final long writerNode;
    private final long readerNode;
    private final int writerId;

    private AvrogateException(Status status, String kind, long[] report, String words) {
        super(words);
        this.status = status;
        this.kind = kind;
        this.offset = report[Native.OFFSET];
        this.writerNode = report[Native.WRITER_NODE];
        this.readerNode = report[Native.READER_NODE];
        this.writerId = (int) report[Native.WRITER_ID];
    }

    /** The exception of a report that begins at a place of the numbers. */
    static AvrogateException of(long[] numbers, int from) {
        long[] report = java.util.Arrays.copyOfRange(numbers, from, from + Native.REPORT);
        Status status = Status.of((int) report[Native.STATUS]);
        int number = (int) report[Native.KIND];
        String words = Native.statusText(status.code());
        switch (status) {
            case MISMATCH:
                words += ": " + MISMATCHES[number] + ", types " + report[Native.WRITER_NODE];
                words += " and " + report[Native.READER_NODE];
                return new AvrogateException(status, MISMATCHES[number], report, words);
            case MALFORMED:
                words += ": " + MALFORMED[number] + " at " + report[Native.OFFSET];
                return new AvrogateException(status, MALFORMED[number], report, words);
            case BAD_ENVELOPE:
                return new AvrogateException(status, ENVELOPES[number], report, words + ": " + ENVELOPES[number]);
            case OTHER_WRITER:
                words += ": " + report[Native.WRITER_ID];
                return new AvrogateException(status, "", report, words);
            case BAD_WRITER:
            case BAD_READER:
                return new AvrogateException(status, FAULTS[number], report, words + ": " + FAULTS[number]);
            default:
                return new AvrogateException(status, "", report, words);
        }
    }

    public Status status() {
        return status;
    }

    /** The kind of a mismatch, of what is malformed or is no message, or the fault of a schema's text; else empty. */
    public String kind() {
        return kind;
    }

    /** Where in the payload its first fault is. */
    public long offset() {
        return offset;
    }

    /** The number of the writer's type at a mismatch, in the order in which types appear in its schema. */
    public long writerNode() {
        return writerNode;
    }

    /** The number of the reader's type at a mismatch. */
    public long readerNode() {
        return readerNode;
    }

    /** The id of another writer, of which all 32 bits count. */
    public int writerId() {
        return writerId;
    }
}
