package avrogate;

import java.lang.ref.Cleaner;
import java.nio.charset.StandardCharsets;
import java.util.ArrayList;
import java.util.List;

/** The program of a pair of schemas. Threads may share one: its calls take turns. Close it, or let it be collected. */
public final class Transcoder implements AutoCloseable {
    private static final Cleaner CLEANER = Cleaner.create();

    /** What became of one payload of a batch: its output, or why there is none. */
    public static final class Result {
        private final byte[] output;
        private final AvrogateException error;

        private Result(byte[] output, AvrogateException error) {
            this.output = output;
            this.error = error;
        }

        /** Returns the output, or throws why there is none. */
        public byte[] get() {
            if (error != null) {
                throw error;
            }
            return output;
        }
    }

    /** What is to be closed once. */
    private static final class Held implements Runnable {
        private long at;

        @Override
        public void run() {
            if (at != 0) {
                Native.close(at);
                at = 0;
            }
        }
    }

    private final Held held = new Held();
    private final Cleaner.Cleanable cleanable;
    private byte[] room = new byte[4096];

    /** Opens the transcoder of a pair of schemas, by their texts. */
    public Transcoder(String writer, String reader) {
        long[] report = new long[Native.REPORT];
        held.at = Native.open(bytesOf(writer), bytesOf(reader), report);
        if (held.at == 0) {
            throw AvrogateException.of(report, 0);
        }
        cleanable = CLEANER.register(this, held);
    }

    private static byte[] bytesOf(String text) {
        return text.getBytes(StandardCharsets.UTF_8);
    }

    /** Gives its memory back. A later call throws with the status CLOSED. */
    @Override
    public synchronized void close() {
        cleanable.clean();
    }

    /** Returns the reader's encoding of a payload. */
    public synchronized byte[] transcode(byte[] payload) {
        long[] report = new long[Native.REPORT];
        return outputOf(Native.transcode(open(), payload, report), report);
    }

    /** Returns the reader's message of a writer's, in Confluent's wire format. Of the ids all 32 bits count. */
    public synchronized byte[] transcodeMessage(int writerId, int readerId, byte[] message) {
        long[] report = new long[Native.REPORT];
        return outputOf(Native.transcodeMessage(open(), writerId, readerId, message, report), report);
    }

    /** Returns what becomes of each payload, by as few calls of the library as the room for their outputs allows. */
    public synchronized List<Result> transcodeBatch(List<byte[]> payloads) {
        Result[] results = new Result[payloads.size()];
        List<Integer> waiting = new ArrayList<>();
        long need = 64;
        for (int index = 0; index < payloads.size(); index++) {
            waiting.add(index);
            need += 2L * payloads.get(index).length;
        }
        while (!waiting.isEmpty()) {
            need = batch(payloads, waiting, need, results);
        }
        return List.of(results);
    }

    /** Finds what it can by one call, and takes it out of what waits. Returns how much room the rest needs. */
    private long batch(List<byte[]> payloads, List<Integer> waiting, long need, Result[] results) {
        int total = 0;
        long[] items = new long[waiting.size() * Native.ITEM];
        for (int at = 0; at < waiting.size(); at++) {
            items[at * Native.ITEM + Native.PAYLOAD_OFFSET] = total;
            int length = payloads.get(waiting.get(at)).length;
            items[at * Native.ITEM + Native.PAYLOAD_LENGTH] = length;
            total = Math.addExact(total, length);
        }
        byte[] buffer = new byte[total];
        for (int at = 0; at < waiting.size(); at++) {
            byte[] payload = payloads.get(waiting.get(at));
            System.arraycopy(payload, 0, buffer, (int) items[at * Native.ITEM + Native.PAYLOAD_OFFSET], payload.length);
        }
        if (room.length < need) {
            room = new byte[Math.toIntExact(need)];
        }
        Native.transcodeBatch(open(), buffer, room, items);
        List<Integer> still = new ArrayList<>();
        long more = 0;
        for (int at = 0; at < waiting.size(); at++) {
            int report = at * Native.ITEM + Native.ITEM_REPORT;
            int length = (int) items[report + Native.LENGTH];
            switch (Status.of((int) items[report + Native.STATUS])) {
                case OK:
                    byte[] output = new byte[length];
                    System.arraycopy(room, (int) items[at * Native.ITEM + Native.OUTPUT_OFFSET], output, 0, length);
                    results[waiting.get(at)] = new Result(output, null);
                    break;
                case ROOM_TOO_SMALL:
                    still.add(waiting.get(at));
                    more += length;
                    break;
                default:
                    results[waiting.get(at)] = new Result(null, AvrogateException.of(items, report));
            }
        }
        waiting.clear();
        waiting.addAll(still);
        return more;
    }

    /** Returns whether the reader can read all data of the writer, but for bytes that are no UTF-8. */
    public static boolean canRead(String writer, String reader) {
        long[] report = new long[Native.REPORT];
        Status status = Status.of(Native.canRead(bytesOf(writer), bytesOf(reader), report));
        if (status != Status.OK && status != Status.CANNOT_READ) {
            throw AvrogateException.of(report, 0);
        }
        return status == Status.OK;
    }

    /** Returns the version of the library. */
    public static String version() {
        int number = Native.version();
        return number / 10000 + "." + number / 100 % 100 + "." + number % 100;
    }

    private long open() {
        if (held.at == 0) {
            long[] report = new long[Native.REPORT];
            report[Native.STATUS] = Status.CLOSED.code();
            throw AvrogateException.of(report, 0);
        }
        return held.at;
    }

    private static byte[] outputOf(byte[] output, long[] report) {
        if (report[Native.STATUS] != Status.OK.code()) {
            throw AvrogateException.of(report, 0);
        }
        if (output == null) {
            throw new OutOfMemoryError("an output of " + report[Native.LENGTH] + " bytes");
        }
        return output;
    }
}
