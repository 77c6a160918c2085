package avrogate;

import java.io.BufferedReader;
import java.nio.charset.StandardCharsets;
import java.nio.file.Files;
import java.nio.file.Path;
import java.util.ArrayList;
import java.util.Arrays;
import java.util.List;

/** The classes on pairs of schemas and payloads whose answers are known, in the file that the first word names. */
public final class Cases {
    private static final String WRITER =
        "{\"type\":\"record\",\"name\":\"T\",\"fields\":[{\"name\":\"a\",\"type\":\"long\"},"
        + "{\"name\":\"b\",\"type\":\"string\"}]}";
    private static final String READER =
        "{\"type\":\"record\",\"name\":\"T\",\"fields\":[{\"name\":\"b\",\"type\":[\"null\",\"string\"]},"
        + "{\"name\":\"c\",\"type\":\"int\",\"default\":7}]}";
    private static final byte[] PAYLOAD = {0x36, 6, 'f', 'o', 'o'};
    private static final byte[] OUTPUT = {2, 6, 'f', 'o', 'o', 14};

    private static void same(Object told, Object wanted) {
        if (!told.equals(wanted)) {
            throw new AssertionError(told + ", wanted " + wanted);
        }
    }

    private static byte[] bytesOf(String hex) {
        byte[] bytes = new byte[hex.equals("-") ? 0 : hex.length() / 2];
        for (int at = 0; at < bytes.length; at++) {
            bytes[at] = (byte) Integer.parseInt(hex.substring(2 * at, 2 * at + 2), 16);
        }
        return bytes;
    }

    private static String hexOf(byte[] bytes) {
        StringBuilder hex = new StringBuilder();
        for (byte it : bytes) {
            hex.append(Character.forDigit(it >> 4 & 15, 16)).append(Character.forDigit(it & 15, 16));
        }
        return bytes.length == 0 ? "-" : hex.toString();
    }

    private static String line(AvrogateException error) {
        switch (error.status()) {
            case MISMATCH:
                return "mismatch " + error.kind() + " " + error.writerNode() + " " + error.readerNode();
            case MALFORMED:
                return "malformed " + error.kind() + " at " + error.offset();
            case BAD_WRITER:
                return "bad schema 1 " + error.kind();
            case BAD_READER:
                return "bad schema 2 " + error.kind();
            default:
                return error.getMessage();
        }
    }

    private interface Call {
        byte[] output();
    }

    private static String answer(Call call) {
        try {
            return "done " + hexOf(call.output());
        } catch (AvrogateException error) {
            return line(error);
        }
    }

    private static byte[] joined(byte[] head, byte[] rest) {
        byte[] whole = Arrays.copyOf(head, head.length + rest.length);
        System.arraycopy(rest, 0, whole, head.length, rest.length);
        return whole;
    }

    private static void compare(Transcoder transcoder, List<byte[]> payloads, List<String> answers) {
        List<Transcoder.Result> batch = transcoder.transcodeBatch(payloads);
        for (int at = 0; at < payloads.size(); at++) {
            byte[] payload = payloads.get(at);
            String wanted = answers.get(at);
            same(answer(() -> transcoder.transcode(payload)), wanted);
            same(answer(batch.get(at)::get), wanted);
            if (wanted.startsWith("done ")) {
                wanted = "done 0000000009" + (wanted.equals("done -") ? "" : wanted.substring(5));
            }
            same(answer(() -> transcoder.transcodeMessage(7, 9, joined(new byte[] {0, 0, 0, 0, 7}, payload))), wanted);
        }
    }

    private static int answersAreThoseOf(Path path) throws java.io.IOException {
        int count = 0;
        try (BufferedReader lines = Files.newBufferedReader(path, StandardCharsets.UTF_8)) {
            for (String rows = lines.readLine(); rows != null; rows = lines.readLine()) {
                String writer = lines.readLine();
                String reader = lines.readLine();
                List<byte[]> payloads = new ArrayList<>();
                List<String> answers = new ArrayList<>();
                for (int left = Integer.parseInt(rows); left > 0; left--) {
                    String[] row = lines.readLine().split(" ", 2);
                    payloads.add(bytesOf(row[0]));
                    answers.add(row[1]);
                }
                count += payloads.size();
                try (Transcoder transcoder = new Transcoder(writer, reader)) {
                    compare(transcoder, payloads, answers);
                } catch (AvrogateException error) {
                    answers.forEach(wanted -> same(line(error), wanted));
                }
            }
        }
        return count;
    }

    private static void messagesAreRewritten() {
        Transcoder transcoder = new Transcoder(WRITER, READER);
        byte[] message = joined(new byte[] {0, 0, 0, 1, 2}, PAYLOAD);
        same(hexOf(transcoder.transcodeMessage(258, 3, message)), "0000000003" + hexOf(OUTPUT));
        String other = "the message has the id of another writer: 258";
        same(answer(() -> transcoder.transcodeMessage(259, 3, message)), other);
        same(answer(() -> transcoder.transcodeMessage(258, 3, new byte[4])), "the bytes are no message: ShortEnvelope");
        transcoder.close();
        transcoder.close();
        same(answer(() -> transcoder.transcode(PAYLOAD)), "no pair of schemas is open");
    }

    private static void safetyAndVersionAreTold() {
        same(Transcoder.canRead(WRITER, READER), true);
        same(Transcoder.canRead(READER, WRITER), false);
        same(answer(() -> new byte[Transcoder.canRead("{", READER) ? 1 : 0]), "bad schema 1 NotJson");
        same(Transcoder.version(), "0.1.0");
    }

    private static void threadsShareOne() throws InterruptedException {
        List<Thread> threads = new ArrayList<>();
        List<String> wrong = java.util.Collections.synchronizedList(new ArrayList<>());
        try (Transcoder transcoder = new Transcoder(WRITER, READER)) {
            for (int index = 0; index < 4; index++) {
                threads.add(new Thread(() -> {
                    for (int turn = 0; turn < 1000; turn++) {
                        if (!Arrays.equals(transcoder.transcode(PAYLOAD), OUTPUT)) {
                            wrong.add("wrong");
                        }
                    }
                }));
            }
            threads.forEach(Thread::start);
            for (Thread thread : threads) {
                thread.join();
            }
        }
        same(wrong.size(), 0);
    }

    public static void main(String[] words) throws Exception {
        int count = answersAreThoseOf(Path.of(words[0]));
        messagesAreRewritten();
        safetyAndVersionAreTold();
        threadsShareOne();
        if (count == 0) {
            throw new AssertionError("no cases");
        }
        System.out.println(count + " payloads alone, as messages and in batches");
    }
}
