import java.io.BufferedReader;
import java.io.ByteArrayOutputStream;
import java.io.InputStreamReader;
import java.io.FileInputStream;
import java.io.PrintStream;
import java.nio.charset.StandardCharsets;
import org.apache.avro.Schema;
import org.apache.avro.generic.GenericDatumReader;
import org.apache.avro.generic.GenericDatumWriter;
import org.apache.avro.io.BinaryEncoder;
import org.apache.avro.io.DecoderFactory;
import org.apache.avro.io.EncoderFactory;

/** Answers pairs of schemas and payloads by Apache Avro for Java: for each payload a line, `done HEX` or `refused: WHY`. */
public class Peer {
    private static final long STACK = 1L << 26;

    public static void main(String[] words) throws Exception {
        Thread thread = new Thread(null, () -> answerAll(words[0], words[1]), "answers", STACK);
        thread.setUncaughtExceptionHandler((where, error) -> {
            error.printStackTrace();
            System.exit(1);
        });
        thread.start();
        thread.join();
    }

    private static void answerAll(String given, String answers) {
        try (BufferedReader in = new BufferedReader(new InputStreamReader(new FileInputStream(given), StandardCharsets.UTF_8));
                PrintStream out = new PrintStream(answers, "UTF-8")) {
            for (String count = in.readLine(); count != null; count = in.readLine()) {
                Pair pair = new Pair(in.readLine(), in.readLine());
                for (int i = Integer.parseInt(count); i > 0; i--) {
                    out.println(pair.answer(in.readLine()));
                }
            }
        } catch (java.io.IOException error) {
            throw new RuntimeException(error);
        }
    }

    private static class Pair {
        private Schema writer;
        private Schema reader;
        private String refusal;

        Pair(String writerText, String readerText) {
            try {
                writer = new Schema.Parser().parse(writerText);
                reader = new Schema.Parser().parse(readerText);
            } catch (Exception | StackOverflowError error) {
                refusal = why(error);
            }
        }

        String answer(String payload) {
            if (refusal != null) {
                return refusal;
            }
            try {
                Object datum = new GenericDatumReader<Object>(writer, reader).read(null,
                    DecoderFactory.get().binaryDecoder(bytes(payload), null));
                ByteArrayOutputStream out = new ByteArrayOutputStream();
                BinaryEncoder encoder = EncoderFactory.get().binaryEncoder(out, null);
                new GenericDatumWriter<Object>(reader).write(datum, encoder);
                encoder.flush();
                return "done " + (out.size() == 0 ? "-" : hex(out.toByteArray()));
            } catch (Exception | StackOverflowError | OutOfMemoryError error) {
                return why(error);
            }
        }
    }

    private static String why(Throwable error) {
        String words = ("refused: " + error).replaceAll("\\s+", " ");
        return words.substring(0, Math.min(words.length(), 300));
    }

    private static byte[] bytes(String hex) {
        byte[] bytes = new byte[hex.length() / 2];
        for (int i = 0; i < bytes.length; i++) {
            bytes[i] = (byte) Integer.parseInt(hex.substring(2 * i, 2 * i + 2), 16);
        }
        return bytes;
    }

    private static String hex(byte[] bytes) {
        StringBuilder hex = new StringBuilder();
        for (byte b : bytes) {
            hex.append(Character.forDigit(b >> 4 & 15, 16)).append(Character.forDigit(b & 15, 16));
        }
        return hex.toString();
    }
}
