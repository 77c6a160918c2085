import java.net.URI;
import java.net.http.HttpClient;
import java.net.http.HttpRequest;
import java.net.http.HttpResponse;
import java.io.ByteArrayInputStream;
import java.io.ByteArrayOutputStream;
import java.util.Arrays;

/** Asks for messages to be rewritten by Java's client as it is. Usage: Client PORT */
public class Client {
    static byte[] message(int id, long number) {
        ByteArrayOutputStream out = new ByteArrayOutputStream();
        out.writeBytes(new byte[] {0, 0, 0, 0, (byte) id});
        long n = (number << 1) ^ (number >> 63);
        while ((n & ~127L) != 0) {
            out.write((int) (n & 127 | 128));
            n >>>= 7;
        }
        out.write((int) n);
        return out.toByteArray();
    }

    public static void main(String[] words) throws Exception {
        HttpClient client = HttpClient.newHttpClient();
        URI uri = URI.create("http://127.0.0.1:" + words[0] + "/transcode/2");
        int good = 0;
        for (int number = 0; number < 200; number++) {
            byte[] bytes = message(1, number);
            HttpRequest.BodyPublisher body = number % 2 == 0
                ? HttpRequest.BodyPublishers.ofByteArray(bytes)
                : HttpRequest.BodyPublishers.ofInputStream(() -> new ByteArrayInputStream(bytes));
            HttpRequest request = HttpRequest.newBuilder(uri).POST(body).expectContinue(number % 3 == 0).build();
            HttpResponse<byte[]> answer = client.send(request, HttpResponse.BodyHandlers.ofByteArray());
            if (answer.statusCode() == 200 && Arrays.equals(answer.body(), message(2, number))) {
                good++;
            } else {
                System.out.println("problem " + number + ": " + answer.statusCode());
            }
        }
        System.out.println("good " + good);
    }
}
