import java.io.ByteArrayInputStream;
import java.net.URI;
import java.net.http.HttpClient;
import java.net.http.HttpRequest;
import java.net.http.HttpRequest.BodyPublisher;
import java.net.http.HttpRequest.BodyPublishers;
import java.net.http.HttpResponse.BodyHandlers;

/** Sends batches of none, and prints the status of each reply. java Post.java URL KEY WAY COUNT */
class Post {
    public static void main(String[] words) throws Exception {
        byte[] none = "[]".getBytes();
        HttpClient client = HttpClient.newHttpClient();
        for (int place = 0; place < Integer.parseInt(words[3]); place++) {
            BodyPublisher body = words[2].equals("stream")
                ? BodyPublishers.ofInputStream(() -> new ByteArrayInputStream(none))
                : BodyPublishers.ofByteArray(none);
            HttpRequest request = HttpRequest.newBuilder(URI.create(words[0]))
                .header("x-ledger-key", words[1]).POST(body).build();
            System.out.println(client.send(request, BodyHandlers.discarding()).statusCode());
        }
    }
}
